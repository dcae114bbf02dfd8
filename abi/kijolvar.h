/* A till's devices for C: lines in, the text of their answers out. Written by abi/declare.py: don't change it by hand.
   abi/README.md says how it is used, docs/reference/console.md what the lines are. */
#ifndef KIJOLVAR_H
#define KIJOLVAR_H

#include <stddef.h>
#include <stdint.h>

#ifdef __cplusplus
extern "C" {
#endif

/* The version of this interface, which the library's has to be. */
#define KIJOLVAR_VERSION 2u

/* The least bytes of a file for totals. */
#define KIJOLVAR_DISK_LENGTH 327680

/* A till. Each call that is given one hands out what it is from then on, which is to be given to the next call; one at
   a time. Buffers don't overlap, and one of no bytes may be null. */
typedef struct {
    void *at;
} kijolvar_till;

/* What a host has to say of a device's hardware, as numbers. Only those of the device's kind count. */
typedef struct {
    /* A printer: how many characters it prints on a line, at least the device's RecLineChars. */
    uint32_t width;
    /* A printer: its cutter cuts both ways if this is 0, full only if 1, partial only if 2; there is none if 3. */
    uint32_t cutter;
    /* A printer: how far it feeds the paper before a cut, 0 to 255 dots; without a cutter, lines. */
    uint32_t feed;
    /* A printer: how many lines a good roll has, more than the device's paper is near its end at, at most 100,000. */
    uint32_t lines;
    /* A drawer: the pin of the connector that opens it, 2 or 5. */
    uint32_t pin;
    /* A drawer: how long the pulse lasts, 0 to 255, in 2 ms. */
    uint32_t on;
    /* A drawer: how long the pin is off then at least, 0 to 255, in 2 ms. */
    uint32_t off;
    /* A drawer: 1 if pin 3 of the connector is high while it is open, 0 if low. */
    uint32_t open_is_high;
    /* A display: its protocol is CD5220 if this is 0, ESC/POS if 1. */
    uint32_t protocol;
} kijolvar_wire_settings;

/* What a call answers. */
enum {
    /* The call did what it says. */
    KIJOLVAR_OK = 0,
    /* Memory ran out, and nothing was done but lines before one that is held. */
    KIJOLVAR_NO_MEMORY = 1,
    /* The profile is refused (docs/reference/profile.md). */
    KIJOLVAR_BAD_PROFILE = 2,
    /* The room is too short for what would be written. */
    KIJOLVAR_SHORT = 3,
    /* Memory ran out for the answer, of which a front is kept. */
    KIJOLVAR_CUT = 4,
    /* The lines were carried out, and their answer waits until the host has done its errands. */
    KIJOLVAR_ERRANDS = 5,
    /* Errands of earlier lines are left, so these lines were not carried out. */
    KIJOLVAR_UNDONE = 6,
    /* The file isn't as the totals are: an errand failed, or memory ran out for one. The till can only be closed. */
    KIJOLVAR_DISK_FAILED = 7,
    /* The file has totals already. */
    KIJOLVAR_FORMATTED = 8,
    /* The file is shorter than a disk of totals. */
    KIJOLVAR_TOO_SMALL = 9,
    /* The errand writes bytes at a place. */
    KIJOLVAR_WRITE = 10,
    /* The errand makes what was written stay. */
    KIJOLVAR_SYNC = 11,
    /* An order was written. */
    KIJOLVAR_ORDER = 12,
    /* No device of the name has orders, or replies. */
    KIJOLVAR_NO_DEVICE = 13,
    /* The profile isn't UTF-8, or is no TOML document. */
    KIJOLVAR_BAD_TEXT = 14,
    /* The file isn't formatted. */
    KIJOLVAR_UNFORMATTED = 15,
    /* The totals in the file are damaged. */
    KIJOLVAR_DAMAGED = 16,
    /* The totals in the file have layout 2 already. */
    KIJOLVAR_MOVED = 17,
    /* A control has an event to deliver. */
    KIJOLVAR_EVENT = 18,
    /* No control has the name. */
    KIJOLVAR_NO_CONTROL = 19,
    /* A line waits until the host has reported what became of an order. */
    KIJOLVAR_WAITS = 20,
    /* There is no order to report, or none that has bytes. */
    KIJOLVAR_NO_ORDER = 21,
    /* The settings of the hardware are out of their ranges. */
    KIJOLVAR_BAD_SETTINGS = 22,
};

/* The result codes of the standard, which stand in answers. */
enum {
    E_SUCCESS = 0,
    E_CLOSED = 101,
    E_CLAIMED = 102,
    E_NOTCLAIMED = 103,
    E_NOSERVICE = 104,
    E_DISABLED = 105,
    E_ILLEGAL = 106,
    E_NOHARDWARE = 107,
    E_OFFLINE = 108,
    E_NOEXIST = 109,
    E_EXISTS = 110,
    E_FAILURE = 111,
    E_TIMEOUT = 112,
    E_BUSY = 113,
    E_EXTENDED = 114,
};

/* Extended codes, behind E_EXTENDED. */
enum {
    ETOT_NOROOM = 201,
    EPTR_COVER_OPEN = 201,
    EPTR_REC_EMPTY = 203,
};

/* Where an error stands, in ErrorEvents. */
enum {
    EL_OUTPUT = 1,
    EL_INPUT = 2,
    EL_INPUT_DATA = 3,
};

/* States of a control (State). */
enum {
    S_CLOSED = 1,
    S_IDLE = 2,
    S_BUSY = 3,
    S_ERROR = 4,
};

/* Statuses of a cash drawer, in StatusUpdateEvents. */
enum {
    CASH_SUE_DRAWERCLOSED = 0,
    CASH_SUE_DRAWEROPEN = 1,
};

/* Statuses of a printer, in StatusUpdateEvents. */
enum {
    PTR_SUE_COVER_OPEN = 11,
    PTR_SUE_COVER_OK = 12,
    PTR_SUE_REC_EMPTY = 24,
    PTR_SUE_REC_NEAREMPTY = 25,
    PTR_SUE_REC_PAPEROK = 26,
};

/* Statuses of power, in StatusUpdateEvents. */
enum {
    SUE_POWER_ONLINE = 2001,
    SUE_POWER_OFF_OFFLINE = 2004,
};

/* Power: CapPowerReporting, PowerNotify, PowerState. */
enum {
    PR_NONE = 0,
    PR_STANDARD = 1,
    PN_DISABLED = 0,
    PN_ENABLED = 1,
    PS_UNKNOWN = 2000,
    PS_ONLINE = 2001,
    PS_OFF_OFFLINE = 2004,
};

/* Attributes of a display's text, and directions of a scroll. */
enum {
    DISP_DT_NORMAL = 0,
    DISP_DT_BLINK = 1,
    DISP_DT_REVERSE = 2,
    DISP_DT_BLINK_REVERSE = 3,
    DISP_ST_UP = 1,
    DISP_ST_DOWN = 2,
    DISP_ST_LEFT = 3,
    DISP_ST_RIGHT = 4,
};

/* The station of a receipt printer. */
enum {
    PTR_S_RECEIPT = 2,
};

/* Returns the version of this interface. It changes if a call's meaning or its parameters change, but not with the
   language of the lines. */
uint32_t kijolvar_version(void);

/* Makes a new till over the devices of a profile, which are simulated, with totals on a formatted disk in memory.
   Writes the till to out, and returns OK. The profile is TOML (docs/reference/profile.md); an empty one is the
   built-in profile.

   Errors:

   - BAD_PROFILE if the profile is refused. kijolvar_profile_mistake says why.
   - NO_MEMORY if memory ran out.

   Then nothing is written. */
uint32_t kijolvar_open(const uint8_t *profile, size_t profile_len, void **out);

/* Makes a new till as kijolvar_open does, but with totals in a file, which has these bytes. Writes the till to
   out, and returns OK.

   The host must keep the file open for writing as long as the till is there, let nobody else write it, and do in it
   what the till's disk does, errand by errand (kijolvar_next_errand). The totals of a file that is not formatted
   (kijolvar_format_file, or the program's format) can't be enabled.

   Errors:

   - BAD_PROFILE if the profile is refused.
   - TOO_SMALL if the file has fewer than 327,680 bytes.
   - NO_MEMORY if memory ran out.

   Then nothing is written. */
uint32_t kijolvar_open_file(const uint8_t *profile, size_t profile_len, const uint8_t *bytes, size_t bytes_len, void
    **out);

/* Makes a new till as kijolvar_open_file does, over a file that has no totals yet, of at least 327,680 bytes. Writes
   the till to out, and returns OK. The totals have no files (docs/reference/totals-file.md, "Formatting"). What
   formatting writes are the till's first errands.

   Errors:

   - BAD_PROFILE if the profile is refused.
   - TOO_SMALL if the file has fewer bytes, and FORMATTED if it has totals.
   - NO_MEMORY if memory ran out.

   Then nothing is written, and the file stays as it is. */
uint32_t kijolvar_format_file(const uint8_t *profile, size_t profile_len, const uint8_t *bytes, size_t bytes_len, void
    **out);

/* Makes a new till as kijolvar_open_file does, over a file whose totals have layout 1. Writes the till to out, and
   returns OK. The totals have layout 2 from then on, with the same files (docs/reference/totals-file.md, "The move to
   layout 2").

   What the move writes are the till's first errands. A crash at any moment of them leaves the files by one layout or
   the other, and the file may be moved again.

   Errors:

   - BAD_PROFILE if the profile is refused.
   - TOO_SMALL if the file has fewer than 327,680 bytes, UNFORMATTED if it has no totals, and DAMAGED if they are
     damaged.
   - MOVED if they have layout 2 already.
   - NO_MEMORY if memory ran out.

   Then nothing is written, and the file stays as it is. */
uint32_t kijolvar_migrate_file(const uint8_t *profile, size_t profile_len, const uint8_t *bytes, size_t bytes_len, void
    **out);

/* Writes why a profile is refused to text, as the program pos_console gives it, without a line feed, and to
   needed how many bytes the reason has. Returns OK if the profile isn't refused.

   Errors:

   - BAD_TEXT if it isn't UTF-8, or no TOML document. at is the place in its bytes where reading it stopped.
   - BAD_PROFILE if something in the document isn't sound. The reason names the entry.
   - SHORT if text has less room. Then a front of the reason is there.
   - NO_MEMORY if memory ran out.

   With OK and with NO_MEMORY nothing is written. */
uint32_t kijolvar_profile_mistake(const uint8_t *profile, size_t profile_len, uint64_t *at, uint8_t *text, size_t
    text_len, size_t *needed);

/* Writes the devices of a profile to text, in its order, and to needed how many bytes that is. Returns OK. Each
   device has a line: its name, its category, and the numbers of its kind after their keys, as r1 POSPrinter chars 8
   near 2.

   Errors:

   - SHORT if text has less room. Then a front is there.
   - BAD_PROFILE if the profile is refused, and NO_MEMORY if memory ran out. Then nothing is written. */
uint32_t kijolvar_devices(const uint8_t *profile, size_t profile_len, uint8_t *text, size_t text_len, size_t *needed);

/* Writes what the bytes of a totals file hold to text, and to needed how many bytes that is. Returns OK. The text
   is the lines that the program's files prints (docs/reference/console.md, "What a totals file holds").

   Errors:

   - DAMAGED if the bytes break a rule. text says which, and at where.
   - SHORT if text has less room for either. Then a front is there.
   - UNFORMATTED if they have no totals, TOO_SMALL if they are fewer than 327,680, and NO_MEMORY if memory ran out.
     Then nothing is written. */
uint32_t kijolvar_survey(const uint8_t *bytes, size_t bytes_len, uint64_t *at, uint8_t *text, size_t text_len, size_t
    *needed);

/* Carries out the lines of a text, each whole before the next. Writes to text what they print, and to needed how
   many bytes that is, and returns OK. What is after the last line feed is a line too. The till is what is written to
   out from then on.

   Errors:

   - SHORT if text has less room. All lines were carried out, a front of the answer is in text, and
     kijolvar_answer writes all of it.
   - CUT if memory ran out for what a line prints. That line was carried out, and no later one, and a front of the
     answer is kept.

   Of a till with a driven device (kijolvar_drive) also:

   - WAITS if a line waits for an order of the device. The lines before it were carried out, and text has their
     answer. It and the lines after it are held, and go on with kijolvar_order_done.
   - WAITS also if lines of an earlier call are held. Nothing was carried out or written.
   - NO_MEMORY if memory ran out for the lines. Nothing was carried out, and needed is 0. If it ran out for a line
     later, the answer of those before it is in text, and it and the lines after it are held.

   Of a till over a file also:

   - ERRANDS if the lines were carried out, and their answer is kept until the host has done its errands. Nothing is
     written.
   - UNDONE if errands of earlier lines are left. Nothing was carried out or written.
   - DISK_FAILED if one of them failed. Nothing was carried out or written.
   - DISK_FAILED also if memory ran out for an errand of these lines. What they changed may not be in the file. */
uint32_t kijolvar_carry_out(kijolvar_till till, void **out, const uint8_t *lines, size_t lines_len, uint8_t *text,
    size_t text_len, size_t *needed);

/* Writes the answer to the lines that were carried out last to text, as far as it was kept, and to needed how many
   bytes it has. Returns OK. Nothing is carried out. The till is what is written to out from then on.

   Errors:

   - SHORT if text has less room, and CUT as kijolvar_carry_out has it. Then a front of the answer is there.
   - WAITS and NO_MEMORY if lines are held. Then the answer of those before them is there.
   - ERRANDS if errands are left, and DISK_FAILED if one failed. Then nothing is written. */
uint32_t kijolvar_answer(kijolvar_till till, void **out, uint8_t *text, size_t text_len, size_t *needed);

/* Gives the host the next thing to do to its file. The errand before it is done when the host calls this. The till is
   what is written to out from then on. Returns one of these:

   - WRITE: needed bytes, which are in bytes, go to the place at, counted from 0.
   - SYNC: what was written must stay.
   - OK: no errand is left.

   Errors:

   - SHORT if bytes has less room than needed says. The errand stays the next one, and nothing else is written.
   - DISK_FAILED if an errand failed. */
uint32_t kijolvar_next_errand(kijolvar_till till, void **out, uint64_t *at, uint8_t *bytes, size_t bytes_len, size_t
    *needed);

/* Notes that an errand failed. What the till's lines changed may or may not be in the file, and none of them is
   answered. The till can only be closed. A new till over the file finds what is there. A till in memory stays as it
   is. The till is what is written to out from then on. */
void kijolvar_errand_failed(kijolvar_till till, void **out);

/* Notes that the host has the hardware of the device of this name, and returns OK. Each order that the device carries
   out from now on is kept for the host, which passes it to its hardware (kijolvar_next_order), while the simulated
   device answers for it. What happens at the hardware the host says by input lines. A host may call this again. The
   till is what is written to out from then on.

   Errors:

   NO_DEVICE if the profile has no device of the name, or it is one of Hard Totals, and NO_MEMORY if memory ran out.
   Then nothing changes. */
uint32_t kijolvar_host(kijolvar_till till, void **out, const uint8_t *name, size_t name_len);

/* Makes each order of the device of this name wait for the host from now on, and returns OK. A line that orders
   something is answered only after the host has passed the order to its hardware (kijolvar_next_order) and reported
   what became of it (kijolvar_order_done). An order that the simulated device would refuse is refused at once. The
   host may call this again, and may have called kijolvar_host before, which has no effect then. The till is what is
   written to out from then on.

   Errors:

   NO_DEVICE if the profile has no device of the name, it is one of Hard Totals, its line is flaky, or it is
   detached. Then nothing changes. */
uint32_t kijolvar_drive(kijolvar_till till, void **out, const uint8_t *name, size_t name_len);

/* Removes the oldest order of the devices that the host has, and writes its line to text and to needed how many
   bytes it has. Returns ORDER; or OK if no order is left, and needed is 0. The line has the device's name, the
   order's word and its arguments (abi/README.md). The till is what is written to out from then on.

   The order of a driven device comes after all others, and once. The host owes a report of it
   (kijolvar_order_done).

   Errors:

   - SHORT if text has less room than needed says. The order stays the next one, and nothing else is written.
   - ERRANDS if errands are left, and DISK_FAILED if one failed. Then nothing is written.
   - NO_MEMORY if memory ran out for the line of a driven device. Then nothing is written. */
uint32_t kijolvar_next_order(kijolvar_till till, void **out, uint8_t *text, size_t text_len, size_t *needed);

/* Reports the order of a driven device that the host has: outcome is 0 if the hardware has done it, and any other
   number if not. The line that waits for it goes on, and then the others that are held, up to one that waits again. It
   writes to text what these lines print, and to needed how many bytes that is, and returns OK. The till is what is
   written to out from then on.

   inputs are input lines, which say what happened at the hardware meanwhile. If the order is done, they are
   carried out after its line. If it isn't, they are carried out first: then the line is answered as the device stands,
   such as with an open cover, or it fails (E_FAILURE) if they don't say why.

   Errors:

   - SHORT, CUT, ERRANDS and DISK_FAILED as kijolvar_carry_out has them. After CUT no line is held.
   - WAITS if the next line waits for an order. text has the answer of the lines before it.
   - NO_MEMORY if memory ran out. The answer of the lines that went on is in text: no bytes if none did. The host may
     make the same call again: a report that was taken is kept, and isn't taken twice.
   - NO_ORDER if the host has no order of a driven device. Nothing was carried out or written. */
uint32_t kijolvar_order_done(kijolvar_till till, void **out, uint32_t outcome, const uint8_t *inputs, size_t inputs_len,
    uint8_t *text, size_t text_len, size_t *needed);

/* Takes the printed paper of the device of this name away, and returns OK. A printer keeps no line and no cut then,
   only the line that has begun, and a show line shows it so; another device stays as it is. A till keeps all that a
   printer prints until the host does this, which it may do after each receipt. The till is what is written to out
   from then on.

   Errors:

   NO_DEVICE if the profile has no device of the name, it is one of Hard Totals, or it is detached, and NO_MEMORY if
   memory ran out. Then nothing changes. */
uint32_t kijolvar_tear_off(kijolvar_till till, void **out, const uint8_t *name, size_t name_len);

/* Writes the bytes of the pending order of a driven device to bytes, and to needed how many they are, and returns
   OK. It is the order that waits, or that the host has. Send them to the hardware as they are (abi/README.md, "Bytes
   of orders"). This changes nothing of the till. The till is what is written to out from then on.

   - settings say what the hardware is. Only those of the device's kind count.
   - is_new is 1 if these are the first bytes of a connection, or if a line failed before: the hardware is started
     then, and a display gets all its rows. Otherwise it is 0.
   - end is what is asked of a printer behind the bytes: 0 to 65,535 the acknowledgement of a job of this number,
     65,536 its paper (GS r 1), 65,537 its drawer (GS r 2), and 65,538 or more nothing.

   Errors:

   - SHORT if bytes has less room. Then only needed is written.
   - NO_ORDER if no order is pending, or the order has no bytes for hardware of its kind.
   - BAD_SETTINGS if a setting of the device's kind is out of its range.
   - NO_MEMORY if memory ran out.

   But for SHORT nothing is written then. */
uint32_t kijolvar_order_bytes(kijolvar_till till, void **out, const kijolvar_wire_settings *settings, uint32_t is_new,
    uint32_t end, uint8_t *bytes, size_t bytes_len, size_t *needed);

/* Reads bytes that a printer sent, up to the end of the first reply. Writes the reply's lines to text, and to
   needed how many bytes they have, 0 if no reply ends in these bytes. Returns OK. name is the printer's device, or
   that of the drawer on its connector. This changes nothing of the till. The till is what is written to out from
   then on.

   - asked is what the printer was asked before: 1 to 4 DLE EOT of this number, 5 GS r 1, 6 GS r 2, and 0 nothing.
   - used says how many bytes were read, with the reply. Pass the others again, with what comes behind them.
   - skipped says how many of those are no reply.

   The lines are input lines by which the device becomes what the printer says, and then status with what it says;
   or job and a number, if all of that job is printed (abi/README.md, "Bytes of orders").

   Errors:

   - SHORT if text has less room. Then only needed is written, and no byte is used.
   - NO_DEVICE if the profile has no printer or drawer of the name, or it is detached.
   - BAD_SETTINGS if a setting of the device's kind is out of its range.
   - NO_MEMORY if memory ran out.

   But for SHORT nothing is written then. */
uint32_t kijolvar_replies(kijolvar_till till, void **out, const uint8_t *name, size_t name_len, const
    kijolvar_wire_settings *settings, uint32_t asked, const uint8_t *bytes, size_t bytes_len, size_t *used, size_t
    *skipped, uint8_t *text, size_t text_len, size_t *needed);

/* Writes the number of the control of this name to control, and returns OK. The controls of a till are numbered from
   0, in the order of their new lines that were answered ok. The till is what is written to out from then on.

   Errors:

   NO_CONTROL if no control has the name. Then nothing is written. */
uint32_t kijolvar_control(kijolvar_till till, void **out, const uint8_t *name, size_t name_len, size_t *control);

/* Writes the lowest number, from or above, of a control that has an event to deliver to control, and returns
   EVENT; or returns OK if no such control has one. A deliver line of that control gives the event. This changes
   nothing of the till. The till is what is written to out from then on.

   Errors:

   ERRANDS if errands are left, and DISK_FAILED if one failed. Then nothing is written, and neither with OK. */
uint32_t kijolvar_next_event(kijolvar_till till, void **out, size_t from, size_t *control);

/* Closes a till, its totals at rest. Errands and orders that are left are dropped. */
void kijolvar_close(kijolvar_till till);

#ifdef __cplusplus
}
#endif

#endif
