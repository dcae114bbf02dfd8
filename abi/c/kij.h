/**
 * @file kij.h
 * A till's devices for C99 and C++: typed calls over the library's text interface (kijolvar.h).
 *
 * A till (kij_till) has the devices of a profile. An application uses a device through a control (kij_control), as
 * UnifiedPOS has it: open, claim, enable, and then the device's methods and properties, which kij_controls.h declares.
 *
 * @code
 *   kij_till *till;
 *   kij_control *drawer;
 *   kij_result r = kij_open(NULL, "sales.disk", KIJ_CREATE, &till);
 *   if (r.code == KIJ_OK) r = kij_start(till, KIJ_CASH_DRAWER, "d1", KIJ_UNCLAIMED, &drawer);
 *   if (r.code == KIJ_OK) r = kij_drawer_open(drawer);
 *   if (r.code != KIJ_OK) fprintf(stderr, "%s\n", kij_strerror(r));
 * @endcode
 *
 * **Results.** Each call returns a kij_result. Its code is KIJ_OK (0), a result code of the standard (KIJ_E_CLOSED and
 * so on, from 101 on), or a code of enum kij_code. If it isn't KIJ_OK, the call changed nothing, unless the code's
 * comment says otherwise, and wrote nothing through its pointers. Hardware that a driver has may have done a part of an
 * order that failed. Any call with a till or a control may return KIJ_BAD_ARGUMENT, KIJ_IN_CALL, KIJ_NO_MEMORY,
 * KIJ_NO_ANSWER, KIJ_DISK_FAILED or KIJ_BAD_ANSWER. Its comment says what else it returns.
 *
 * **Memory.** The till owns its controls and all that it lends. A text or bytes that a call returns by a pointer are
 * lent: they stay until the next call with the same till. Nothing is yours to free but the till, by kij_close. What you
 * pass is used in the call alone, or copied, but for the context of kij_driver_open. Each allocation is checked.
 *
 * **Threads.** One call at a time for each till; two tills are independent. You may use a till from several threads in
 * turn, if a lock or a join orders the calls. A call that begins while another one of the same till is under way does
 * nothing and returns KIJ_IN_CALL. This finds mistakes; it is no lock: what one thread was lent, a call of another
 * thread overwrites. A call runs on the stack of its thread, which needs 128 KiB; and 4 MiB for kij_open,
 * kij_profile_mistake and kij_devices with a profile that somebody else wrote, which may be deeply nested.
 *
 * **Listeners** are called between calls, so a listener may use the till, but it must not close it.
 */
#ifndef KIJ_H
#define KIJ_H

#include <stdbool.h>
#include <stddef.h>
#include <stdint.h>

/** The version of this interface: it changes if a program that was compiled with an older header might not work. */
#define KIJ_VERSION 1

/** The release of the header. kij_release() returns that of the archive. */
#define KIJ_RELEASE "0.1.0"

/** In place of a size: the bytes are a text that ends in a 0 byte, which isn't one of them. */
#define KIJ_ZERO_ENDED ((size_t)-1)

#ifdef __cplusplus
extern "C" {
#endif

/** A till: the devices of a profile, and their controls. */
typedef struct kij_till kij_till;

/** A control: an application's handle on a device. It belongs to its till, which ends it. */
typedef struct kij_control kij_control;

/** The categories of devices. */
typedef enum kij_category {
    KIJ_NO_CATEGORY = 0,
    KIJ_CASH_DRAWER = 1,
    KIJ_SCANNER = 2,
    KIJ_LINE_DISPLAY = 3,
    KIJ_POS_PRINTER = 4,
    KIJ_HARD_TOTALS = 5
} kij_category;

/** What came of a call. */
typedef struct kij_result {
    /** KIJ_OK, a result code of the standard (KIJ_E_...), or a code of enum kij_code. */
    int code;
    /** The extended code if the code is KIJ_E_EXTENDED; errno if it is KIJ_SYSTEM; else 0. */
    int extended;
    /** The category of the control that was asked, or KIJ_NO_CATEGORY. Extended codes depend on it. */
    kij_category category;
} kij_result;

/** The codes that aren't the standard's. */
enum kij_code {
    /** The call succeeded. */
    KIJ_OK = 0,
    /** There was no memory, and nothing was done. */
    KIJ_NO_MEMORY = 1,
    /** The profile is refused (docs/reference/profile.md). */
    KIJ_BAD_PROFILE = 2,
    /** The call was carried out, but there was no memory for its answer. */
    KIJ_NO_ANSWER = 4,
    /** The file of the totals couldn't be written: kij_disk_error says why. The last call may be in it or not, and the
     * till can only be closed. */
    KIJ_DISK_FAILED = 7,
    /** The file is shorter than a disk of totals. */
    KIJ_TOO_SMALL = 9,
    /** The profile has no device of the name that has orders; or the device has no driver, or can't have one, as with
     * `flaky` in the profile. */
    KIJ_NO_DEVICE = 13,
    /** The file isn't formatted: it has no totals. */
    KIJ_UNFORMATTED = 15,
    /** The bytes of the file break a rule of totals (docs/reference/totals-file.md): kij_files says which. Nothing was
       written. */
    KIJ_DAMAGED = 16,
    /** The totals in the file have layout 2 already. Nothing was written. */
    KIJ_MOVED = 17,
    /** The typed layer was compiled with the header (kijolvar.h) of another version of the library. Nothing compares
     * kij.h: a program compares KIJ_VERSION with kij_version() itself. */
    KIJ_WRONG_VERSION = 32,
    /** The system refused a call on the file of the totals. The extended code is errno: ENOENT if the file is missing,
     * or its folder or /proc to create it; EEXIST if it is there already, EWOULDBLOCK if another till has it,
     * EOPNOTSUPP if it can't be created on its file system (abi/README.md, "Totals files"). */
    KIJ_SYSTEM = 33,
    /** An argument can't be passed on: a null pointer, a flag that isn't one, a name that isn't 1 to 16 letters, digits
     * or hyphens, a number of more than 18 digits, or bytes that are too many for a line (69,000 always fit). */
    KIJ_BAD_ARGUMENT = 34,
    /** The property has another type, or the device another category. */
    KIJ_WRONG_TYPE = 35,
    /** Another call of the same till is under way, as when a driver calls its till. Nothing was done. */
    KIJ_IN_CALL = 36,
    /** The library answered something that this version doesn't know. The call was carried out. */
    KIJ_BAD_ANSWER = 37,
    /** A listener of kij_pump gave the control back (kij_discard). The events before that were delivered. */
    KIJ_DISCARDED = 38,
    /** A control of the till has the name already. */
    KIJ_NAME_IN_USE = 40,
    /** The till has as many controls as it may have (4,096). */
    KIJ_FULL = 41,
    /** The profile has no device of the name, or no peripheral is attached to it. */
    KIJ_BAD_DEVICE = 42,
    /** The device has no such input, or its number is out of range. */
    KIJ_BAD_INPUT = 43,
    /** There is no spare of the number, or it serves a device. */
    KIJ_BAD_SPARE = 44,
    /** The profile has no device of the name that may have a peripheral. */
    KIJ_UNKNOWN = 45,
    /** The device has its peripheral, or a control has the device open. */
    KIJ_IN_USE = 46,
    /** The spare, or the driver, is of another kind than the device. */
    KIJ_KIND_DIFFERS = 47,
    /** No peripheral is attached to the device. */
    KIJ_VACANT = 48,
    /** The device has a driver already. */
    KIJ_DRIVEN = 49,
    /** A setting of the hardware is out of its range, or no port can have the name. */
    KIJ_BAD_SETTINGS = 50
};

/** Returns what a result means, in English. For most of KIJ_SYSTEM these are the system's own words (strerror). The
 * text is static. kij_reason says why this call was refused. */
const char *kij_strerror(kij_result result);

/** Returns what the result of the till's last call means, in English: why that call was refused, if a control refused
 * it. Of KIJ_E_OFFLINE it says, too, why the port of the device isn't open, if it isn't: "The printer is off: No such
 * file or directory." Such a text is lent; any other is static. Of any other result, and without a till, it is
 * kij_strerror's text. */
const char *kij_reason(const kij_till *till, kij_result result);

/** Returns the name of a result's code, as "E_ILLEGAL" or "KIJ_BAD_PROFILE". KIJ_OK has "E_SUCCESS", and what is no
 * code "". The text is static. */
const char *kij_code_name(int code);

/** Returns the name of a result's extended code, as "EPTR_REC_EMPTY"; or "" if it has none. The text is static. */
const char *kij_extended_name(kij_result result);

/** Returns the KIJ_VERSION with which the archive was compiled. */
int kij_version(void);

/** Returns the KIJ_RELEASE with which the archive was compiled. The text is static. */
const char *kij_release(void);

/* ---- Tills ---- */

/** How kij_open finds the file of the totals. */
enum kij_flags {
    /** The file has to be there. */
    KIJ_EXISTING = 0,
    /** The file is created if it is missing. */
    KIJ_CREATE = 1,
    /** The file is created, and mustn't be there: otherwise KIJ_SYSTEM with EEXIST. */
    KIJ_CREATE_NEW = 2
};

/**
 * Opens a till. Its thread needs 128 KiB of stack, and 4 MiB for a profile that somebody else wrote.
 *
 * Creating a file is all or nothing: it gets its name once it is whole and synced. The file is locked (flock) until
 * kij_close. A call that changes the totals returns once the change is synced. In a process that was forked from the
 * till's, such a call writes nothing: KIJ_DISK_FAILED.
 *
 * @param profile the profile's text (TOML, docs/reference/profile.md), which ends in a 0 byte; null is the built-in
 *   profile, and an empty text one without devices
 * @param totals  the path of the file of the totals; null with KIJ_EXISTING: the totals are in memory, and end with the
 *   till
 * @param flags   one of enum kij_flags
 * @param till    where the till is written
 * @return KIJ_BAD_ARGUMENT (another number as flags, a null path with KIJ_CREATE or KIJ_CREATE_NEW, or a null till),
 * KIJ_BAD_PROFILE, KIJ_NO_MEMORY, KIJ_WRONG_VERSION, KIJ_SYSTEM, KIJ_TOO_SMALL or KIJ_DISK_FAILED on failure. A file
 * that isn't formatted opens; enabling its totals is KIJ_E_NOHARDWARE. A file that was created stays after
 * KIJ_NO_MEMORY.
 */
kij_result kij_open(const char *profile, const char *totals, int flags, kij_till **till);

/** Closes a till and its controls, and the file of its totals. Null is fine. No other call of the till may be under
 * way. In a process that was forked it leaves the lock and the devices to the process that opened the till. Such a
 * process that lives on should call it too: otherwise it keeps device files open, as /dev/usb/lp0, which no other
 * process can open then. */
void kij_close(kij_till *till);

/** Returns why the file of the totals failed (errno), or 0 if it hasn't: ENOSPC if the disk is full, EPERM after a
 * change in a forked process, ENOMEM without memory. Without a till it is 0. */
int kij_disk_error(const kij_till *till);

/**
 * Carries out lines of the text interface (docs/reference/console.md) one after the other, and returns their answers.
 *
 * @param lines  the lines, each but the last ended by a line feed; may be null if size is 0
 * @param size   how many bytes, or KIJ_ZERO_ENDED
 * @param answer lent: the answers, a line each, with a 0 byte at the end
 * @return KIJ_NO_ANSWER if memory ran out within the answers: lines up to one were carried out, and a front is in
 * answer. With a driven device the lines behind that one may be carried out by the next call, but for their orders,
 * which fail. The same holds of all lines after KIJ_NO_MEMORY
 */
kij_result kij_carry_out(kij_till *till, const char *lines, size_t size, const char **answer);

/* ---- Profiles and files of totals, without a till ---- */

/** What is wrong with a profile. */
typedef struct kij_mistake {
    /** Where the text stops being TOML, counted from 1; 0 if it is TOML. A column counts characters. */
    size_t line;
    size_t column;
    /** What is wrong, in English. The entry is named if it is in one. A longer reason is cut. */
    char reason[256];
} kij_mistake;

/**
 * Returns why a profile is refused. Its thread needs as much stack as for kij_open.
 *
 * @param profile the profile's text, as kij_open takes it
 * @param mistake where it is written what is wrong; all 0 if nothing is
 * @return KIJ_BAD_PROFILE, and mistake says why; KIJ_OK if the profile isn't refused; KIJ_NO_MEMORY, KIJ_WRONG_VERSION;
 * KIJ_BAD_ARGUMENT without a mistake
 */
kij_result kij_profile_mistake(const char *profile, kij_mistake *mistake);

/** A device of a profile. Numbers that its category doesn't have are 0. */
typedef struct kij_device {
    char name[17];
    kij_category category;
    /** The size of a line display. */
    int rows;
    int columns;
    /** The characters of a printer's line, and how many lines of paper are left where its paper is near its end. */
    int chars;
    int near_end;
} kij_device;

/**
 * Lists the devices of a profile, in its order. Its thread needs as much stack as for kij_open.
 *
 * @param profile the profile's text, as kij_open takes it
 * @param devices room for them; null if room is 0
 * @param room    how many there is room for; further ones aren't written
 * @param count   where it is written how many the profile has
 * @return KIJ_BAD_PROFILE, KIJ_NO_MEMORY, KIJ_WRONG_VERSION or KIJ_BAD_ARGUMENT on failure
 */
kij_result kij_devices(const char *profile, kij_device *devices, size_t room, size_t *count);

/**
 * Returns what a file of totals holds, in the lines that `pos_console files` prints (docs/reference/console.md, "What a
 * totals file holds"), or which rule its bytes break. No till may have the file open. It is synced and read, and locked
 * for readers meanwhile: a till that opens it then gets EWOULDBLOCK.
 *
 * @param text   room for the text, which is cut if it is longer, and ends in a 0 byte; null if room is 0
 * @param room   how many bytes there is room for
 * @param needed where it is written how many bytes the text has without the 0 byte; 0 if there is no text
 * @param place  where the place is written, in bytes from the first of the file, if the code is KIJ_DAMAGED
 * @return KIJ_DAMAGED, and text is the rule; KIJ_UNFORMATTED, KIJ_TOO_SMALL, KIJ_NO_MEMORY, KIJ_WRONG_VERSION;
 * KIJ_SYSTEM, with ENOENT if there is no file, EWOULDBLOCK if a till has it, or why it couldn't be opened, synced or
 * read; KIJ_BAD_ARGUMENT without a path
 */
kij_result kij_files(const char *path, char *text, size_t room, size_t *needed, uint64_t *place);

/**
 * Copies a file of totals to a path where nothing is, also while a till has it open. The file is only read, and not
 * locked: again and again, until two readings in a row give the same bytes. They have to be sound. The copy appears
 * whole or not at all: it is written to a file beside it, with `.part` at its end, and synced before it gets its name.
 * Without hard links, as on a FAT stick, an empty file takes the name first, so a power cut may leave it empty.
 *
 * @param path the path of the file
 * @param to   the path of the copy, which is for its owner alone
 * @return KIJ_DAMAGED, KIJ_UNFORMATTED, KIJ_TOO_SMALL, KIJ_NO_MEMORY, KIJ_WRONG_VERSION; KIJ_SYSTEM, with EEXIST if
 * anything has the name of the copy, or that with `.part` at its end, as after a crash; with EWOULDBLOCK if the file
 * changes from each of 1,000 readings to the next; or with why it couldn't be read, or the copy not be made;
 * KIJ_BAD_ARGUMENT without a path
 */
kij_result kij_backup(const char *path, const char *to);

/**
 * Moves the totals in a file to layout 2, in place: their files stay, and may be more and longer from then on. A crash
 * at any moment leaves the files by one layout or the other, and you can move the file again. If it failed, restart the
 * machine first (docs/reference/trouble.md).
 *
 * @return KIJ_MOVED, KIJ_DAMAGED, KIJ_UNFORMATTED, KIJ_TOO_SMALL, KIJ_NO_MEMORY, KIJ_WRONG_VERSION, KIJ_DISK_FAILED, or
 * KIJ_SYSTEM on failure, also with why the file couldn't be written; KIJ_BAD_ARGUMENT without a path
 */
kij_result kij_migrate(const char *path);

/* ---- Controls ---- */

/** Whether kij_start claims the device. */
enum kij_claiming { KIJ_UNCLAIMED = 0, KIJ_CLAIMED = 1 };

/**
 * Makes a control, which is closed.
 *
 * @param name    the control's name in lines of the text interface, 1 to 16 letters, digits or hyphens; null makes one
 * up. One that was given back has it again by the same name
 * @param control where the control is written; it stays until the till is closed
 * @return KIJ_NAME_IN_USE, KIJ_FULL, KIJ_NO_MEMORY or KIJ_BAD_ARGUMENT on failure
 */
kij_result kij_new(kij_till *till, kij_category category, const char *name, kij_control **control);

/**
 * Makes a control, opens it on a device, claims the device if claiming is KIJ_CLAIMED, and enables it. Scanners, line
 * displays and printers have to be claimed. If a step fails, its result is returned, and there is no control. To set
 * PowerNotify before the control is enabled, use kij_new, kij_control_open and kij_set_int.
 *
 * @param claiming one of enum kij_claiming; it is no timeout: another number is KIJ_BAD_ARGUMENT
 * @return KIJ_E_NOEXIST or KIJ_E_NOSERVICE if there is no such device; KIJ_E_TIMEOUT or KIJ_E_CLAIMED if another
 * control has claimed it; KIJ_E_NOTCLAIMED if it has to be claimed; KIJ_E_NOHARDWARE or KIJ_E_FAILURE of totals; or
 * KIJ_FULL on failure
 */
kij_result kij_start(kij_till *till, kij_category category, const char *device, int claiming, kij_control **control);

/** Closes a control if it is open, and gives it back to its till, which may hand it out again. Don't use it afterwards.
 * One that can't be closed, as without memory, is closed by a later call on a control, and isn't handed out before. A
 * listener may give back the control of its event. Null is fine. */
void kij_discard(kij_control *control);

/** Returns the control's name in lines of the text interface. It stays until the till is closed. Neither this nor the
 * next three take null. */
const char *kij_name(const kij_control *control);

/** Returns the control's category. */
kij_category kij_category_of(const kij_control *control);

/** Returns the control's till. */
kij_till *kij_till_of(const kij_control *control);

/** Returns the name of the device on which the control is open, or null if it is closed. It doesn't see lines that open
 * or close the control (kij_carry_out). The text stays until the control is opened again. */
const char *kij_device_of(const kij_control *control);

/* ---- Events ---- */

/** The kinds of events. */
typedef enum kij_event_kind {
    /** There is no event to deliver. */
    KIJ_NO_EVENT = 0,
    /** The device has another status now: see status. */
    KIJ_STATUS_UPDATE_EVENT = 1,
    /** A bar code was read: ScanData, ScanDataLabel and ScanDataType have it. DataEventEnabled is false now. */
    KIJ_DATA_EVENT = 2,
    /** Input or output failed: see error and locus. kij_reply_to says what happens next. */
    KIJ_ERROR_EVENT = 3,
    /** A request that was queued is printed: see output_id. */
    KIJ_OUTPUT_COMPLETE_EVENT = 4
} kij_event_kind;

/** An event. Each field but kind and control is 0 unless the kind has it. */
typedef struct kij_event {
    /** Which fields are set. */
    kij_event_kind kind;
    /** The control to which the event was delivered. */
    kij_control *control;
    /** KIJ_STATUS_UPDATE_EVENT: KIJ_CASH_SUE_..., KIJ_PTR_SUE_... or KIJ_SUE_POWER_... */
    int status;
    /** KIJ_ERROR_EVENT: why it failed. */
    kij_result error;
    /** KIJ_ERROR_EVENT: KIJ_EL_OUTPUT, KIJ_EL_INPUT or KIJ_EL_INPUT_DATA. */
    int locus;
    /** KIJ_OUTPUT_COMPLETE_EVENT: the OutputID of the request. */
    int64_t output_id;
} kij_event;

/** The replies to an ErrorEvent (ErrorResponse of the standard). */
typedef enum kij_reply {
    /** What the standard has as the default: ER_RETRY at EL_OUTPUT, ER_CONTINUEINPUT at EL_INPUT_DATA, ER_CLEAR at
       EL_INPUT. */
    KIJ_ER_DEFAULT = 0,
    /** Tries the output again. */
    KIJ_ER_RETRY = 11,
    /** Deletes the output that waits, or the input that is held. */
    KIJ_ER_CLEAR = 12,
    /** Goes on with the input that is held. */
    KIJ_ER_CONTINUEINPUT = 13
} kij_reply;

/** Listens to events. Its reply counts for a KIJ_ERROR_EVENT alone, and only if it didn't give the event's control back
 * (kij_discard). */
typedef kij_reply (*kij_listener)(const kij_event *event, void *with);

/**
 * Delivers the control's next event, or writes KIJ_NO_EVENT. An ErrorEvent has the default reply; kij_reply_to gives
 * another. None is delivered while the control is closed or FreezeEvents is true, and no DataEvent while
 * DataEventEnabled is false.
 */
kij_result kij_next_event(kij_control *control, kij_event *event);

/** Delivers the next event of any control of the till, or writes KIJ_NO_EVENT with a null control. Of several controls
 * with an event it is the one that was made first. The event says whose it is. This asks the library once, however many
 * controls there are. Controls that lines made are passed over. */
kij_result kij_next_event_of_any(kij_till *till, kij_event *event);

/** Delivers the control's next event, and replies to it beforehand if it is an ErrorEvent. */
kij_result kij_next_event_replied(kij_control *control, kij_reply reply, kij_event *event);

/**
 * Replies to an ErrorEvent that was delivered, in place of the default reply. Reply before you ask the control anything
 * else. Other events are left alone.
 */
kij_result kij_reply_to(const kij_event *event, kij_reply reply);

/** Passes each event of a control to a listener, in order, until none is left, and replies to ErrorEvents as it
 * returns. It ends with KIJ_DISCARDED if the listener gave the control back, though the till may have handed that out
 * again. */
kij_result kij_pump(kij_control *control, kij_listener listen, void *with);

/** Passes each event of each control of the till to a listener, one of each control in turn, until none is left, and
 * replies as kij_pump does. Controls that lines made are passed over. It goes on if the listener gave a control
 * back. */
kij_result kij_pump_all(kij_till *till, kij_listener listen, void *with);

/* ---- The devices' side: inputs, work, exchange. Devices are simulated; a host with hardware says what happens there.
 * ---- */

/* Each input is KIJ_BAD_DEVICE if there is no such device, it has no peripheral, or it is the totals; and KIJ_BAD_INPUT
   if it is of another category, or a number is too large. A negative number is KIJ_BAD_ARGUMENT. */

/** A cash drawer is opened or closed by hand. */
kij_result kij_input_drawer(kij_till *till, const char *device, bool is_open);

/** A scanner reads a code: its type, 0 to 999 (KIJ_SCAN_SDT_EAN13 and the like), all that was read, and its label. A
 * size may be KIJ_ZERO_ENDED. */
kij_result kij_input_scan(kij_till *till, const char *device, int64_t type, const void *data, size_t data_size,
                          const void *label, size_t label_size);

/** A scanner fails to read. */
kij_result kij_input_scan_fault(kij_till *till, const char *device);

/** A printer's cover is opened or closed by hand. */
kij_result kij_input_cover(kij_till *till, const char *device, bool is_open);

/** A printer is loaded with paper: 0 to 100,000 lines are left. */
kij_result kij_input_paper(kij_till *till, const char *device, int64_t lines);

/** A device is switched on or off. */
kij_result kij_input_power(kij_till *till, const char *device, bool is_on);

/** What kij_work did. */
typedef enum kij_work_kind { KIJ_IDLE = 0, KIJ_WORK_DONE = 1, KIJ_WORK_FAILED = 2 } kij_work_kind;

/** What kij_work did: nothing; or the request with output_id; or the first request failed for this error. */
typedef struct kij_work_report {
    kij_work_kind kind;
    int64_t output_id;
    kij_result error;
} kij_work_report;

/** Works on the output that waits for a printer (AsyncMode): its first request is done, or fails. Another device has
 * nothing to do. KIJ_BAD_DEVICE if there is no such device, it has no peripheral, or it is the totals. */
kij_result kij_work(kij_till *till, const char *device, kij_work_report *report);

/** Returns what a simulated device is physically, as docs/reference/console.md says under "Answers". The text is lent.
 * This and the next three are KIJ_BAD_DEVICE if there is no such device, it has no peripheral, or it is the totals. */
kij_result kij_show(kij_till *till, const char *device, const char **text);

/** Returns whether a simulated drawer is open. KIJ_WRONG_TYPE if the device is no drawer. */
kij_result kij_show_drawer(kij_till *till, const char *device, bool *is_open);

/** What a line display shows: its characters row by row, and for each its attribute as a digit (KIJ_DISP_DT_...). Lent.
 */
typedef struct kij_display_view {
    const uint8_t *characters;
    size_t size;
    const char *attributes;
} kij_display_view;

/** Returns what a simulated line display shows. KIJ_WRONG_TYPE if the device is none. */
kij_result kij_show_display(kij_till *till, const char *device, kij_display_view *view);

/** The kinds of what a printer has printed. */
typedef enum kij_printed_kind { KIJ_PRINTED_LINE = 0, KIJ_PRINTED_CUT = 1 } kij_printed_kind;

/** What a printer has printed: a line, or a cut. */
typedef struct kij_printed {
    kij_printed_kind kind;
    /** Of a line: 'l', 'c' or 'r' (left, centre, right); 0 of the line buffer. */
    char alignment;
    /** Of a line: its characters, and for each '1' if it is bold, and else '0'. Lent. */
    const uint8_t *characters;
    size_t size;
    const char *bold;
    /** Of a cut: how much is cut, 1 to 100. */
    int percentage;
} kij_printed;

/** What a receipt printer is physically: its cover, how many lines of paper are left, and its line buffer. */
typedef struct kij_printer_view {
    bool is_cover_open;
    int64_t lines;
    kij_printed buffer;
    /** What kij_next_printed reads next. Lent. */
    char *rest;
} kij_printer_view;

/** Returns what a simulated receipt printer is. KIJ_WRONG_TYPE if the device is none. */
kij_result kij_show_printer(kij_till *till, const char *device, kij_printer_view *view);

/** Takes the next line or cut out of a view that kij_show_printer wrote, the oldest first, and returns whether there
 * was one. What it writes is lent, as what the view has. */
bool kij_next_printed(kij_printer_view *view, kij_printed *printed);

/** A spare of the profile, by its number from 1 on, serves the device from now on. If the device has a driver, that
 * carries out the spare's orders, but for one with `flaky`. KIJ_BAD_SPARE, KIJ_UNKNOWN, KIJ_IN_USE or KIJ_KIND_DIFFERS
 * on failure. */
kij_result kij_attach(kij_till *till, const char *device, int64_t spare);

/** The device has no peripheral from now on. KIJ_UNKNOWN, KIJ_VACANT or KIJ_IN_USE on failure. */
kij_result kij_detach(kij_till *till, const char *device);

/* ---- Devices of your own ---- */

/** The kinds of orders. */
typedef enum kij_order_kind {
    KIJ_NO_ORDER = 0,
    KIJ_ORDER_OPEN_DRAWER = 1,
    KIJ_ORDER_DISPLAY_TEXT_AT = 2,
    KIJ_ORDER_CLEAR_TEXT = 3,
    KIJ_ORDER_SCROLL_TEXT = 4,
    KIJ_ORDER_PRINT = 5,
    KIJ_ORDER_CUT_PAPER = 6
} kij_order_kind;

/** An order for hardware of yours. Fields that the kind doesn't have are 0. */
typedef struct kij_order {
    kij_order_kind kind;
    /** The device's name in the profile. Lent. */
    const char *device;
    /** KIJ_ORDER_DISPLAY_TEXT_AT, KIJ_ORDER_PRINT: the bytes. Lent. */
    const uint8_t *data;
    size_t size;
    /** KIJ_ORDER_DISPLAY_TEXT_AT: where the text begins, and its attribute (KIJ_DISP_DT_...). */
    int row;
    int column;
    int attribute;
    /** KIJ_ORDER_SCROLL_TEXT: the direction (KIJ_DISP_ST_...), and by how many rows or columns. */
    int direction;
    int units;
    /** KIJ_ORDER_CUT_PAPER: how much is cut, 0 to 100. */
    int percentage;
} kij_order;

/** Says that you have this device as hardware: its orders come by kij_next_order from now on (abi/README.md), unless it
 * has a driver. KIJ_NO_DEVICE if the profile has no such device, or it is the totals. */
kij_result kij_host(kij_till *till, const char *device);

/** Takes out the oldest order of the devices that you have, or writes KIJ_NO_ORDER. Take them out after each call. */
kij_result kij_next_order(kij_till *till, kij_order *order);

/** Takes the printed paper of a device away: a printer shows no line and no cut then, only the line that has begun. A
 * till keeps all that a printer prints, so do it now and then for a printer of which you have the hardware. A till does
 * it by itself for a printer that has a driver, after each 500 orders. KIJ_NO_DEVICE if the profile has no such device,
 * or it is detached. */
kij_result kij_tear_off(kij_till *till, const char *device);

/* ---- Drivers: hardware of your own on a port. A call that orders something of a driven device returns once the device
 * has done it, or hasn't. ---- */

/** The parity of a serial line. */
typedef enum kij_parity { KIJ_PARITY_NONE = 0, KIJ_PARITY_EVEN = 1, KIJ_PARITY_ODD = 2 } kij_parity;

/** How a device on a serial line says that it can take no more. */
typedef enum kij_flow { KIJ_FLOW_NONE = 0, KIJ_FLOW_RTS_CTS = 1, KIJ_FLOW_XON_XOFF = 2 } kij_flow;

/** How a serial line is set up. */
typedef struct kij_serial_settings {
    /** Whether the path is a serial line, whatever its name. A path of /dev/tty.. or /dev/serial/.. always is one, and
     * so is a link to /dev/tty.., which may be missing until the port is opened. */
    bool is_serial;
    /** Bits per second, as the device is set up: a speed that Linux knows, 50 to 4,000,000. */
    int speed;
    /** The bits of a byte, 7 or 8, and the stop bits behind it, 1 or 2. */
    int bits;
    int stops;
    kij_parity parity;
    kij_flow flow;
} kij_serial_settings;

/** 9,600 bits per second, 8 bits, 1 stop bit, no parity, RTS/CTS: for a printer or a scanner. */
#define KIJ_SERIAL_SETTINGS                                                                                            \
    { false, 9600, 8, 1, KIJ_PARITY_NONE, KIJ_FLOW_RTS_CTS }

/** What a printer's cutter does. */
typedef enum kij_cutter {
    /** Full cuts and partial ones. */
    KIJ_CUTTER_BOTH = 0,
    KIJ_CUTTER_FULL = 1,
    KIJ_CUTTER_PARTIAL = 2,
    /** There is no cutter: the paper is fed in place of a cut. */
    KIJ_CUTTER_ABSENT = 3
} kij_cutter;

/** A receipt printer with ESC/POS, and the drawer on its connector. Begin with KIJ_ESCPOS_SETTINGS. */
typedef struct kij_escpos_settings {
    /** The name of the till's drawer on the printer's connector, which is driven too; null if there is none. */
    const char *drawer;
    /** How many characters the printer prints on a line; 0 if it prints as many as the device's lines have. */
    int width;
    kij_cutter cutter;
    /** How far paper is fed before a cut, 0 to 255 dots; without a cutter, lines. */
    int feed;
    /** The pin of the drawer connector, 2 or 5; how long its pulse lasts and the pause after it, 0 to 255, in 2 ms. */
    int pin;
    int on;
    int off;
    /** Whether the drawer is open when pin 3 of the connector is high. */
    bool is_open_high;
    /** How many lines the till counts with when the sensors see enough paper: more than where its device is near the
     * end, at most 100,000. If they still see enough when it has counted down to the near end, it begins again. With
     * 100 lines or more before that it begins a quarter of those earlier, or 4,096, so that no long request is refused.
     * While the sensors see paper near its end, the till counts with the device's `near` (docs/reference/profile.md)
     * before each call: that is the longest request that may still be taken then. */
    int lines;
    /** Whether the printer says nothing by itself, and doesn't know GS ( H. Then it is asked for its status (DLE EOT),
     * and whether an order is printed (GS r). */
    bool is_asked;
    /** How long the printer may go on without acknowledging a line, 1 to 2,147,483,000: an order has to end, so
     * KIJ_FOREVER is refused. And how long to wait before a lost port is tried again, from 0 on. Both are in
     * milliseconds. */
    int timeout;
    int pause;
    kij_serial_settings serial;
} kij_escpos_settings;

/** A printer with both cuts, without a drawer; 5 seconds without a line, and 1 until a lost port is tried again. */
#define KIJ_ESCPOS_SETTINGS                                                                                            \
    { NULL, 0, KIJ_CUTTER_BOTH, 3, 2, 25, 250, true, 100000, false, 5000, 1000, KIJ_SERIAL_SETTINGS }

/** What a display understands. */
typedef enum kij_protocol { KIJ_CD5220 = 0, KIJ_ESCPOS = 1 } kij_protocol;

/** A customer display. Begin with KIJ_DISPLAY_SETTINGS. */
typedef struct kij_display_settings {
    kij_protocol protocol;
    /** How long an order may take, 1 to 2,147,483,000: it has to end, so KIJ_FOREVER is refused. And how long to wait
     * before a lost port is tried again, from 0 on. Both are in milliseconds. */
    int timeout;
    int pause;
    kij_serial_settings serial;
} kij_display_settings;

/** A display with CD5220; 2 seconds for an order, and 1 until a lost port is tried again. A serial line is as
 * KIJ_SERIAL_SETTINGS, but without flow control: many displays have a cable of three wires. */
#define KIJ_DISPLAY_SETTINGS                                                                                           \
    { KIJ_CD5220, 2000, 1000, { false, 9600, 8, 1, KIJ_PARITY_NONE, KIJ_FLOW_NONE } }

/** A scanner. Begin with KIJ_SCANNER_SETTINGS. */
typedef struct kij_scanner_settings {
    /** The type of a code without an AIM identifier, 0 to 999: KIJ_SCAN_SDT_UNKNOWN (0) and the like. */
    int type;
    /** Whether the device sends key events, whatever its name. A path of /dev/input/.. always does, and so does a link
     * to one, which may be missing until the port is opened. */
    bool has_keys;
    /** How long to wait before a lost port is tried again, in milliseconds, 0 to 2,147,483,000. */
    int pause;
    kij_serial_settings serial;
} kij_scanner_settings;

/** A scanner whose codes are of an unknown type without an identifier; 1 second until a lost port is tried again. */
#define KIJ_SCANNER_SETTINGS                                                                                           \
    { 0, false, 1000, KIJ_SERIAL_SETTINGS }

/**
 * Has a receipt printer with ESC/POS carry out the orders of a device from now on. The call waits for the printer's
 * first status, at most for the timeout. Hardware that isn't there is no error: the device is off until kij_run_devices
 * finds it. kij_close closes the port.
 *
 * An order counts as done once the printer has acknowledged it (GS ( H). It may take long, as each line that is
 * acknowledged begins the timeout again. Otherwise the call that ordered it is refused: KIJ_E_EXTENDED with
 * KIJ_EPTR_COVER_OPEN or KIJ_EPTR_REC_EMPTY, KIJ_E_OFFLINE, or KIJ_E_FAILURE if the printer gives no reason.
 *
 * If an order failed and the next one is the same, as a retry is, it goes on with the first line or cut that the
 * printer hasn't acknowledged, also if the control was released or closed meanwhile. Output that waits (AsyncMode)
 * does so though other orders were printed at once meanwhile. An application that gives a request up ends that: by
 * clearOutput, or by the reply KIJ_ER_CLEAR to the ErrorEvent of a printer. The same order is a new one then, and is
 * printed from its beginning. Once a line has opened a control (kij_carry_out), each ends it for all printers of the
 * till. An order that is printed at once ends it for others of its kind, unless it puts nothing on the paper.
 *
 * A printer counts as off once it was asked whether it is there, and has answered nothing for the timeout. Over TCP the
 * port is opened again then, unless an order that failed may still be acknowledged: the system finds out then, at most
 * two minutes after the printer is back.
 *
 * A serial line with flow control holds back what a printer without power doesn't take. After it has said nothing for 2
 * seconds, or for the timeout if that is shorter, an order over such a line fails. What it hasn't acknowledged by then
 * is sent again by a retry, once the printer answers, so that each line is whole on the paper; some may be there twice.
 * So is what it acknowledges of an order that failed for no reason (KIJ_E_FAILURE) while the till doesn't look for 2
 * seconds (kij_run_devices): it may have been off. An order in which the program stands still for so long, as on a
 * machine that is suspended, fails for that reason. A printer that has said by itself that it is offline, as while its
 * paper feed button is held down, may be silent for longer, since it says that it goes on. If it has answered a
 * question since, it counts as off once it is silent for the timeout.
 *
 * With `is_asked` acknowledgements have no number. If that of a line doesn't come, the next order first asks once more.
 * If both answers come, however late, the line is printed. If one comes alone, the other is lost, and the order that
 * failed goes on with that line. To find this out takes a second, and up to 2 beside the timeout, however short that
 * is. As long as neither comes, nothing else is sent, and each order fails.
 *
 * A printer that can't print, or isn't there, as far as is known, is asked every 2 seconds, however long the timeout
 * is.
 *
 * @param device   the name of a printer of the profile
 * @param port     /dev/usb/lp0, /dev/ttyUSB0, tcp:HOST or tcp:HOST:PORT (9100 if there is none). HOST had better be an
 * address in numbers, as 192.0.2.7 or [2001:db8::7], which needs its brackets: the timeout doesn't limit how long the
 * system looks a name up. Once it is found, its addresses are kept, and it is looked up again if none can be reached.
 * After a look-up that found it, or took long, the next one is a minute later
 * @param settings null is KIJ_ESCPOS_SETTINGS
 * @return KIJ_BAD_DEVICE, KIJ_KIND_DIFFERS, KIJ_DRIVEN, KIJ_NO_DEVICE (it can't be driven, as one with `flaky`),
 * KIJ_BAD_SETTINGS, KIJ_NO_MEMORY or KIJ_BAD_ARGUMENT on failure; then no device has a driver of this call. If only the
 * drawer can't be driven (KIJ_NO_DEVICE), the printer has its driver, as kij_show_driver tells
 */
kij_result kij_escpos_printer_open(kij_till *till, const char *device, const char *port,
                                   const kij_escpos_settings *settings);

/**
 * Has a customer display show what the orders of a device from now on say: characters, but neither blinking nor
 * reverse ones. A display answers nothing. Over a serial line and /dev/usb/lp0 an order counts as done once its bytes
 * have left this machine; over TCP once the system has taken them. A display that was lost shows all its rows again
 * with the next order. So does one after 10 seconds without an order, or by an order that changes no row: it may have
 * been off meanwhile, which nobody can see.
 *
 * @param device   the name of a line display of the profile
 * @param port     as kij_escpos_printer_open takes it
 * @param settings null is KIJ_DISPLAY_SETTINGS
 * @return as kij_escpos_printer_open
 */
kij_result kij_serial_display_open(kij_till *till, const char *device, const char *port,
                                   const kij_display_settings *settings);

/**
 * Has a scanner read the codes of a device from now on. It sends each with a terminator (CR, LF or both), or types it
 * as a keyboard of the layout US, whose keys no other program gets meanwhile. An AIM identifier in front of a code,
 * such as ]E0, says which type it has; ScanDataLabel is the code without it.
 *
 * The till reads a keyboard in kij_run_devices, and while a call waits for a printer or a display. Otherwise the
 * system keeps about 16 characters. If it drops some, the scan has failed (kij_input_scan_fault). So has one of more
 * than 4,096 bytes, and one with a key that is neither a character of the layout nor of its keypad, nor Num Lock. The
 * control key and ] are the separator GS. Over a serial line a code with a 0 byte has failed too: the system gives one
 * in place of a byte that was disturbed. So has one without a terminator, once the till has looked and nothing has
 * come for a second, or the port is lost.
 *
 * @param device   the name of a scanner of the profile
 * @param port     /dev/input/.., or a link to it, for a keyboard wedge; else as kij_escpos_printer_open takes it
 * @param settings null is KIJ_SCANNER_SETTINGS
 * @return as kij_escpos_printer_open
 */
kij_result kij_wedge_scanner_open(kij_till *till, const char *device, const char *port,
                                  const kij_scanner_settings *settings);

/** A code that a driver of your own has read, or a failed scan. */
typedef struct kij_scan {
    /** Whether the scanner failed to read; nothing else counts then. */
    bool has_failed;
    /** Its type, 0 to 999 (KIJ_SCAN_SDT_EAN13 and the like); all that came; and the code alone. */
    int type;
    const void *data;
    size_t data_size;
    const void *label;
    size_t label_size;
} kij_scan;

/** A driver of your own, for other hardware. Each function gets the context that kij_driver_open got. All but
 * `carry_out` may be null, and a scanner has none. No function may call the till (KIJ_IN_CALL), throw an exception, or
 * jump out (longjmp): each has to return. */
typedef struct kij_driver {
    /** The category of the device: KIJ_CASH_DRAWER, KIJ_SCANNER, KIJ_LINE_DISPLAY or KIJ_POS_PRINTER. */
    kij_category category;
    /** Carries out an order, which is lent, in a bounded time: whether the device has done it. */
    bool (*carry_out)(void *context, const kij_order *order);
    /** What has happened at the device since the last call, as the words of `input` lines after the device's name
     * (docs/reference/console.md), each with a line feed: "cover open\npaper 0\n". Null if nothing has. Keep the text
     * until the next call. The till asks after an order that wasn't done, too, which it then answers accordingly. */
    const char *(*happened)(void *context);
    /** Whether the device is there. If not, the till takes it as switched off. By null it always is. */
    bool (*is_online)(void *context);
    /** Reads what the device has said, and looks for one that was lost, without waiting. */
    void (*poll)(void *context);
    /** Writes the next code that a scanner has read: whether there is one. Keep its bytes until the next call. */
    bool (*scan)(void *context, kij_scan *scan);
    /** The file descriptor at which something may come, which `poll` reads; or -1. */
    int (*file)(void *context);
    /** Reads what has come there, and keeps it for `scan`, while the till waits for a printer or a display: the system
     * keeps little of a keyboard. It mustn't wait. The file descriptor if more may be read once it comes, or -1. */
    int (*read_ahead)(void *context);
    /** A spare serves the device from now on (kij_attach), which knows nothing of what `happened` said before. */
    void (*attached)(void *context);
    /** An application has given up what a printer didn't print: the next order is a new one, though it is the same.
     * Once a line has opened a control (kij_carry_out), it may be another printer's. */
    void (*given_up)(void *context);
    /** The till is closed, by the process that opened it. */
    void (*end)(void *context);
} kij_driver;

/**
 * Has a driver of your own carry out the orders of a device from now on, and tell what happens there.
 *
 * @param driver  it is copied; begin with all fields null
 * @param context what its functions get; it has to stay until the till is closed
 * @return as kij_escpos_printer_open; KIJ_BAD_ARGUMENT also without `carry_out`, but for a scanner
 */
kij_result kij_driver_open(kij_till *till, const char *device, const kij_driver *driver, void *context);

/**
 * Does what the driven devices need: tells the till what they say of themselves and what was scanned, opens lost ports
 * again, and prints output that waits (AsyncMode), at most one request of each printer. Call it regularly, and then
 * deliver events. Output that failed is tried again at the earliest 100 ms later, each time with an ErrorEvent.
 *
 * @param timeout how long to wait until there is something to do, in milliseconds, 0 or more; without an end by
 * KIJ_FOREVER. Printing may take longer. Without driven devices the call waits the whole time. A signal doesn't end it.
 * @param is_any  where it is written whether anything was done; may be null
 * @return KIJ_BAD_INPUT if the device can't be as its hardware says, KIJ_NO_MEMORY, KIJ_NO_ANSWER, KIJ_DISK_FAILED or
 * KIJ_BAD_ARGUMENT on failure
 */
kij_result kij_run_devices(kij_till *till, int timeout, bool *is_any);

/** How the hardware of a driven device is. */
typedef struct kij_driver_view {
    /** Whether its port is open, and a printer answers. */
    bool is_online;
    /** Why the port couldn't be opened or was lost the last time (errno); 0 if neither ever happened. EBUSY is a serial
     * line that another till or program has open. EHOSTUNREACH may be a host whose name isn't found, and ENODEV a path
     * that leads to a file and to no device. */
    int port_error;
    /** How many orders a printer has printed after they had failed, and weren't asked for again: another order came
     * next, or the application gave them up. It had got them before it stopped, and there is no command that takes them
     * back. */
    uint64_t late_orders;
} kij_driver_view;

/** Returns how the hardware of a driven device is. KIJ_NO_DEVICE if the device isn't driven. It asks no hardware. */
kij_result kij_show_driver(kij_till *till, const char *device, kij_driver_view *view);

#ifdef __cplusplus
}
#endif

#include "kij_controls.h"

#endif
