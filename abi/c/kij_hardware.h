/* What the drivers of a till share: ports, the line to a printer, and the devices that are driven. */
#ifndef KIJ_HARDWARE_H
#define KIJ_HARDWARE_H

#include "kij_internal.h"
#include <poll.h>
#include <sys/socket.h>

/* A time so long before all others that no pause lasts from then on. */
#define KIJ_NEVER (INT64_MIN / 2)

/* A text or bytes that grow. */
typedef struct kij_buffer {
    char *bytes;
    size_t room;
    size_t size;
} kij_buffer;

typedef enum kij_port_kind { KIJ_PORT_FILE, KIJ_PORT_SERIAL, KIJ_PORT_TCP, KIJ_PORT_KEYS } kij_port_kind;

/* An address of a TCP port. */
typedef struct kij_address {
    struct sockaddr_storage place;
    socklen_t size;
} kij_address;

/* How many addresses of a TCP port are kept, and in how many parts is read what has come: a device may send on and on.
   */
enum { KIJ_ADDRESS_ROOM = 16, KIJ_MOST_PARTS = 64 };

/* A port. Its name stays as long as it does. */
typedef struct kij_port {
    kij_port_kind kind;
    const char *name;
    kij_serial_settings serial;
    /* The open file, or -1, and the process that opened it. */
    int file;
    pid_t process;
    /* How often it was opened. */
    unsigned turns;
    /* Whether what was sent may wait for long, as at a printer whose cover is open. */
    bool is_patient;
    /* Of a serial line: whether a byte whose parity is wrong, or whose stop bit is missing, reads as 0. Otherwise it is
       dropped. */
    bool keeps_faults;
    /* Whether reading no bytes means that it is lost, and whether the last reading gave none. */
    bool ends_empty;
    bool was_empty;
    /* Why it couldn't be opened or was lost the last time. */
    int error;
    /* Of a TCP port: the addresses that its name had the last time, and when it may be looked up again. */
    kij_address addresses[KIJ_ADDRESS_ROOM];
    size_t address_count;
    int64_t resolve_at;
    /* Whether a connection to one of them is being made, its file, the address, and until when it may take; until when
       all of them may together, and how long. */
    bool is_joining;
    int joining;
    size_t join_place;
    int64_t join_ends_at;
    int64_t joins_end_at;
    int64_t joins_time;
} kij_port;

/* An order on its way to the paper, piece by piece: a line, a cut or a pulse. One without any is one empty piece, so
   that the printer is asked. Places are in its bytes. */
typedef struct kij_job {
    uint64_t id;
    kij_buffer data;
    /* Up to where it was sent, and is printed as far as is known. */
    size_t sent;
    size_t done;
    bool is_all_sent;
    bool is_done;
    /* Pieces were lost, and later ones may have been printed. */
    bool is_torn;
    /* Whether it is for the paper, where the same order mustn't be twice. */
    bool is_once;
} kij_job;

/* Bytes that were sent, or are being sent, and that the printer hasn't acknowledged. */
typedef struct kij_parcel {
    uint32_t number;
    /* The port's turn in which they were sent. */
    unsigned turn;
    /* The job, or 0, and which of its bytes they are. */
    uint64_t job;
    size_t from;
    size_t to;
    bool is_last;
    bool is_torn;
    /* Whether they are for the paper. */
    bool is_once;
    /* Where they begin in all that was ever put out. */
    uint64_t place;
} kij_parcel;

/* A reply that tells how the printer is, and what was asked. */
typedef struct kij_told {
    uint8_t bytes[8];
    size_t size;
    uint32_t asked;
} kij_told;

typedef enum kij_paper { KIJ_PAPER_UNKNOWN, KIJ_PAPER_GOOD, KIJ_PAPER_NEAR, KIJ_PAPER_EMPTY } kij_paper;

/* What a printer says of itself. */
typedef struct kij_signs {
    bool is_offline;
    bool is_cover_open;
    bool has_fault;
    bool is_pin_high;
    kij_paper paper;
} kij_signs;

/* How many parcels may be due, how many of them an order may have, and how many bytes are read at once. */
enum { KIJ_DUE_ROOM = 128, KIJ_DUE_OF_JOB = 32, KIJ_READ_ROOM = 1024, KIJ_CONTROL_ROOM = 128, KIJ_END_ROOM = 16 };

/* How many bytes of a scanner or a display are kept: more than a hundred characters that a keyboard types. */
enum { KIJ_GOT_ROOM = 15360 };

/* The line to a printer, which acknowledges in order what it has printed. */
typedef struct kij_link {
    kij_till *till;
    kij_port port;
    int64_t timeout;
    int64_t pause;
    /* When the order that is out began, or the connection; and until when the printer may acknowledge the next part of
       that order. */
    int64_t began_at;
    int64_t ends_at;
    /* Whether it says nothing by itself: it is asked. Its acknowledgements have no number. */
    bool is_asked;
    /* The device and the settings by which its replies are read; and the drawer, or null. */
    const kij_word *name;
    const kij_word *drawer;
    const kijolvar_wire_settings *wire;
    /* The order that failed last, or is out; and the one of output that waits (AsyncMode), at `true`: other orders may
       come before that is tried again. Then a pulse for the drawer, what is sent now, and the bytes of an order. */
    kij_job paper[2];
    bool has_job[2];
    kij_job pulse;
    kij_job *posting;
    uint64_t jobs;
    kij_buffer fresh;
    uint8_t end[KIJ_END_ROOM];
    size_t end_size;
    uint32_t number;
    kij_parcel due[KIJ_DUE_ROOM];
    size_t due_count;
    /* What goes out, what of it has, and what goes out next that nothing acknowledges. */
    kij_buffer out;
    size_t out_sent;
    uint64_t put_out;
    uint8_t control[KIJ_CONTROL_ROOM];
    size_t control_size;
    /* What has come. */
    uint8_t got[KIJ_READ_ROOM];
    size_t got_size;
    kij_told told[3];
    size_t told_count;
    /* When it said that it is offline, and was online before. */
    int64_t offline_at;
    kij_signs signs;
    uint64_t statuses;
    uint64_t late;
    /* How many lines the orders had that were done. */
    uint64_t lines;
    bool is_there;
    /* Whether nothing says that what begins a connection is lost. */
    bool is_started;
    bool was_silent;
    bool is_refreshing;
    /* Whether it was asked whether it is there, that is sent, and since when. */
    bool was_asked;
    bool was_sent;
    int64_t asked_at;
    int64_t heard_at;
    /* When anybody has looked what has come, by both clocks. */
    int64_t looked_at;
    int64_t looked_at_in_all;
    int64_t tried_at;
    int64_t refreshed_at;
    /* The question that was put last, how many have no answer, whether late answers come, when one was put or such an
       answer came, how many statuses had come at the answer to question 1, and what was heard of 1, 2 and 4. */
    uint32_t question;
    unsigned unanswered;
    bool has_late_answers;
    int64_t questioned_at;
    uint64_t asked_why_at;
    kij_told heard[3];
    kij_signs hearing;
    /* Whether it has answered a question that was put after it had said that it is offline. */
    bool is_hearing;
    /* Of one that is asked: how many bytes of an automatic status that has begun still come. */
    unsigned status_left;
    /* How many rounds of questions have said that it can print since something was sent or acknowledged, or it said
       anything else; and since when they count. */
    unsigned calm;
    int64_t calm_at;
    /* How many acknowledgements without a number have come since a marker is out, how often that was put again, and
       when it was last. */
    size_t answered;
    size_t again;
    int64_t marked_at;
} kij_link;

typedef enum kij_power { KIJ_POWER_UNKNOWN, KIJ_POWER_OFF, KIJ_POWER_ON } kij_power;

/* What the till was told of a device. */
typedef struct kij_belief {
    kij_power power;
    /* A printer: whether its first status has come, and how many lines its orders had when its paper was told last. */
    bool is_known;
    uint64_t counted_from;
    /* A driver of the caller's: how many of the texts of what has happened. */
    uint64_t texts;
} kij_belief;

/* A driven device. */
typedef struct kij_drive {
    struct kij_drive *next;
    kij_category category;
    kij_word name;
    kijolvar_wire_settings wire;
    kij_belief belief;
    /* A printer, and its drawer: the line, and whether this device has it. */
    kij_link *link;
    bool has_link;
    /* A printer: at how many lines it is near its end, how many orders it has done since its paper was taken away, and
       when output that waited failed. */
    uint32_t near;
    unsigned orders;
    int64_t failed_at;
    /* A drawer: when it got its pulse, or -1, and how many statuses had come. */
    int64_t kicked_at;
    uint64_t statuses;
    /* A display and a scanner. Of a display also when it got its last order, and whether it gets all its rows next. */
    kij_port port;
    int64_t timeout;
    int64_t pause;
    int64_t tried_at;
    int64_t shown_at;
    bool is_new;
    /* A scanner: what of a code has come, and when the last byte did; of key events, whether a shift and a control key
       are down; whether a part of the code was lost, whether a whole code couldn't be told for want of memory, and
       whether a failed scan is to be told. */
    int type;
    int64_t heard_at;
    bool is_shifted;
    bool is_control;
    bool is_torn;
    bool is_untold;
    bool has_failed;
    uint8_t *begun;
    size_t begun_size;
    uint8_t got[KIJ_GOT_ROOM];
    size_t got_size;
    /* A driver of the caller's, if there is one: the last text of what has happened, how many there were, and the last
       code. */
    bool is_own;
    kij_driver own;
    void *context;
    const char *text;
    uint64_t texts;
    kij_scan scan;
} kij_drive;

/* A report of an order. */
typedef struct kij_report {
    bool is_made;
    bool is_done;
    /* Its inputs are in the till's drives, unless there are none. */
    bool has_inputs;
    /* The device of an order that isn't done, or null, and what the till was told of it before. */
    kij_drive *drive;
    kij_belief before;
} kij_report;

/* The driven devices of a till. */
typedef struct kij_drives {
    kij_drive *first;
    /* What was printed, and couldn't be reported for want of memory. */
    kij_report unreported;
    /* The inputs of a report, the answer to lines so far, a spare room for answers, the bytes of an order, and orders
       of hosted devices that came before one of a driven device. */
    kij_buffer inputs;
    kij_buffer answer;
    kij_buffer spare;
    kij_buffer order;
    kij_buffer hosted;
    bool is_handing_in;
    bool has_served;
    /* What went wrong with inputs behind something that was done: a code of enum kij_code. */
    int fault;
} kij_drives;

#ifdef __GNUC__
#pragma GCC visibility push(hidden)
#endif

/* kij_ports.c */

/* Makes room for so many bytes in all; those that are there stay. Whether there is memory. */
bool kij_internal_buffer_room(kij_buffer *buffer, size_t room);

/* Adds bytes: whether there is memory. */
bool kij_internal_buffer_add(kij_buffer *buffer, const void *bytes, size_t size);

/* Milliseconds of a clock that goes on; and of one that does so while the machine is suspended, too. */
int64_t kij_internal_now(void);
int64_t kij_internal_now_in_all(void);

/* Waits for so many milliseconds. */
void kij_internal_sleep(int64_t time);

/* Whether these are settings of a serial line. */
bool kij_internal_is_serial(const kij_serial_settings *serial);

/* Makes a port of a name, which isn't open. */
void kij_internal_port(kij_port *port, const char *name, const kij_serial_settings *serial, bool has_keys);

/* Whether a port can have a name. */
bool kij_internal_is_port(const char *name);

static inline bool kij_internal_port_is_open(const kij_port *port) { return port->file >= 0; }

/* Opens a port that isn't open, for which the call takes so many milliseconds: whether it is open. Looking a name up
   isn't limited. A connection that isn't made in that time is made on, and a later call finds it. */
bool kij_internal_port_open(kij_port *port, int64_t time);

/* Closes a port. What isn't sent yet is dropped, but the system still sends what it has taken for a connection. This
   ends though a process that was forked has it too. In such a process nothing else is done: there the port is still
   that of the process that opened it. */
void kij_internal_port_close(kij_port *port);

/* Whether a port keeps what a device doesn't take, as one without power: a serial line with flow control. */
bool kij_internal_port_holds_back(const kij_port *port);

/* Whether something is in such a port that its device doesn't take. */
bool kij_internal_port_is_holding(const kij_port *port);

/* Drops what a port that holds back hasn't sent yet. */
void kij_internal_port_discard(const kij_port *port);

/* Lets a port send though its device has said that it can take no more (XOFF). The device may have lost its power since
   then, or the line its XON: nothing would ever go out again. */
void kij_internal_port_resume(const kij_port *port);

/* Waits until bytes can be read, or written if that is asked, at most so many milliseconds. Meanwhile it takes what
   keyboards type, of which the system keeps little. */
void kij_internal_wait_typing(kij_till *till, const kij_port *port, bool is_writing, int64_t time, bool *can_read,
                              bool *can_write);

/* Waits for so many milliseconds, and takes what keyboards type meanwhile. */
void kij_internal_rest_typing(kij_till *till, int64_t time);

/* What is waited for at a port, and whether it has come. */
struct pollfd kij_internal_port_waiting(const kij_port *port, bool is_writing);
void kij_internal_port_is_ready(const struct pollfd *found, bool *can_read, bool *can_write);

/* Waits for a port without the keyboards. */
void kij_internal_port_wait(const kij_port *port, bool is_writing, int64_t time, bool *can_read, bool *can_write);

/* Reads what has come, which may be nothing. False if the port was lost: it is closed then. */
bool kij_internal_port_read(kij_port *port, void *bytes, size_t room, size_t *count);

/* Writes what there is room for. False if the port was lost. It is still open then: what had come can be read. */
bool kij_internal_port_write(kij_port *port, const void *bytes, size_t size, size_t *count);

/* Whether something that was written hasn't left this machine, if that is known. If the port was lost, it is closed
   then. */
bool kij_internal_port_is_draining(kij_port *port);

/* kij_links.c */

/* Begins a line: opens the port, and waits for the printer's first status as long as for an order. */
void kij_internal_link_start(kij_link *link);

/* Sends the order that is out: whether the printer acknowledged all of it, never going on for the timeout without
   acknowledging a line. If an order failed and the next one is the same, it goes on with what isn't acknowledged,
   unless it isn't `is_once`. Output that waits has a next one of its own. */
bool kij_internal_link_carry_out(kij_link *link, const kijolvar_wire_settings *wire, bool is_once, bool is_waiting);

/* Forgets the orders that failed: one that is the same is a new one. */
void kij_internal_link_forget_orders(kij_link *link);

/* Reads what has come and sends what is left, without waiting. A port that was lost is opened again. */
void kij_internal_link_poll(kij_link *link);

/* Whether the port is open and the printer answers. */
bool kij_internal_link_is_online(const kij_link *link);

/* Writes the lines of a reply into a text with a 0 byte at the end, and how many bytes it used. False if the library
   can't. */
bool kij_internal_reply(kij_till *till, const kij_word *name, const kijolvar_wire_settings *wire, const kij_told *told,
                        char *text, size_t room);

/* Writes the bytes of the order that is out: the library's code. */
uint32_t kij_internal_order_bytes(kij_till *till, const kijolvar_wire_settings *wire, bool is_new, uint32_t end,
                                  kij_buffer *bytes);

/* Closes the port, and frees what the line has. */
void kij_internal_link_end(kij_link *link);

/* kij_devices.c */

/* Reads an order's line, which is changed: whether it is one. */
bool kij_internal_is_order(char *text, kij_order *order);

/* kij_drivers.c */

/* What is left to do where a driven till's call isn't done: a code of enum kij_code, and the answer is in the till. */
int kij_internal_served(kij_till *till, uint32_t code, size_t *needed);

/* Tells the till what has happened at the devices, in a call that has begun: a code of enum kij_code. The till's answer
   stays. */
int kij_internal_hand_in(kij_till *till, bool *is_any);

/* Takes the oldest order of a hosted device that came before one of a driven device into the till's text. A code of the
   library: KIJOLVAR_OK if there is none. */
uint32_t kij_internal_kept_order(kij_till *till);

/* Drives the device of a name again, if it has a driver, since another peripheral serves it now: that is told how the
   hardware is. */
void kij_internal_drive_again(kij_till *till, const char *name, size_t size);

/* Why the port isn't open of the device on which a control was opened last (errno); 0 if it is open, if the device has
   no driver with a port, or if that isn't known. */
int kij_internal_port_error(const kij_till *till, const kij_control *control);

/* Frees the drivers of a till, and closes their ports. */
void kij_internal_end_drives(kij_till *till);

#ifdef __GNUC__
#pragma GCC visibility pop
#endif

#endif
