/* The drivers of a till: receipt printers with their drawers, customer displays and scanners. Orders are answered
   once the devices have done them, or haven't. */
#include "kij_hardware.h"
#include <errno.h>
#include <stddef.h>
#include <stdio.h>
#include <stdlib.h>
#include <string.h>
#include <unistd.h>

static kij_result plain(int code) { return kij_internal_result(code, 0, KIJ_NO_CATEGORY); }

/* How long a lost port may take to open while other devices wait, and that of a scanner at first, how long a drawer may
   take to open, how long output that has failed waits, after how long without an order nobody knows what a display
   shows, after how long without a byte a code that has begun has no end, and how often that is looked for, in
   milliseconds. */
static const int64_t quickly = 20, opening = 2000, settle = 1000, rest = 100, unseen = 10000, lull = 1000, often = 100;

/* The longest timeout or pause, in milliseconds: whole seconds, as in Rust and Python. The longest code of a scanner
   and the highest type, how many ports are waited for at once, of how many orders of a printer the till keeps the
   paper, and from how many lines before the near end on a roll is long; as many as a request of line feeds alone
   feeds. */
enum {
    LONGEST_TIME = 2147483000,
    LONGEST_CODE = 4096,
    HIGHEST_TYPE = 999,
    MOST_PORTS = 64,
    KEPT_ORDERS = 500,
    LONG_ROLL = 100,
    MOST_FEEDS = 4096
};

/* Whether a drive is of the device of a name, which is written behind a space. */
static bool has_name(const kij_drive *drive, const char *name, size_t size) {
    return drive->name.size - 1 == size && memcmp(drive->name.text + 1, name, size) == 0;
}

/* The drive of the device of a name, or null. */
static kij_drive *drive_of(const kij_drives *drives, const char *name, size_t size) {
    kij_drive *drive = drives == NULL ? NULL : drives->first;
    while (drive != NULL && !has_name(drive, name, size)) drive = drive->next;
    return drive;
}

static kij_port *port_of(kij_drive *drive) { return drive->link != NULL ? &drive->link->port : &drive->port; }

static bool is_online(kij_drive *drive) {
    if (drive->is_own) return drive->own.is_online == NULL || drive->own.is_online(drive->context);
    return drive->link != NULL ? kij_internal_link_is_online(drive->link) : kij_internal_port_is_open(&drive->port);
}

static bool is_range(int number, int least, int most) { return number >= least && number <= most; }

/* ---- Inputs ---- */

/* Adds a line of these words: whether there is memory. */
static bool add_words(kij_buffer *lines, const kij_drive *drive, const char *words, size_t size) {
    return kij_internal_buffer_add(lines, "input", 5) &&
           kij_internal_buffer_add(lines, drive->name.text, drive->name.size) &&
           kij_internal_buffer_add(lines, " ", 1) && kij_internal_buffer_add(lines, words, size) &&
           kij_internal_buffer_add(lines, "\n", 1);
}

static bool add_line(kij_buffer *lines, const kij_drive *drive, const char *words) {
    return add_words(lines, drive, words, strlen(words));
}

/* Whether one of the lines, from a place on, says the same of the same thing as a line does: its third word. */
static bool has_input(const kij_buffer *lines, size_t from, const char *line, size_t front) {
    for (size_t at = from; at < lines->size;) {
        const char *end = (const char *)memchr(lines->bytes + at, '\n', lines->size - at);
        size_t size = (size_t)(end - (lines->bytes + at));
        if (size >= front && memcmp(lines->bytes + at, line, front) == 0) return true;
        at += size + 1;
    }
    return false;
}

/* Adds the inputs of a reply, so far as none of them is there. Whether there is memory. */
static bool add_inputs(kij_buffer *lines, size_t from, const char *text) {
    for (const char *line = text; *line != 0;) {
        size_t size = strcspn(line, "\n") + 1;
        size_t front = strcspn(line, " ") + 1;
        front += strcspn(line + front, " ") + 1;
        front += strcspn(line + front, " \n");
        if (strncmp(line, "input ", 6) == 0 && !has_input(lines, from, line, front) &&
            !kij_internal_buffer_add(lines, line, size))
            return false;
        line += size;
    }
    return true;
}

/* Removes the input that the drawer is closed, while it may be on its way. */
static void settle_drawer(kij_drive *drive, kij_buffer *lines, size_t from) {
    char closed[40];
    size_t size = (size_t)snprintf(closed, sizeof closed, "input%s closed\n", drive->name.text);
    bool is_closed = has_input(lines, from, closed, size - 1);
    bool is_open = !is_closed && drive->link->statuses > drive->statuses;
    if (drive->kicked_at < 0) return;
    if (is_open || kij_internal_now() - drive->kicked_at >= settle) drive->kicked_at = -1;
    /* It is the last one. */
    else if (is_closed) lines->size -= size;
}

/* Whether so many lines of a long roll are counted down that the next order might end near its end, though the sensors
   may still see enough paper. */
static bool is_counted_down(const kij_drive *drive) {
    uint64_t lines = drive->wire.lines - drive->near, left = lines / 4;
    if (left > MOST_FEEDS) left = MOST_FEEDS;
    return lines >= LONG_ROLL && drive->link->lines - drive->belief.counted_from >= lines - left;
}

/* How many lines the till is to count with from now on, by what a printer's sensors see; 0 if it goes on counting. Near
   the end they see paper after each order still. */
static uint32_t lines_due(const kij_drive *drive) {
    bool is_known = drive->belief.is_known, is_printed = drive->link->lines > drive->belief.counted_from;
    if (drive->link->signs.paper == KIJ_PAPER_NEAR) return !is_known || is_printed ? drive->near : 0;
    bool is_good = drive->link->signs.paper == KIJ_PAPER_GOOD;
    return is_good && (!is_known || is_counted_down(drive)) ? drive->wire.lines : 0;
}

/* Adds what the till has to know of a printer's paper. Whether there is memory. */
static bool add_paper(kij_drive *drive, kij_buffer *lines, size_t from) {
    char text[40];
    size_t front = (size_t)snprintf(text, sizeof text, "input%s paper ", drive->name.text);
    uint32_t count = lines_due(drive);
    bool is_told = has_input(lines, from, text, front);
    if (!is_told && count > 0) {
        snprintf(text, sizeof text, "paper %u", (unsigned)count);
        if (!add_line(lines, drive, text)) return false;
        is_told = true;
    }
    if (is_told) drive->belief.counted_from = drive->link->lines;
    drive->belief.is_known = true;
    return true;
}

/* Adds what a printer's line has heard last of a printer or its drawer. Whether there is memory. */
static bool add_told(kij_till *till, kij_drive *drive, kij_buffer *lines) {
    char text[256];
    size_t from = lines->size;
    kij_link *link = drive->link;
    for (size_t place = 0; place < link->told_count; place++)
        if (kij_internal_reply(till, &drive->name, &drive->wire, &link->told[place], text, sizeof text) &&
            !add_inputs(lines, from, text))
            return false;
    if (drive->category == KIJ_CASH_DRAWER) settle_drawer(drive, lines, from);
    return drive->category != KIJ_POS_PRINTER || link->told_count == 0 || add_paper(drive, lines, from);
}

/* Adds what a driver of the caller's says has happened. A text that isn't told yet is first. Whether there is memory.
   */
static bool add_own(kij_drive *drive, kij_buffer *lines) {
    if (drive->belief.texts == drive->texts) {
        const char *text = drive->own.happened == NULL ? NULL : drive->own.happened(drive->context);
        if (text == NULL) return true;
        drive->text = text;
        drive->texts++;
    }
    for (const char *line = drive->text; *line != 0;) {
        size_t size = strcspn(line, "\n");
        if (size > 0 && !add_words(lines, drive, line, size)) return false;
        line += size + (line[size] != 0);
    }
    drive->belief.texts = drive->texts;
    return true;
}

/* Adds what has happened at a device: one that is back is on first. Whether there is memory. */
static bool add_all(kij_till *till, kij_drive *drive, kij_buffer *lines) {
    char on[40];
    kij_power before = drive->belief.power;
    lines->size = 0;
    /* A device that is off has no scans any more. */
    if (!is_online(drive) && !drive->is_untold && !drive->has_failed) {
        drive->belief.power = KIJ_POWER_OFF;
        return before == KIJ_POWER_OFF || add_line(lines, drive, "power off");
    }
    if (drive->link != NULL && !add_told(till, drive, lines)) return false;
    if (drive->is_own && !add_own(drive, lines)) return false;
    size_t size = (size_t)snprintf(on, sizeof on, "input%s power on\n", drive->name.text);
    if (before != KIJ_POWER_ON && !has_input(lines, 0, on, size - 1)) {
        /* No status has come yet, or it was the paper's alone. */
        if (!kij_internal_buffer_add(lines, on, size)) return false;
        memmove(lines->bytes + size, lines->bytes, lines->size - size);
        memcpy(lines->bytes, on, size);
    }
    drive->belief.power = KIJ_POWER_ON;
    return true;
}

/* Writes what has happened at a device as lines of inputs. Whether there is memory; if not, it is written another time.
   */
static bool write_inputs(kij_till *till, kij_drive *drive, kij_buffer *lines) {
    const kij_belief before = drive->belief;
    bool is_written = add_all(till, drive, lines);
    if (!is_written) drive->belief = before;
    return is_written;
}

/* Swaps the till's room for answers with the spare one. */
static void swap_rooms(kij_till *till) {
    kij_buffer *spare = &till->drives->spare;
    char *text = till->text;
    size_t room = till->text_room, size = till->text_size;
    till->text = spare->bytes;
    till->text_room = spare->room;
    till->text_size = spare->size;
    spare->bytes = text;
    spare->room = room;
    spare->size = size;
}

static bool begins_with(const char *text, const char *front) { return strncmp(text, front, strlen(front)) == 0; }

/* What the answers to inputs say: want of memory first, since those are told again. Nothing happens at a device that is
   detached. */
static int inputs_code(const char *answers) {
    int code = KIJ_OK;
    for (const char *line = answers; line != NULL && *line != 0;) {
        if (begins_with(line, "memory\n")) return KIJ_NO_MEMORY;
        if (!begins_with(line, "ok\n") && !begins_with(line, "bad device\n")) code = KIJ_BAD_INPUT;
        line = strchr(line, '\n');
        if (line != NULL) line++;
    }
    return code;
}

static int hand_in_of(kij_till *till, kij_drive *drive, bool *is_any) {
    kij_buffer *inputs = &till->drives->inputs;
    const kij_belief before = drive->belief;
    /* Without memory it is taken away the next time. */
    if (drive->orders >= KEPT_ORDERS &&
        kijolvar_tear_off(till->inner, &till->inner.at, (const uint8_t *)drive->name.text + 1, drive->name.size - 1) ==
            KIJOLVAR_OK)
        drive->orders = 0;
    if (!write_inputs(till, drive, inputs)) return KIJ_NO_MEMORY;
    if (inputs->size == 0) return KIJ_OK;
    int code = kij_internal_carry_out(till, inputs->bytes, inputs->size);
    if (code == KIJ_OK) code = inputs_code(till->text);
    if (code == KIJ_OK) *is_any = true;
    /* Without an answer some may not have been taken. They may be told twice. */
    if (code == KIJ_NO_MEMORY || code == KIJ_NO_ANSWER) drive->belief = before;
    return code;
}

int kij_internal_hand_in(kij_till *till, bool *is_any) {
    kij_drives *drives = till->drives;
    int code = KIJ_OK;
    if (drives->is_handing_in) return code;
    if (!kij_internal_buffer_room(&drives->spare, 256)) return KIJ_NO_MEMORY;
    drives->is_handing_in = true;
    swap_rooms(till);
    for (kij_drive *drive = drives->first; drive != NULL && code != KIJ_NO_MEMORY; drive = drive->next) {
        int found = hand_in_of(till, drive, is_any);
        if (code == KIJ_OK || found == KIJ_NO_MEMORY) code = found;
    }
    swap_rooms(till);
    drives->is_handing_in = false;
    return code;
}

/* The same behind something that is done. What finds no memory is handed in the next time, and kij_run_devices says
   what else went wrong. */
static void hand_in_behind(kij_till *till) {
    bool is_any = false;
    int code = kij_internal_hand_in(till, &is_any);
    if (code != KIJ_OK && code != KIJ_NO_MEMORY) till->drives->fault = code;
}

/* ---- Orders ---- */

/* Reads what a display says, which is of no use: false if its port was lost. */
static bool listen_to(kij_drive *drive) {
    size_t count = 1;
    for (int part = 0; part < KIJ_MOST_PARTS && count > 0; part++) {
        bool can_read, can_write;
        kij_internal_port_wait(&drive->port, false, 0, &can_read, &can_write);
        if (!can_read) return true;
        if (!kij_internal_port_read(&drive->port, drive->got, sizeof drive->got, &count)) return false;
    }
    return true;
}

/* Writes the bytes of a display's order. A display that has its own power may have been off meanwhile, and nobody can
   see that: all rows are in those of an order that changes nothing, and of one after a while without any. */
static bool show_bytes(kij_till *till, kij_drive *drive) {
    kij_buffer *bytes = &till->drives->order;
    if (kij_internal_now_in_all() - drive->shown_at >= unseen) drive->is_new = true;
    drive->shown_at = kij_internal_now_in_all();
    if (kij_internal_order_bytes(till, &drive->wire, drive->is_new, 65538, bytes) != KIJOLVAR_OK) return false;
    if (bytes->size > 0 || drive->is_new) return true;
    return kij_internal_order_bytes(till, &drive->wire, true, 65538, bytes) == KIJOLVAR_OK;
}

/* Whether all that a display was sent has left this machine in time. */
static bool is_drained(kij_till *till, kij_port *port, int64_t end) {
    while (kij_internal_port_is_draining(port)) {
        if (kij_internal_now() >= end) return false;
        kij_internal_rest_typing(till, 1);
    }
    return kij_internal_port_is_open(port);
}

/* Shows an order: whether its bytes are out. */
static bool show(kij_till *till, kij_drive *drive) {
    kij_buffer *bytes = &till->drives->order;
    kij_port *port = &drive->port;
    int64_t end = kij_internal_now() + drive->timeout;
    size_t sent = 0, count = 0;
    bool can_read, can_write;
    /* An order isn't done either if the display is gone. */
    if (!listen_to(drive) || !show_bytes(till, drive)) return false;
    while (sent < bytes->size) {
        int64_t left = end - kij_internal_now();
        if (left <= 0) break;
        kij_internal_wait_typing(till, port, true, left, &can_read, &can_write);
        if (can_read && !kij_internal_port_read(port, drive->got, sizeof drive->got, &count)) return false;
        if (can_write && !kij_internal_port_write(port, bytes->bytes + sent, bytes->size - sent, &count)) {
            kij_internal_port_close(port);
            return false;
        }
        if (can_write) sent += count;
        else if (can_read && count == 0) kij_internal_rest_typing(till, 1);
    }
    drive->is_new = false;
    if (sent == bytes->size && is_drained(till, port, end)) return true;
    if (!kij_internal_port_is_open(port)) return false;
    /* The display has a part of it. */
    port->error = ETIMEDOUT;
    kij_internal_port_close(port);
    return false;
}

/* Has a driver of the caller's carry out the order of a line: whether the device has done it. */
static bool carry_out_own(kij_drive *drive, char *line) {
    kij_order order;
    bool is_done = kij_internal_is_order(line, &order) && drive->own.carry_out(drive->context, &order);
    if (is_done && drive->category == KIJ_POS_PRINTER) drive->orders++;
    return is_done;
}

static bool carry_out(kij_till *till, kij_drive *drive, char *line) {
    if (!is_online(drive)) return false;
    if (drive->is_own) return carry_out_own(drive, line);
    if (drive->category == KIJ_LINE_DISPLAY) return show(till, drive);
    uint64_t statuses = drive->link->statuses;
    bool is_printer = drive->category == KIJ_POS_PRINTER;
    bool is_done = kij_internal_link_carry_out(drive->link, &drive->wire, is_printer, till->is_working);
    if (is_done && is_printer) drive->orders++;
    if (is_done && !is_printer) {
        drive->kicked_at = kij_internal_now();
        drive->statuses = statuses;
    }
    return is_done;
}

/* Takes out the order for which a line waits, its device, and its text. Orders of hosted devices before it are kept. A
   code of the library: KIJOLVAR_ORDER if there is one. */
static uint32_t take_order(kij_till *till, kij_drive **drive, char **text) {
    kij_drives *drives = till->drives;
    kij_buffer *hosted = &drives->hosted;
    for (;;) {
        size_t needed = 0;
        uint32_t code = kijolvar_next_order(till->inner, &till->inner.at, NULL, 0, &needed);
        if (code != KIJOLVAR_SHORT) return code == KIJOLVAR_OK ? (uint32_t)KIJOLVAR_NO_ORDER : code;
        /* There is memory before it is taken out. */
        if (!kij_internal_buffer_room(hosted, hosted->size + needed + 1)) return KIJOLVAR_NO_MEMORY;
        char *line = hosted->bytes + hosted->size;
        code = kijolvar_next_order(till->inner, &till->inner.at, (uint8_t *)line, needed, &needed);
        if (code != KIJOLVAR_ORDER) return code;
        const char *end = (const char *)memchr(line, ' ', needed);
        *drive = drive_of(drives, line, end == NULL ? needed : (size_t)(end - line));
        line[needed] = 0;
        *text = line;
        if (*drive != NULL) return code;
        line[needed] = '\n';
        hosted->size += needed + 1;
    }
}

uint32_t kij_internal_kept_order(kij_till *till) {
    kij_buffer *hosted = till->drives == NULL ? NULL : &till->drives->hosted;
    if (hosted == NULL || hosted->size == 0) return KIJOLVAR_OK;
    size_t size = (size_t)((const char *)memchr(hosted->bytes, '\n', hosted->size) - hosted->bytes);
    if (!kij_internal_text(till, size + 1)) return KIJOLVAR_NO_MEMORY;
    memcpy(till->text, hosted->bytes, size);
    till->text[size] = 0;
    hosted->size -= size + 1;
    memmove(hosted->bytes, hosted->bytes + size + 1, hosted->size);
    return KIJOLVAR_ORDER;
}

/* ---- Lines that wait ---- */

/* Does the errands, and makes a longer room, until the answer is in the till. Without memory for it, it is lost. Of one
   that is cut a front is there. */
static uint32_t settled(kij_till *till, uint32_t code, size_t *needed, bool *is_lost) {
    while (code == KIJOLVAR_ERRANDS || code == KIJOLVAR_SHORT) {
        if (code == KIJOLVAR_ERRANDS) {
            if ((code = kij_internal_settle(till)) != KIJOLVAR_OK) return code;
        } else if (!kij_internal_text(till, *needed + 1)) {
            /* SHORT doesn't tell whether lines are held. A call with no lines does, and needs no memory. */
            size_t none = 0;
            *is_lost = true;
            *needed = 0;
            return kijolvar_carry_out(till->inner, &till->inner.at, NULL, 0, (uint8_t *)till->text, till->text_room - 1,
                                      &none);
        }
        code = kijolvar_answer(till->inner, &till->inner.at, (uint8_t *)till->text, till->text_room - 1, needed);
    }
    if (*needed >= till->text_room) *needed = till->text_room - 1;
    return code;
}

/* Has the order that waits carried out. A code of the library: KIJOLVAR_ORDER if it is reported. */
static uint32_t serve(kij_till *till, bool is_wanted, kij_report *made) {
    kij_drive *drive = NULL;
    char *line = NULL;
    uint32_t code = take_order(till, &drive, &line);
    /* An order that was taken out before, and wasn't reported, is no more. */
    if (code != KIJOLVAR_ORDER && code != KIJOLVAR_NO_ORDER) return code;
    memset(made, 0, sizeof *made);
    made->is_made = true;
    till->drives->inputs.size = 0;
    if (drive == NULL || !is_wanted) return KIJOLVAR_ORDER;
    till->drives->has_served = true;
    made->is_done = carry_out(till, drive, line);
    if (made->is_done) return KIJOLVAR_ORDER;
    made->drive = drive;
    made->before = drive->belief;
    /* Without memory for the inputs nobody knows why it isn't done. */
    made->has_inputs = write_inputs(till, drive, &till->drives->inputs);
    return KIJOLVAR_ORDER;
}

static uint32_t tell(kij_till *till, const kij_report *made, size_t *needed) {
    const kij_buffer *inputs = &till->drives->inputs;
    return kijolvar_order_done(till->inner, &till->inner.at, made->is_done ? 0 : 1, (const uint8_t *)inputs->bytes,
                               made->has_inputs ? inputs->size : 0, (uint8_t *)till->text, till->text_room - 1, needed);
}

/* Keeps a part of the answer, without the answers to the inputs of a report, which are first: whether there is memory.
   An input that found none, or has no answer, is told again. Whether it answers any line is written. */
static bool keep(kij_till *till, const kij_report *made, size_t needed, bool *is_any) {
    const kij_buffer *inputs = &till->drives->inputs;
    size_t from = 0;
    for (size_t at = 0; made->has_inputs && at < inputs->size; at++) {
        if (inputs->bytes[at] != '\n') continue;
        const char *answer = till->text + from, *end = (const char *)memchr(answer, '\n', needed - from);
        if (end == NULL || begins_with(answer, "memory\n")) made->drive->belief = made->before;
        if (end != NULL) from += (size_t)(end - answer) + 1;
    }
    if (needed > from) *is_any = true;
    return kij_internal_buffer_add(&till->drives->answer, till->text + from, needed - from);
}

/* Ends without memory: some lines are held, or none is. What was printed is reported the next time, and what happened
   at the device is told again. The call has no answer if anything was done. */
static uint32_t run_out(kij_till *till, bool is_holding, const kij_report *made, bool is_any) {
    till->is_holding = is_holding;
    if (made->is_made && made->is_done) till->drives->unreported = *made;
    if (made->is_made && made->drive != NULL) made->drive->belief = made->before;
    return is_any ? KIJOLVAR_CUT : KIJOLVAR_NO_MEMORY;
}

/* Has the orders carried out for which lines wait, until none is left: the library's code. The answer is in the
   drives. */
static uint32_t finish(kij_till *till, uint32_t code, size_t *needed, bool is_wanted, bool *is_lost) {
    kij_report made = till->drives->unreported;
    int tries = 0;
    /* Whether anything was done: an order, or a line. */
    bool is_any = made.is_done, is_told = false;
    memset(&till->drives->unreported, 0, sizeof made);
    for (;;) {
        bool is_taken = true;
        code = settled(till, code, needed, is_lost);
        bool has_memory = code != KIJOLVAR_NO_MEMORY;
        if (!has_memory) {
            code = kijolvar_answer(till->inner, &till->inner.at, (uint8_t *)till->text, till->text_room - 1, needed);
            code = settled(till, code, needed, is_lost);
            /* If no line is held, this is the answer to an earlier call: no line of this one was taken. */
            if (code == KIJOLVAR_OK || code == KIJOLVAR_CUT) return run_out(till, false, &made, is_any);
            /* Lines are held. If they wait, the report wasn't taken. If this is said again, it was, and they go on. */
            is_taken = code == KIJOLVAR_NO_MEMORY;
        }
        if (code != KIJOLVAR_OK && code != KIJOLVAR_WAITS && code != KIJOLVAR_NO_MEMORY) {
            if (code == KIJOLVAR_CUT && !keep(till, &made, *needed, &is_any)) *is_lost = true;
            return code;
        }
        if (is_taken) {
            if (!keep(till, &made, *needed, &is_any)) *is_lost = true;
            if (is_told) memset(&made, 0, sizeof made);
        }
        if (!has_memory && ++tries == 3) return run_out(till, true, &made, is_any);
        if (code == KIJOLVAR_OK) return code;
        if (code == KIJOLVAR_WAITS && !made.is_made) {
            uint32_t served = serve(till, is_wanted, &made);
            if (served == KIJOLVAR_NO_MEMORY) return run_out(till, true, &made, is_any);
            if (served != KIJOLVAR_ORDER) return served;
            is_any |= made.is_done;
        }
        code = tell(till, &made, needed);
        is_told = true;
    }
}

/* Swaps the answer that was kept into the till, with a 0 byte behind it: how many bytes it has. */
static size_t take_answer(kij_till *till, bool *is_lost) {
    kij_buffer *answer = &till->drives->answer;
    if (!kij_internal_buffer_room(answer, answer->size + 1)) {
        *is_lost = true;
        return 0;
    }
    char *text = till->text;
    size_t room = till->text_room, size = answer->size;
    till->text = answer->bytes;
    till->text_room = answer->room;
    answer->bytes = text;
    answer->room = room;
    answer->size = 0;
    return size;
}

int kij_internal_served(kij_till *till, uint32_t code, size_t *needed) {
    bool is_lost = false;
    till->drives->answer.size = 0;
    code = finish(till, code, needed, true, &is_lost);
    *needed = take_answer(till, &is_lost);
    till->text[*needed] = 0;
    till->text_size = *needed;
    if (till->drives->has_served) {
        till->drives->has_served = false;
        if (code == KIJOLVAR_OK) hand_in_behind(till);
    }
    switch (code) {
    case KIJOLVAR_OK: return is_lost ? KIJ_NO_ANSWER : KIJ_OK;
    case KIJOLVAR_CUT: return KIJ_NO_ANSWER;
    case KIJOLVAR_NO_MEMORY: return KIJ_NO_MEMORY;
    case KIJOLVAR_DISK_FAILED: return kij_internal_disk_failed(till);
    default:
        /* Lines may be held. */
        till->is_holding = true;
        return KIJ_BAD_ANSWER;
    }
}

void kij_internal_give_up(kij_till *till) {
    bool is_lost = false;
    size_t needed = 0;
    till->drives->answer.size = 0;
    till->is_holding = false;
    uint32_t code = kijolvar_answer(till->inner, &till->inner.at, (uint8_t *)till->text, till->text_room - 1, &needed);
    finish(till, code, &needed, false, &is_lost);
}

/* ---- Scanners ---- */

/* The type of a code by its AIM identifier, which is behind its bracket. */
static int type_of(const uint8_t *name) {
    static const struct {
        char letter;
        char digit;
        int type;
    } types[] = {
        {'C', '1', KIJ_SCAN_SDT_EAN128},
        {'E', '3', KIJ_SCAN_SDT_EAN13_S},
        {'E', '4', KIJ_SCAN_SDT_EAN8},
        {'o', '1', KIJ_SCAN_SDT_OCRA},
        {'o', '2', KIJ_SCAN_SDT_OCRB},
        {'A', 0, KIJ_SCAN_SDT_Code39},
        {'C', 0, KIJ_SCAN_SDT_Code128},
        {'E', 0, KIJ_SCAN_SDT_EAN13},
        {'F', 0, KIJ_SCAN_SDT_Codabar},
        {'G', 0, KIJ_SCAN_SDT_Code93},
        {'I', 0, KIJ_SCAN_SDT_ITF},
        {'L', 0, KIJ_SCAN_SDT_PDF417},
        {'Q', 0, KIJ_SCAN_SDT_QRCODE},
        {'S', 0, KIJ_SCAN_SDT_TF},
        {'U', 0, KIJ_SCAN_SDT_MAXICODE},
        {'d', 0, KIJ_SCAN_SDT_DATAMATRIX},
        {'e', 0, KIJ_SCAN_SDT_GS1DATABAR},
        {'z', 0, KIJ_SCAN_SDT_AZTEC},
    };
    for (size_t place = 0; place < sizeof types / sizeof types[0]; place++)
        if (types[place].letter == (char)name[0] && (types[place].digit == 0 || types[place].digit == (char)name[1]))
            return types[place].type;
    return KIJ_SCAN_SDT_OTHER;
}

/* Tells the till of a scan: a code of enum kij_code. Whether it couldn't be told for want of memory is written. */
static int tell_scan(kij_till *till, const kij_drive *drive, const kij_word *word, const kij_argument *arguments,
                     size_t count, bool *is_untold) {
    char *value;
    *is_untold = true;
    /* Lines that are held from here on have the scan in them. */
    if (till->is_holding) kij_internal_give_up(till);
    if (till->is_holding) return KIJ_NO_MEMORY;
    int code = kij_internal_run(till, KIJ_VERB_INPUT, &drive->name, word, arguments, count);
    if (code == KIJ_OK) code = kij_internal_answer(till, KIJ_NO_CATEGORY, &value).code;
    *is_untold = code == KIJ_NO_MEMORY && !till->is_holding;
    /* Nothing happens at a device that is detached. */
    return code == KIJ_BAD_DEVICE ? KIJ_OK : code;
}

/* Tells the till of the code that has come: a code of enum kij_code. What can't be told for want of memory stays. A
   scan has failed if a part of it was lost or it is longer than any code: that is told later. */
static int scan(kij_till *till, kij_drive *drive, bool *is_any) {
    static const kij_word word = KIJ_WORD(" scan");
    kij_argument arguments[3];
    size_t size = drive->begun_size, front = size > 3 && drive->begun[0] == ']' ? 3 : 0;
    int code = KIJ_OK;
    if (drive->is_torn || size > LONGEST_CODE) {
        drive->has_failed = true;
    } else if (size > 0) {
        arguments[0] = kij_internal_number(front > 0 ? type_of(drive->begun + 1) : drive->type);
        arguments[1] = kij_internal_bytes(drive->begun, size);
        arguments[2] = kij_internal_bytes(drive->begun + front, size - front);
        code = tell_scan(till, drive, &word, arguments, 3, &drive->is_untold);
        if (drive->is_untold) return code;
        *is_any = true;
    }
    drive->begun_size = 0;
    drive->is_torn = false;
    return code;
}

/* What has begun of a code gets no end any more: the scan has failed, and what comes next is another code. */
static void give_up_code(kij_drive *drive) {
    if (drive->begun_size > 0 || drive->is_torn) drive->has_failed = true;
    drive->begun_size = 0;
    drive->is_shifted = drive->is_control = drive->is_torn = false;
}

static void add_byte(kij_drive *drive, uint8_t byte) {
    if (drive->begun_size < LONGEST_CODE) drive->begun[drive->begun_size] = byte;
    if (drive->begun_size <= LONGEST_CODE) drive->begun_size++;
}

/* The type of a key event, and the code of an event of type 0 that says that events were lost. The system gives no
   event of the last type: it marks that nothing has come for so long that a code which has begun has no end. */
enum { KEY_EVENT = 1, EVENTS_LOST = 3, LULL_EVENT = 0xffff, EVENT_SIZE = 24 };

/* The first key with a character and how many there are, and those of the keypad. */
enum { FIRST_KEY = 2, KEY_COUNT = 56, FIRST_OF_PAD = 71, PAD_COUNT = 13, DIVIDE_KEY = 98, NUM_LOCK = 69 };

/* What separates the fields of a code. Scanners type it as the control key and ]. */
enum { SEPARATOR = 0x1d };

/* The characters of the keys of the layout US from number 2 on, without and with shift; a 0 byte is no character. */
static const char key_characters[2][KEY_COUNT + 1] = {
    "1234567890-=\0\0qwertyuiop[]\0\0asdfghjkl;'`\0\\zxcvbnm,./\0*\0 ",
    "!@#$%^&*()_+\0\0QWERTYUIOP{}\0\0ASDFGHJKL:\"~\0|ZXCVBNM<>?\0*\0 ",
};

/* Those of the keypad. */
static const char pad_characters[PAD_COUNT + 1] = "789-456+1230.";

/* The character of a key, or a 0 byte. */
static char character_of(const kij_drive *drive, uint16_t key) {
    char found = 0;
    if (key >= FIRST_KEY && key < FIRST_KEY + KEY_COUNT) found = key_characters[drive->is_shifted][key - FIRST_KEY];
    if (key >= FIRST_OF_PAD && key < FIRST_OF_PAD + PAD_COUNT) found = pad_characters[key - FIRST_OF_PAD];
    if (key == DIVIDE_KEY) found = '/';
    if (drive->is_control) found = found == ']' ? SEPARATOR : 0;
    return found;
}

/* A key event of Linux: the time, a type, the key and whether it is down. Whether a code has ended. */
static bool take_key(kij_drive *drive, const uint8_t *event) {
    uint16_t type, key;
    int32_t value;
    memcpy(&type, event + EVENT_SIZE - 8, sizeof type);
    memcpy(&key, event + EVENT_SIZE - 6, sizeof key);
    memcpy(&value, event + EVENT_SIZE - 4, sizeof value);
    if (type == 0 && key == EVENTS_LOST) {
        /* Nobody has read for so long that the system had no room left for events. */
        drive->is_torn = true;
        drive->is_shifted = drive->is_control = false;
    }
    if (type == LULL_EVENT) give_up_code(drive);
    if (type != KEY_EVENT) return false;
    if (key == 42 || key == 54) drive->is_shifted = value != 0;
    else if (key == 29 || key == 97) drive->is_control = value != 0;
    /* A code that was lost up to its end ends where the key goes up. */
    else if (key == 28 || key == 96) return value == 1 || (value == 0 && drive->is_torn);
    else if (value == 1 && key != NUM_LOCK) {
        /* A key that is held down repeats by the value 2, and types its character once all the same. */
        char found = character_of(drive, key);
        if (found != 0) add_byte(drive, (uint8_t)found);
        /* A code without one of its characters is another code. */
        else drive->is_torn = true;
    }
    return false;
}

/* Takes what has come of a scanner, up to a code that can't be told: a code of enum kij_code. */
static int take_scans(kij_till *till, kij_drive *drive, bool *is_any) {
    bool has_keys = drive->port.kind == KIJ_PORT_KEYS;
    size_t step = has_keys ? EVENT_SIZE : 1, at = 0;
    int code = KIJ_OK;
    for (; code == KIJ_OK && at + step <= drive->got_size; at += step) {
        uint8_t byte = drive->got[at];
        bool is_end = has_keys ? take_key(drive, drive->got + at) : byte == '\r' || byte == '\n';
        /* The system gives a 0 byte in place of one that the line has disturbed. */
        if (drive->port.kind == KIJ_PORT_SERIAL && byte == 0) drive->is_torn = true;
        else if (is_end) code = scan(till, drive, is_any);
        else if (!has_keys) add_byte(drive, byte);
        /* Its end is taken again. */
        if (is_end && drive->is_untold) break;
    }
    drive->got_size -= at;
    memmove(drive->got, drive->got + at, drive->got_size);
    return code;
}

/* Whether a driver of the caller's has a code that isn't told yet, or a failed scan. */
static bool has_scan(kij_drive *drive) {
    if (drive->is_untold || drive->own.scan == NULL) return drive->is_untold;
    memset(&drive->scan, 0, sizeof drive->scan);
    drive->is_untold = drive->own.scan(drive->context, &drive->scan);
    return drive->is_untold;
}

/* Tells the till of what a driver of the caller's has scanned: a code of enum kij_code. What can't be told for want of
   memory stays. */
static int own_scans(kij_till *till, kij_drive *drive, bool *is_any) {
    static const kij_word words[] = {KIJ_WORD(" scan"), KIJ_WORD(" fault")};
    int code = KIJ_OK;
    for (int part = 0; part < KIJ_MOST_PARTS && code == KIJ_OK && has_scan(drive); part++) {
        const kij_scan *scan = &drive->scan;
        const kij_argument arguments[] = {kij_internal_number(scan->type),
                                          kij_internal_bytes(scan->data, scan->data_size),
                                          kij_internal_bytes(scan->label, scan->label_size)};
        size_t count = scan->has_failed ? 0 : 3;
        drive->is_untold = false;
        if (!scan->has_failed && !is_range(scan->type, 0, HIGHEST_TYPE)) return KIJ_BAD_INPUT;
        code = tell_scan(till, drive, &words[scan->has_failed], arguments, count, &drive->is_untold);
        *is_any |= code == KIJ_OK;
    }
    return code;
}

/* Whether key events of a device are to be taken: its keyboard gives some, and there is room for one. */
static bool may_type(const kij_drive *drive) {
    const kij_port *port = &drive->port;
    bool has_room = drive->got_size + EVENT_SIZE <= sizeof drive->got;
    return port->kind == KIJ_PORT_KEYS && has_room && !port->was_empty && kij_internal_port_is_open(port);
}

/* Marks that nothing has come for a while behind what was typed, if a code may have begun: what comes then is another
   one. There is room. */
static void mark_lull(kij_drive *drive) {
    static const uint16_t mark = LULL_EVENT;
    uint8_t *end = drive->got + drive->got_size;
    bool has_begun = drive->got_size > 0 || drive->begun_size > 0 || drive->is_torn;
    bool is_marked = drive->got_size > 0 && memcmp(end - 8, &mark, sizeof mark) == 0;
    if (!has_begun || is_marked || kij_internal_now() - drive->heard_at < lull) return;
    memset(end, 0, EVENT_SIZE);
    memcpy(end + EVENT_SIZE - 8, &mark, sizeof mark);
    drive->got_size += EVENT_SIZE;
}

/* Takes key events. A keyboard that gives none is left alone: it may be lost, which is seen once its codes are told. */
static void take_typed(kij_drive *drive) {
    ssize_t found = read(drive->port.file, drive->got + drive->got_size, sizeof drive->got - drive->got_size);
    if (found == 0 || (found < 0 && errno != EAGAIN && errno != EINTR)) drive->port.was_empty = true;
    if (found < 0 && errno == EAGAIN && drive->got_size % EVENT_SIZE == 0) mark_lull(drive);
    if (found <= 0) return;
    drive->got_size += (size_t)found;
    drive->heard_at = kij_internal_now();
}

/* Takes what a scanner has typed: the file where more may come, or -1. */
static int read_ahead(kij_drive *drive) {
    if (drive->is_own) return drive->own.read_ahead == NULL ? -1 : drive->own.read_ahead(drive->context);
    if (may_type(drive)) take_typed(drive);
    return may_type(drive) ? drive->port.file : -1;
}

void kij_internal_rest_typing(kij_till *till, int64_t time) {
    int64_t end = kij_internal_now() + time;
    do {
        for (kij_drive *drive = till->drives->first; drive != NULL; drive = drive->next)
            if (drive->category == KIJ_SCANNER) (void)read_ahead(drive);
        kij_internal_sleep(1);
    } while (kij_internal_now() < end);
}

void kij_internal_wait_typing(kij_till *till, const kij_port *port, bool is_writing, int64_t time, bool *can_read,
                              bool *can_write) {
    struct pollfd waiting[MOST_PORTS];
    int64_t left = time, end = kij_internal_now() + time;
    do {
        nfds_t count = 1;
        waiting[0] = kij_internal_port_waiting(port, is_writing);
        for (kij_drive *drive = till->drives->first; drive != NULL && count < MOST_PORTS; drive = drive->next) {
            int file = drive->category == KIJ_SCANNER ? read_ahead(drive) : -1;
            struct pollfd typing = {file, POLLIN, 0};
            if (file >= 0) waiting[count++] = typing;
        }
        int ready = poll(waiting, count, (int)(left < often ? left : often));
        left = end - kij_internal_now();
        /* A file that a driver doesn't read would be ready again at once. */
        if (ready > 0 && waiting[0].revents == 0 && left > 0) kij_internal_sleep(1);
    } while (waiting[0].revents == 0 && left > 0);
    kij_internal_port_is_ready(&waiting[0], can_read, can_write);
}

/* Reads what a scanner has sent: a code of enum kij_code. It sends each code in one go. A control ignores codes from a
   failed scan on, so those that have come are first. */
static int scans(kij_till *till, kij_drive *drive, bool *is_any) {
    static const kij_word fault = KIJ_WORD(" fault");
    kij_port *port = &drive->port;
    bool can_read, can_write, is_code = false;
    int code = take_scans(till, drive, &is_code);
    for (int part = 0; part < KIJ_MOST_PARTS && code == KIJ_OK && kij_internal_port_is_open(port); part++) {
        size_t room = sizeof drive->got - drive->got_size, count = 0;
        kij_internal_port_wait(port, false, 0, &can_read, &can_write);
        if (!can_read || !kij_internal_port_read(port, drive->got + drive->got_size, room, &count) || count == 0) break;
        drive->got_size += count;
        drive->heard_at = kij_internal_now();
        code = take_scans(till, drive, &is_code);
    }
    bool is_over = !kij_internal_port_is_open(port) || kij_internal_now() - drive->heard_at >= lull;
    if (code == KIJ_OK && is_over) give_up_code(drive);
    if (code == KIJ_OK && drive->has_failed && !is_code) {
        code = tell_scan(till, drive, &fault, NULL, 0, &drive->has_failed);
        is_code = !drive->has_failed;
    }
    *is_any |= is_code;
    return code;
}

/* ---- The loop ---- */

/* Opens the port of a display or a scanner, unless that was tried just now. A code that waits to be told is first. */
static void connect_port(kij_drive *drive, int64_t time) {
    if (kij_internal_port_is_open(&drive->port) || drive->is_untold) return;
    if (!drive->port.is_joining && kij_internal_now() - drive->tried_at < drive->pause) return;
    kij_internal_port_open(&drive->port, time);
    drive->tried_at = kij_internal_now();
    drive->is_new = true;
    drive->got_size = 0;
}

/* Reads what a device has said, and looks for one that was lost, without waiting. */
static void look(kij_drive *drive) {
    if (drive->is_own) {
        if (drive->own.poll != NULL) drive->own.poll(drive->context);
        /* A code comes before the device is off. */
        if (drive->category == KIJ_SCANNER) (void)has_scan(drive);
        return;
    }
    if (drive->link != NULL) {
        if (drive->has_link) kij_internal_link_poll(drive->link);
        return;
    }
    connect_port(drive, quickly);
    if (drive->category == KIJ_LINE_DISPLAY && kij_internal_port_is_open(&drive->port)) (void)listen_to(drive);
}

/* Reads the scanners, whatever each comes to: the first code of enum kij_code that isn't KIJ_OK. */
static int read_scanners(kij_till *till, bool *is_any) {
    int code = KIJ_OK;
    for (kij_drive *drive = till->drives->first; drive != NULL; drive = drive->next) {
        int found = KIJ_OK;
        /* The till takes no code of one that it doesn't know to be on yet. */
        if (drive->category == KIJ_SCANNER && drive->belief.power == KIJ_POWER_ON)
            found = (drive->is_own ? own_scans : scans)(till, drive, is_any);
        if (code == KIJ_OK) code = found;
    }
    return code;
}

/* Does the first request that waits for a printer: a code of enum kij_code. One that has failed waits a while, since
   the default reply to its ErrorEvent tries it again at once. */
static int work(kij_till *till, kij_drive *drive, bool *is_any) {
    char *value;
    if (kij_internal_now() - drive->failed_at < rest) return KIJ_OK;
    int code = kij_internal_run(till, KIJ_VERB_WORK, &drive->name, NULL, NULL, 0);
    if (code != KIJ_OK || strcmp(till->text, "idle") == 0) return code;
    bool has_failed = strncmp(till->text, "failed ", 7) == 0;
    if (has_failed) drive->failed_at = kij_internal_now();
    if (has_failed || strncmp(till->text, "done ", 5) == 0) {
        *is_any = true;
        return KIJ_OK;
    }
    code = kij_internal_answer(till, KIJ_NO_CATEGORY, &value).code;
    /* Nothing waits for one that is detached. */
    return code == KIJ_BAD_DEVICE ? KIJ_OK : code;
}

static int run_round(kij_till *till, bool *is_any) {
    kij_drive *first = till->drives->first;
    bool is_code = false;
    for (kij_drive *drive = first; drive != NULL; drive = drive->next) look(drive);
    int code = kij_internal_hand_in(till, is_any);
    if (code == KIJ_OK) code = till->drives->fault;
    till->drives->fault = KIJ_OK;
    int found = read_scanners(till, &is_code);
    if (code == KIJ_OK) code = found;
    /* A scanner that was lost behind its codes is off now. */
    if (code == KIJ_OK && is_code) code = kij_internal_hand_in(till, is_any);
    *is_any |= is_code;
    for (kij_drive *drive = first; drive != NULL && code == KIJ_OK; drive = drive->next)
        if (drive->category == KIJ_POS_PRINTER) code = work(till, drive, is_any);
    return code;
}

/* Waits until a device says something; without devices it takes the whole time. */
static void wait_for_any(const kij_drives *drives, int64_t time) {
    struct pollfd waiting[MOST_PORTS];
    nfds_t count = 0;
    kij_drive *first = drives == NULL ? NULL : drives->first;
    for (kij_drive *drive = first; drive != NULL && count < MOST_PORTS; drive = drive->next) {
        const kij_port *port = port_of(drive);
        if (drive->link != NULL && !drive->has_link) continue;
        /* One that gives nothing may be readable all the time. */
        int file = port->was_empty ? -1 : port->file;
        if (drive->is_own) file = drive->own.file == NULL ? -1 : drive->own.file(drive->context);
        if (file < 0) continue;
        waiting[count].fd = file;
        waiting[count].events = POLLIN;
        waiting[count++].revents = 0;
    }
    poll(waiting, count, (int)time);
}

kij_result kij_run_devices(kij_till *till, int timeout, bool *is_any) {
    bool found = false;
    int64_t end = timeout == KIJ_FOREVER ? INT64_MAX : kij_internal_now() + timeout;
    if (timeout < 0 && timeout != KIJ_FOREVER) return plain(KIJ_BAD_ARGUMENT);
    int code = kij_internal_enter(till);
    if (code != KIJ_OK) return plain(code);
    while (code == KIJ_OK) {
        if (till->drives != NULL) code = run_round(till, &found);
        int64_t left = end - kij_internal_now();
        if (code != KIJ_OK || found || left <= 0) break;
        wait_for_any(till->drives, left < 100 ? left : 100);
    }
    kij_internal_leave(till);
    if (is_any != NULL && code == KIJ_OK) *is_any = found;
    return plain(code);
}

kij_result kij_show_driver(kij_till *till, const char *device, kij_driver_view *view) {
    kij_word name;
    if (view == NULL || !kij_internal_is_name(device, &name)) return plain(KIJ_BAD_ARGUMENT);
    int code = kij_internal_enter(till);
    if (code != KIJ_OK) return plain(code);
    kij_drive *drive = drive_of(till->drives, name.text + 1, name.size - 1);
    if (drive != NULL) {
        view->is_online = is_online(drive);
        view->port_error = port_of(drive)->error;
        view->late_orders = drive->has_link ? drive->link->late : 0;
    }
    kij_internal_leave(till);
    return plain(drive == NULL ? KIJ_NO_DEVICE : KIJ_OK);
}

int kij_internal_port_error(const kij_till *till, const kij_control *control) {
    if (till->has_opened || control->device.size == 0) return 0;
    kij_drive *drive = drive_of(till->drives, control->device.text + 1, control->device.size - 1);
    if (drive == NULL || kij_internal_port_is_open(port_of(drive))) return 0;
    return port_of(drive)->error;
}

/* ---- Beginning and end ---- */

/* What a device is, by what `show` prints of it. */
static int category_of(kij_till *till, const kij_word *name, kij_category *category) {
    char *value;
    int code = kij_internal_run(till, KIJ_VERB_SHOW, name, NULL, NULL, 0);
    if (code == KIJ_OK) code = kij_internal_answer(till, KIJ_NO_CATEGORY, &value).code;
    if (code != KIJ_OK) return code;
    value = till->text + (strcmp(till->text, "ok") == 0 ? 2 : 3);
    size_t size = strcspn(value, " ");
    bool is_hinged = strncmp(value, "open", size) == 0 || strncmp(value, "closed", size) == 0;
    if (*value == 0) *category = KIJ_SCANNER;
    else if (is_hinged) *category = value[size] == 0 ? KIJ_CASH_DRAWER : KIJ_POS_PRINTER;
    else *category = KIJ_LINE_DISPLAY;
    return KIJ_OK;
}

static void free_drive(kij_drive *drive) {
    kij_internal_port_close(&drive->port);
    if (drive->link != NULL && drive->has_link) kij_internal_link_end(drive->link);
    free(drive->begun);
    free(drive);
}

/* Keeps the orders of hosted devices that nobody has taken out yet: those of a device that is driven from now on aren't
   its driver's. No line waits. A code of enum kij_code. */
static int keep_hosted(kij_till *till) {
    kij_drive *drive = NULL;
    char *line = NULL;
    switch (take_order(till, &drive, &line)) {
    case KIJOLVAR_NO_ORDER: return KIJ_OK;
    case KIJOLVAR_NO_MEMORY: return KIJ_NO_MEMORY;
    case KIJOLVAR_DISK_FAILED: return KIJ_DISK_FAILED;
    default: return KIJ_BAD_ANSWER;
    }
}

/* Makes a drive of a device that can have one: a code of enum kij_code. */
static int make_drive(kij_till *till, const char *device, kij_category category, kij_drive **drive) {
    kij_word name;
    kij_category found = KIJ_NO_CATEGORY;
    if (!kij_internal_is_name(device, &name)) return KIJ_BAD_ARGUMENT;
    if (till->drives == NULL) till->drives = (kij_drives *)calloc(1, sizeof *till->drives);
    if (till->drives == NULL) return KIJ_NO_MEMORY;
    if (drive_of(till->drives, name.text + 1, name.size - 1) != NULL) return KIJ_DRIVEN;
    int code = category_of(till, &name, &found);
    if (code != KIJ_OK) return code;
    if (found != category) return KIJ_KIND_DIFFERS;
    code = keep_hosted(till);
    if (code != KIJ_OK) return code;
    kij_drive *made = (kij_drive *)calloc(1, sizeof *made);
    if (made == NULL) return KIJ_NO_MEMORY;
    made->category = category;
    made->name = name;
    made->kicked_at = -1;
    made->tried_at = made->failed_at = KIJ_NEVER;
    made->port.file = -1;
    *drive = made;
    return KIJ_OK;
}

/* Whether settings fit the device, which is a printer or a drawer: a code of enum kij_code. */
static int settings_code(kij_till *till, const kij_drive *drive, const kijolvar_wire_settings *wire) {
    size_t used = 0, skipped = 0, needed = 0;
    switch (kijolvar_replies(till->inner, &till->inner.at, (const uint8_t *)drive->name.text + 1, drive->name.size - 1,
                             wire, 0, NULL, 0, &used, &skipped, NULL, 0, &needed)) {
    case KIJOLVAR_OK: return KIJ_OK;
    case KIJOLVAR_NO_MEMORY: return KIJ_NO_MEMORY;
    case KIJOLVAR_BAD_SETTINGS: return KIJ_BAD_SETTINGS;
    default: return KIJ_NO_DEVICE;
    }
}

/* Finds out at how many lines a printer is near its end, whose settings fit: the library takes no roll that is as short
   as that. A code of enum kij_code. */
static int find_near(kij_till *till, kij_drive *drive) {
    kijolvar_wire_settings wire = drive->wire;
    uint32_t refused = 0, taken = wire.lines;
    while (taken - refused > 1) {
        wire.lines = refused + (taken - refused) / 2;
        int code = settings_code(till, drive, &wire);
        if (code == KIJ_OK) taken = wire.lines;
        else if (code == KIJ_BAD_SETTINGS) refused = wire.lines;
        else return code;
    }
    drive->near = refused;
    return KIJ_OK;
}

/* Makes the orders of a device wait from now on: a code of enum kij_code. */
static int begin_drive(kij_till *till, const kij_drive *drive) {
    switch (kijolvar_drive(till->inner, &till->inner.at, (const uint8_t *)drive->name.text + 1, drive->name.size - 1)) {
    case KIJOLVAR_OK: return KIJ_OK;
    case KIJOLVAR_NO_MEMORY: return KIJ_NO_MEMORY;
    default: return KIJ_NO_DEVICE;
    }
}

void kij_internal_drive_again(kij_till *till, const char *name, size_t size) {
    kij_drive *drive = drive_of(till->drives, name, size);
    if (drive == NULL) return;
    /* One that isn't attached after all can't be driven. */
    if (drive->category != KIJ_SCANNER) (void)begin_drive(till, drive);
    memset(&drive->belief, 0, sizeof drive->belief);
    drive->belief.texts = drive->texts;
    if (drive->is_own && drive->own.attached != NULL) drive->own.attached(drive->context);
    drive->kicked_at = -1;
    drive->is_new = true;
    if (!till->is_holding) hand_in_behind(till);
}

/* Adds a drive behind the others. */
static void add_drive(kij_drives *drives, kij_drive *drive) {
    kij_drive **last = &drives->first;
    while (*last != NULL) last = &(*last)->next;
    *last = drive;
}

/* Copies a port's name, which is to stay behind a record of this size: the record, cleared, or null. */
static void *with_name(size_t size, const char *name, const char **copy) {
    size_t length = strlen(name) + 1;
    char *made = (char *)calloc(1, size + length);
    if (made == NULL) return NULL;
    memcpy(made + size, name, length);
    *copy = made + size;
    return made;
}

void kij_internal_forget_orders(kij_till *till, const kij_control *control) {
    const kij_word *device = control == NULL || till->has_opened ? NULL : &control->device;
    if (till->drives == NULL) return;
    for (kij_drive *drive = till->drives->first; drive != NULL; drive = drive->next) {
        bool is_meant = device == NULL || device->size == 0 || has_name(drive, device->text + 1, device->size - 1);
        if (drive->category != KIJ_POS_PRINTER || !is_meant) continue;
        if (drive->has_link) kij_internal_link_forget_orders(drive->link);
        if (drive->is_own && drive->own.given_up != NULL) drive->own.given_up(drive->context);
    }
}

void kij_internal_end_drives(kij_till *till) {
    kij_drives *drives = till->drives;
    if (drives == NULL) return;
    while (drives->first != NULL) {
        kij_drive *drive = drives->first;
        drives->first = drive->next;
        /* Not in a process that was forked. */
        if (drive->is_own && drive->own.end != NULL && till->process == getpid()) drive->own.end(drive->context);
        free_drive(drive);
    }
    free(drives->inputs.bytes);
    free(drives->answer.bytes);
    free(drives->spare.bytes);
    free(drives->order.bytes);
    free(drives->hosted.bytes);
    free(drives);
    till->drives = NULL;
}

/* Takes over the settings of a printer, so far as they aren't the library's to check. */
static int wire_of(const kij_escpos_settings *settings, kijolvar_wire_settings *wire) {
    if (!is_range(settings->width, 0, INT32_MAX) || !is_range(settings->feed, 0, 255) ||
        !is_range(settings->on, 0, 255) || !is_range(settings->off, 0, 255) || !is_range(settings->lines, 0, 100000) ||
        !is_range(settings->timeout, 1, LONGEST_TIME) || !is_range(settings->pause, 0, LONGEST_TIME) ||
        !kij_internal_is_serial(&settings->serial))
        return KIJ_BAD_SETTINGS;
    memset(wire, 0, sizeof *wire);
    wire->width = settings->width == 0 ? UINT32_MAX : (uint32_t)settings->width;
    wire->cutter = (uint32_t)settings->cutter;
    wire->feed = (uint32_t)settings->feed;
    wire->lines = (uint32_t)settings->lines;
    wire->pin = (uint32_t)settings->pin;
    wire->on = (uint32_t)settings->on;
    wire->off = (uint32_t)settings->off;
    wire->open_is_high = settings->is_open_high;
    return KIJ_OK;
}

/* Makes the line of a printer: whether there is memory. */
static bool make_link(kij_till *till, kij_drive *printer, const char *port, const kij_escpos_settings *settings) {
    const char *name = NULL;
    kij_link *link = (kij_link *)with_name(sizeof *link, port, &name);
    if (link == NULL) return false;
    link->till = till;
    kij_internal_port(&link->port, name, &settings->serial, false);
    link->port.is_patient = true;
    link->timeout = settings->timeout;
    link->pause = settings->pause;
    link->is_asked = settings->is_asked;
    link->name = &printer->name;
    link->wire = &printer->wire;
    printer->link = link;
    printer->has_link = true;
    return true;
}

/* Begins to drive a device, and adds its drive: a code of enum kij_code. Null is written then. */
static int take_drive(kij_till *till, kij_drive **drive) {
    int code = begin_drive(till, *drive);
    if (code != KIJ_OK) return code;
    add_drive(till->drives, *drive);
    *drive = NULL;
    return code;
}

/* Begins to drive a printer and its drawer: a code of enum kij_code. Nothing undoes it, so a printer stays driven if
   only its drawer is refused. */
static int take_drives(kij_till *till, kij_drive **printer, kij_drive **drawer) {
    kij_link *link = (*printer)->link;
    int code = take_drive(till, printer);
    if (code != KIJ_OK) return code;
    if (*drawer != NULL) {
        link->drawer = &(*drawer)->name;
        code = take_drive(till, drawer);
        if (code != KIJ_OK) link->drawer = NULL;
    }
    kij_internal_link_start(link);
    return code;
}

/* Opens a printer and its drawer: a code of enum kij_code. In any case a drive that was made and not added is written.
 */
static int open_printer(kij_till *till, const char *device, const char *port, const kij_escpos_settings *settings,
                        kij_drive **printer, kij_drive **drawer) {
    kijolvar_wire_settings wire;
    int code = wire_of(settings, &wire);
    if (code == KIJ_OK) code = make_drive(till, device, KIJ_POS_PRINTER, printer);
    if (code != KIJ_OK) return code;
    (*printer)->wire = wire;
    code = settings_code(till, *printer, &wire);
    if (code == KIJ_OK) code = find_near(till, *printer);
    if (code == KIJ_OK && !make_link(till, *printer, port, settings)) code = KIJ_NO_MEMORY;
    if (code == KIJ_OK && settings->drawer != NULL) {
        code = make_drive(till, settings->drawer, KIJ_CASH_DRAWER, drawer);
        if (code != KIJ_OK) return code;
        (*drawer)->wire = wire;
        (*drawer)->link = (*printer)->link;
        code = settings_code(till, *drawer, &wire);
    }
    if (code != KIJ_OK) return code;
    return take_drives(till, printer, drawer);
}

kij_result kij_escpos_printer_open(kij_till *till, const char *device, const char *port,
                                   const kij_escpos_settings *settings) {
    static const kij_escpos_settings usual = KIJ_ESCPOS_SETTINGS;
    kij_drive *printer = NULL, *drawer = NULL;
    if (port == NULL) return plain(KIJ_BAD_ARGUMENT);
    if (!kij_internal_is_port(port)) return plain(KIJ_BAD_SETTINGS);
    int code = kij_internal_enter(till);
    if (code != KIJ_OK) return plain(code);
    code = open_printer(till, device, port, settings == NULL ? &usual : settings, &printer, &drawer);
    if (code == KIJ_OK) hand_in_behind(till);
    if (drawer != NULL) free_drive(drawer);
    if (printer != NULL) free_drive(printer);
    kij_internal_leave(till);
    return plain(code);
}

/* Opens a display or a scanner, whose drive is made with its port's name behind it. One that can't be driven is refused
   before its hardware is moved. */
static int open_port(kij_till *till, kij_drive *drive, const char *port, const kij_serial_settings *serial,
                     bool has_keys) {
    const char *name = NULL;
    /* The name is kept with the room for codes. */
    drive->begun = (uint8_t *)with_name(LONGEST_CODE, port, &name);
    int code = drive->begun == NULL ? KIJ_NO_MEMORY : KIJ_OK;
    if (code == KIJ_OK && drive->category != KIJ_SCANNER) code = begin_drive(till, drive);
    if (code != KIJ_OK) {
        free_drive(drive);
        return code;
    }
    kij_internal_port(&drive->port, name, serial, has_keys);
    /* Without one of its bytes a code is another one. */
    drive->port.keeps_faults = drive->category == KIJ_SCANNER;
    connect_port(drive, drive->timeout);
    add_drive(till->drives, drive);
    hand_in_behind(till);
    return code;
}

kij_result kij_serial_display_open(kij_till *till, const char *device, const char *port,
                                   const kij_display_settings *settings) {
    static const kij_display_settings usual = KIJ_DISPLAY_SETTINGS;
    kij_drive *drive = NULL;
    if (settings == NULL) settings = &usual;
    if (port == NULL) return plain(KIJ_BAD_ARGUMENT);
    if (!is_range((int)settings->protocol, KIJ_CD5220, KIJ_ESCPOS) || !is_range(settings->timeout, 1, LONGEST_TIME) ||
        !is_range(settings->pause, 0, LONGEST_TIME) || !kij_internal_is_serial(&settings->serial) ||
        !kij_internal_is_port(port))
        return plain(KIJ_BAD_SETTINGS);
    int code = kij_internal_enter(till);
    if (code != KIJ_OK) return plain(code);
    code = make_drive(till, device, KIJ_LINE_DISPLAY, &drive);
    if (code == KIJ_OK) {
        drive->wire.protocol = (uint32_t)settings->protocol;
        drive->timeout = settings->timeout;
        drive->pause = settings->pause;
        code = open_port(till, drive, port, &settings->serial, false);
    }
    kij_internal_leave(till);
    return plain(code);
}

kij_result kij_wedge_scanner_open(kij_till *till, const char *device, const char *port,
                                  const kij_scanner_settings *settings) {
    static const kij_scanner_settings usual = KIJ_SCANNER_SETTINGS;
    kij_drive *drive = NULL;
    if (settings == NULL) settings = &usual;
    if (port == NULL) return plain(KIJ_BAD_ARGUMENT);
    if (!is_range(settings->type, 0, HIGHEST_TYPE) || !is_range(settings->pause, 0, LONGEST_TIME) ||
        !kij_internal_is_serial(&settings->serial) || !kij_internal_is_port(port))
        return plain(KIJ_BAD_SETTINGS);
    int code = kij_internal_enter(till);
    if (code != KIJ_OK) return plain(code);
    code = make_drive(till, device, KIJ_SCANNER, &drive);
    if (code == KIJ_OK) {
        drive->type = settings->type;
        drive->timeout = opening;
        drive->pause = settings->pause;
        code = open_port(till, drive, port, &settings->serial, settings->has_keys);
    }
    kij_internal_leave(till);
    return plain(code);
}

/* Has a driver of the caller's drive a device: a code of enum kij_code. */
static int open_own(kij_till *till, const char *device, const kij_driver *driver, void *context) {
    kij_drive *drive = NULL;
    int code = make_drive(till, device, driver->category, &drive);
    if (code == KIJ_OK && drive->category != KIJ_SCANNER) code = begin_drive(till, drive);
    if (code != KIJ_OK) {
        if (drive != NULL) free_drive(drive);
        return code;
    }
    drive->own = *driver;
    drive->context = context;
    drive->is_own = true;
    add_drive(till->drives, drive);
    hand_in_behind(till);
    return code;
}

kij_result kij_driver_open(kij_till *till, const char *device, const kij_driver *driver, void *context) {
    if (driver == NULL) return plain(KIJ_BAD_ARGUMENT);
    if (driver->carry_out == NULL && driver->category != KIJ_SCANNER) return plain(KIJ_BAD_ARGUMENT);
    int code = kij_internal_enter(till);
    if (code != KIJ_OK) return plain(code);
    code = open_own(till, device, driver, context);
    kij_internal_leave(till);
    return plain(code);
}
