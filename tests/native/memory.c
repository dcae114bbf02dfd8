/* Tries the layer of C where memory runs out around an order, over a stand-in for the library: lines that are held, an
   answer that is cut, and reports that aren't taken, by the words of kijolvar.h. What is linked with it has
   -Wl,--wrap=malloc,--wrap=realloc.

   Usage: memory. It prints what fails. Its status is 0 if nothing does. */
#define _GNU_SOURCE
#include "kij_hardware.h"
#include <fcntl.h>
#include <stdio.h>
#include <stdlib.h>
#include <string.h>
#include <sys/ioctl.h>
#include <unistd.h>

static int failed;

/* ---- The heap ---- */

static size_t most = SIZE_MAX;

void *__real_malloc(size_t size);
void *__real_realloc(void *at, size_t size);
void *__wrap_malloc(size_t size);
void *__wrap_realloc(void *at, size_t size);

void *__wrap_malloc(size_t size) { return size > most ? NULL : __real_malloc(size); }

void *__wrap_realloc(void *at, size_t size) { return size > most ? NULL : __real_realloc(at, size); }

/* ---- The library ---- */

/* How far the order of a line is. */
static enum { NONE, WAITING, HANDED_OUT, REPORTED } progress;

/* The lines that are held, the answer of those before them, and how often there is no memory: for the lines of a call,
   for a line whose order was reported, for a report, for a scan, for a device that is off, and for closing a control.
   */
static char held[8][100], answer[30000];
static size_t held_count, answer_size;
static bool is_cut, wants_memory, is_done, is_off, is_driven;
static int no_lines, no_line, no_report, no_scan, no_power, no_close;
/* After how many bytes an answer is cut, if that isn't 0; how many bytes an order has, and whether the last one was for
   a display that nobody knows; and what was done. */
static size_t cut_at, order_size = 5;
static bool was_new;
static int noted, scans, drives, closed;
/* An order of another device, which is the host's, or null. */
static const char *others_order;

/* What a line prints; null if it waits. `long` prints much, `note` is counted, and `order` waits for the display. */
static const char *print_line(const char *line) {
    static char text[10100];
    if (strcmp(line, "long") == 0) {
        memset(text, 'x', 10000);
        text[10000] = 0;
        return text;
    }
    if (strcmp(line, "note") == 0) noted++;
    if (strcmp(line, "show p1") == 0) return "ok 2020 00";
    if (strncmp(line, "input s1 scan ", 14) == 0) {
        if (no_scan == 0) scans++;
        else {
            no_scan--;
            return "memory";
        }
    }
    if (strncmp(line, "input p1 paper ", 15) == 0) return "bad input";
    if (strcmp(line, "input p1 power off") == 0) {
        if (no_power > 0) {
            no_power--;
            return "memory";
        }
        is_off = true;
    }
    if (strncmp(line, "close ", 6) == 0) {
        if (no_close == 0) closed++;
        else {
            no_close--;
            return "memory";
        }
    }
    /* What is attached is simulated, until it is driven. */
    if (strncmp(line, "attach p1 ", 10) == 0) is_driven = false;
    if (strcmp(line, "order") != 0 || !is_driven) return "ok";
    if (progress == REPORTED) {
        progress = NONE;
        return is_done ? "ok" : is_off ? "err 108" : "err 111";
    }
    if (is_off) return "err 108";
    progress = WAITING;
    return NULL;
}

/* Adds what a line prints to the answer: false if it is cut. */
static bool add_answer(const char *text) {
    size_t size = strlen(text), end = answer_size + size + 1;
    memcpy(answer + answer_size, text, size);
    answer[answer_size + size] = '\n';
    answer_size = end;
    if (cut_at == 0 || end <= cut_at) return true;
    answer_size = cut_at;
    cut_at = 0;
    return false;
}

/* Carries out the lines that are held, up to one that waits or finds no memory. */
static void go_on(void) {
    is_cut = wants_memory = false;
    while (held_count > 0) {
        wants_memory = progress == REPORTED && no_line > 0;
        if (wants_memory) {
            no_line--;
            return;
        }
        const char *text = print_line(held[0]);
        if (text == NULL) return;
        memmove(held[0], held[1], (size_t)--held_count * sizeof held[0]);
        is_cut = !add_answer(text);
        if (is_cut) held_count = 0;
    }
}

static uint32_t hand_over(uint8_t *text, size_t room, size_t *needed) {
    memcpy(text, answer, answer_size < room ? answer_size : room);
    *needed = answer_size;
    if (is_cut) return KIJOLVAR_CUT;
    if (answer_size > room) return KIJOLVAR_SHORT;
    if (wants_memory) return KIJOLVAR_NO_MEMORY;
    return held_count > 0 ? KIJOLVAR_WAITS : KIJOLVAR_OK;
}

/* Holds the lines of a text. */
static void hold(const uint8_t *text, size_t size) {
    while (size > 0) {
        const uint8_t *end = (const uint8_t *)memchr(text, '\n', size);
        size_t length = end == NULL ? size : (size_t)(end - text), used = length + (end != NULL);
        memcpy(held[held_count], text, length);
        held[held_count++][length] = 0;
        text += used;
        size -= used;
    }
}

uint32_t kijolvar_carry_out(kijolvar_till till, void **out, const uint8_t *lines, size_t lines_len, uint8_t *text,
                            size_t text_len, size_t *needed) {
    *out = till.at;
    if (held_count > 0) return KIJOLVAR_WAITS;
    if (no_lines > 0) {
        no_lines--;
        *needed = 0;
        return KIJOLVAR_NO_MEMORY;
    }
    answer_size = 0;
    hold(lines, lines_len);
    go_on();
    return hand_over(text, text_len, needed);
}

uint32_t kijolvar_answer(kijolvar_till till, void **out, uint8_t *text, size_t text_len, size_t *needed) {
    *out = till.at;
    return hand_over(text, text_len, needed);
}

uint32_t kijolvar_next_order(kijolvar_till till, void **out, uint8_t *text, size_t text_len, size_t *needed) {
    static const char order[] = "p1 clearText";
    const char *line = others_order != NULL ? others_order : progress == WAITING ? order : "";
    *out = till.at;
    *needed = strlen(line);
    if (*needed == 0) return KIJOLVAR_OK;
    if (*needed > text_len) return KIJOLVAR_SHORT;
    memcpy(text, line, *needed);
    if (others_order != NULL) others_order = NULL;
    else progress = HANDED_OUT;
    return KIJOLVAR_ORDER;
}

uint32_t kijolvar_order_done(kijolvar_till till, void **out, uint32_t outcome, const uint8_t *inputs, size_t inputs_len,
                             uint8_t *text, size_t text_len, size_t *needed) {
    *out = till.at;
    if (!wants_memory) {
        if (progress != HANDED_OUT) return KIJOLVAR_NO_ORDER;
        if (no_report > 0) {
            no_report--;
            *needed = 0;
            return KIJOLVAR_NO_MEMORY;
        }
    }
    answer_size = 0;
    if (!wants_memory) {
        is_cut = false;
        for (size_t at = 0, end; at < inputs_len && !is_cut; at = end + 1) {
            char line[100] = "";
            for (end = at; inputs[end] != '\n';) end++;
            memcpy(line, inputs + at, end - at);
            is_cut = !add_answer(print_line(line));
        }
        progress = is_cut ? NONE : REPORTED;
        is_done = outcome == 0;
        if (is_cut) held_count = 0;
    }
    if (!is_cut) go_on();
    return hand_over(text, text_len, needed);
}

uint32_t kijolvar_order_bytes(kijolvar_till till, void **out, const kijolvar_wire_settings *settings, uint32_t is_new,
                              uint32_t end, uint8_t *bytes, size_t bytes_len, size_t *needed) {
    (void)settings, (void)end;
    was_new = is_new != 0;
    *out = till.at;
    *needed = order_size;
    if (bytes_len < order_size) return KIJOLVAR_SHORT;
    if (order_size > 0) memcpy(bytes, "Total", order_size);
    return KIJOLVAR_OK;
}

uint32_t kijolvar_version(void) { return KIJOLVAR_VERSION; }

uint32_t kijolvar_open(const uint8_t *profile, size_t profile_len, void **out) {
    (void)profile, (void)profile_len;
    *out = answer;
    return KIJOLVAR_OK;
}

void kijolvar_close(kijolvar_till till) { (void)till; }

uint32_t kijolvar_drive(kijolvar_till till, void **out, const uint8_t *name, size_t name_len) {
    (void)name, (void)name_len;
    drives++;
    is_driven = true;
    *out = till.at;
    return KIJOLVAR_OK;
}

uint32_t kijolvar_control(kijolvar_till till, void **out, const uint8_t *name, size_t name_len, size_t *control) {
    static size_t count;
    (void)name, (void)name_len;
    *out = till.at;
    *control = count++;
    return KIJOLVAR_OK;
}

/* What no test here asks for. */

uint32_t kijolvar_open_file(const uint8_t *profile, size_t profile_len, const uint8_t *bytes, size_t bytes_len,
                            void **out) {
    (void)profile, (void)profile_len, (void)bytes, (void)bytes_len, (void)out;
    abort();
}

uint32_t kijolvar_format_file(const uint8_t *profile, size_t profile_len, const uint8_t *bytes, size_t bytes_len,
                              void **out) {
    return kijolvar_open_file(profile, profile_len, bytes, bytes_len, out);
}

uint32_t kijolvar_migrate_file(const uint8_t *profile, size_t profile_len, const uint8_t *bytes, size_t bytes_len,
                               void **out) {
    return kijolvar_open_file(profile, profile_len, bytes, bytes_len, out);
}

uint32_t kijolvar_profile_mistake(const uint8_t *profile, size_t profile_len, uint64_t *at, uint8_t *text,
                                  size_t text_len, size_t *needed) {
    (void)profile, (void)profile_len, (void)at, (void)text, (void)text_len, (void)needed;
    abort();
}

uint32_t kijolvar_devices(const uint8_t *profile, size_t profile_len, uint8_t *text, size_t text_len, size_t *needed) {
    return kijolvar_profile_mistake(profile, profile_len, NULL, text, text_len, needed);
}

uint32_t kijolvar_survey(const uint8_t *bytes, size_t bytes_len, uint64_t *at, uint8_t *text, size_t text_len,
                         size_t *needed) {
    return kijolvar_profile_mistake(bytes, bytes_len, at, text, text_len, needed);
}

uint32_t kijolvar_next_errand(kijolvar_till till, void **out, uint64_t *at, uint8_t *bytes, size_t bytes_len,
                              size_t *needed) {
    (void)till, (void)out, (void)at, (void)bytes, (void)bytes_len, (void)needed;
    abort();
}

void kijolvar_errand_failed(kijolvar_till till, void **out) {
    (void)till, (void)out;
    abort();
}

uint32_t kijolvar_host(kijolvar_till till, void **out, const uint8_t *name, size_t name_len) {
    (void)till, (void)out, (void)name, (void)name_len;
    abort();
}

uint32_t kijolvar_tear_off(kijolvar_till till, void **out, const uint8_t *name, size_t name_len) {
    return kijolvar_host(till, out, name, name_len);
}

uint32_t kijolvar_next_event(kijolvar_till till, void **out, size_t from, size_t *control) {
    (void)till, (void)out, (void)from, (void)control;
    abort();
}

uint32_t kijolvar_replies(kijolvar_till till, void **out, const uint8_t *name, size_t name_len,
                          const kijolvar_wire_settings *settings, uint32_t asked, const uint8_t *bytes,
                          size_t bytes_len, size_t *used, size_t *skipped, uint8_t *text, size_t text_len,
                          size_t *needed) {
    (void)till, (void)out, (void)name, (void)name_len, (void)settings, (void)asked, (void)bytes, (void)bytes_len;
    (void)used, (void)skipped, (void)text, (void)text_len, (void)needed;
    abort();
}

/* ---- The tests ---- */

/* A till with a display or a scanner, whose other end is a file. Its own end is open as a file too. */
typedef struct shop {
    kij_till *till;
    int other, line;
    const char *answer;
} shop;

/* Whether two numbers are the same. */
static void told(const char *name, long wanted, long found) {
    if (wanted == found) return;
    failed++;
    printf("failed: %s\n  wanted: %ld\n  found:  %ld\n", name, wanted, found);
}

static int open_other(char *name, size_t room) {
    int other = posix_openpt(O_RDWR | O_NOCTTY | O_NONBLOCK);
    if (other < 0 || grantpt(other) != 0 || unlockpt(other) != 0 || ptsname_r(other, name, room) != 0) abort();
    return other;
}

/* Opens a till with a display, or with a scanner. */
static void opens(shop *self, bool has_scanner) {
    char name[64];
    progress = NONE;
    held_count = 0;
    is_off = false;
    noted = scans = drives = 0;
    self->answer = "";
    self->other = open_other(name, sizeof name);
    self->line = open(name, O_RDONLY | O_NOCTTY | O_NONBLOCK);
    if (self->line < 0) abort();
    told("a till", KIJ_OK, kij_open(NULL, NULL, KIJ_EXISTING, &self->till).code);
    if (has_scanner) told("a scanner", KIJ_OK, kij_wedge_scanner_open(self->till, "s1", name, NULL).code);
    else told("a display", KIJ_OK, kij_serial_display_open(self->till, "p1", name, NULL).code);
}

static void closes(shop *self) {
    kij_close(self->till);
    close(self->line);
    if (self->other >= 0) close(self->other);
}

/* Carries out lines: the code, and the answer if there is one. */
static int lines(shop *self, const char *text) {
    self->answer = "";
    return kij_carry_out(self->till, text, KIJ_ZERO_ENDED, &self->answer).code;
}

/* Whether lines are answered by a text. */
static void answered(shop *self, const char *name, const char *text, const char *wanted) {
    told(name, KIJ_OK, lines(self, text));
    if (strcmp(self->answer, wanted) == 0) return;
    failed++;
    printf("failed: %s\n  wanted: %s  found:  %s", name, wanted, self->answer);
}

/* How many bytes the device got since it was asked last. Those that are wanted may come late, as the system may be
   busy. */
static long got(const shop *self, long wanted) {
    char bytes[100];
    struct pollfd waiting = {self->other, POLLIN, 0};
    long all = 0;
    for (ssize_t count = 1; count > 0 && poll(&waiting, 1, all < wanted ? 10000 : 50) > 0;) {
        count = read(self->other, bytes, sizeof bytes);
        if (count > 0) all += count;
    }
    return all;
}

/* The device is gone. */
static void pull(shop *self) {
    close(self->other);
    self->other = -1;
}

/* There is no memory for a long answer: lines behind it are carried out all the same, and none is held. */
static void try_lost_answer(void) {
    shop self;
    opens(&self, false);
    most = 2000;
    told("a long answer before an order", KIJ_NO_ANSWER, lines(&self, "long\norder\nnote\n"));
    told("the order is done", 5, got(&self, 5));
    told("the line behind it too", 1, noted);
    told("a long answer alone", KIJ_NO_ANSWER, lines(&self, "long\n"));
    answered(&self, "the next call", "note\n", "ok\n");
    told("it is carried out", 2, noted);
    most = SIZE_MAX;
    told("nothing more is done", 0, got(&self, 0));
    closes(&self);
}

/* Of an answer that is cut only the front is read that there is room for. */
static void try_cut_answer(void) {
    shop self;
    opens(&self, false);
    cut_at = 15000;
    most = 2000;
    told("an answer that is cut", KIJ_NO_ANSWER, lines(&self, "long\nlong\n"));
    told("its front is there", 'x', self.answer[0]);
    told("and no more", true, strlen(self.answer) < 2000);
    most = SIZE_MAX;
    /* A call that isn't begun has no part in the answer to the one before. */
    cut_at = 100;
    told("another one", KIJ_NO_ANSWER, lines(&self, "long\n"));
    no_lines = 1;
    told("an order without memory for its line", KIJ_NO_MEMORY, lines(&self, "order\n"));
    told("it isn't done", 0, got(&self, 0));
    answered(&self, "the order again", "order\n", "ok\n");
    told("it is done", 5, got(&self, 5));
    closes(&self);
}

/* A failed order is answered as one, if its line finds no memory behind the inputs of its report. */
static void try_failed_order(void) {
    shop self;
    opens(&self, false);
    pull(&self);
    no_line = 1;
    answered(&self, "a failed order", "order\n", "err 108\n");
    closes(&self);
}

/* An order has no memory: what was carried out before it has no answer, and nothing was done if nothing was. */
static void try_held_lines(void) {
    shop self;
    kij_order order;
    opens(&self, false);
    /* There is memory for a short answer, but not for the order's line. */
    most = 75;
    told("an order behind a line", KIJ_NO_ANSWER, lines(&self, "note\norder\nnote\n"));
    most = SIZE_MAX;
    told("the line is carried out", 1, noted);
    answered(&self, "the next call", "order\n", "ok\n");
    told("the order behind it fails, and its own is done", 5, got(&self, 5));
    told("the last line is carried out", 2, noted);
    closes(&self);
    opens(&self, false);
    most = 75;
    told("an order alone", KIJ_NO_MEMORY, lines(&self, "order\n"));
    most = SIZE_MAX;
    told("no order is the host's", KIJ_OK, kij_next_order(self.till, &order).code);
    told("none", KIJ_NO_ORDER, order.kind);
    answered(&self, "the call after it", "note\n", "ok\n");
    told("the order isn't done", 0, got(&self, 0));
    closes(&self);
}

/* An order of a device that is the host's, for which there is no memory, comes before those behind it. */
static void try_kept_order(void) {
    shop self;
    kij_order order;
    char first[2000];
    opens(&self, false);
    snprintf(first, sizeof first, "p2 displayTextAt 0 0 %01000d 0", 0);
    others_order = first;
    answered(&self, "an order behind one of the host's", "order\n", "ok\n");
    others_order = "d1 openDrawer";
    most = 1000;
    told("the host's order without memory", KIJ_NO_MEMORY, kij_next_order(self.till, &order).code);
    most = SIZE_MAX;
    told("the host's order", KIJ_OK, kij_next_order(self.till, &order).code);
    told("its size", 500, (long)order.size);
    told("the one behind it", KIJ_OK, kij_next_order(self.till, &order).code);
    told("that", KIJ_ORDER_OPEN_DRAWER, order.kind);
    closes(&self);
}

/* A device is off, and its report finds no memory: the till is told of that later. */
static void try_power(void) {
    shop self;
    opens(&self, false);
    pull(&self);
    no_report = 3;
    told("an order of a device that is gone", KIJ_NO_MEMORY, lines(&self, "order\n"));
    told("the till isn't told", false, is_off);
    told("the devices run", KIJ_OK, kij_run_devices(self.till, 0, NULL).code);
    told("it is told", true, is_off);
    answered(&self, "the order again", "order\n", "err 108\n");
    closes(&self);
}

/* A device is off, and there is no memory for that line of the report of an order: the till is told of it later. */
static void try_unheard_power(void) {
    shop self;
    opens(&self, false);
    pull(&self);
    no_power = 1;
    answered(&self, "an order of a device that isn't told as off", "order\n", "err 111\n");
    told("the devices run", KIJ_OK, kij_run_devices(self.till, 0, NULL).code);
    told("it is told as off", true, is_off);
    closes(&self);
}

/* An order without bytes isn't done if the display is gone. */
static void try_no_bytes(void) {
    shop self;
    opens(&self, false);
    order_size = 0;
    answered(&self, "an order without bytes", "order\n", "ok\n");
    pull(&self);
    answered(&self, "one of a display that is gone", "order\n", "err 108\n");
    order_size = 5;
    closes(&self);
}

/* A display gets all its rows at first, after a while without an order, and by an order that changes nothing. */
static void try_unseen(void) {
    shop self;
    opens(&self, false);
    answered(&self, "the first order", "order\n", "ok\n");
    told("it has all rows", true, was_new);
    answered(&self, "a second one", "order\n", "ok\n");
    told("it has what changes", false, was_new);
    self.till->drives->first->shown_at -= 9000;
    answered(&self, "one after 9 seconds", "order\n", "ok\n");
    told("it has what changes too", false, was_new);
    self.till->drives->first->shown_at -= 10000;
    answered(&self, "one after 10 seconds", "order\n", "ok\n");
    told("it has all rows again", true, was_new);
    answered(&self, "one right after it", "order\n", "ok\n");
    told("it has what changes again", false, was_new);
    order_size = 0;
    answered(&self, "one that changes nothing", "order\n", "ok\n");
    told("it has all rows, too", true, was_new);
    order_size = 5;
    closes(&self);
}

/* What a driver of this program's says next, or null. */
static const char *says;

static bool refuse(void *context, const kij_order *order) {
    (void)context, (void)order;
    return false;
}

static const char *say(void *context) {
    const char *said = says;
    (void)context;
    says = NULL;
    return said;
}

/* Opens a till with a display that such a driver has, which does no order. */
static void opens_own(shop *self) {
    kij_driver driver;
    memset(&driver, 0, sizeof driver);
    driver.category = KIJ_LINE_DISPLAY;
    driver.carry_out = refuse;
    driver.happened = say;
    progress = NONE;
    held_count = 0;
    is_off = false;
    self->answer = "";
    self->other = -1;
    told("a till", KIJ_OK, kij_open(NULL, NULL, KIJ_EXISTING, &self->till).code);
    told("a driver", KIJ_OK, kij_driver_open(self->till, "p1", &driver, NULL).code);
}

/* What a driver says is told again, if nobody knows whether the till has taken it. */
static void try_said(void) {
    shop self;
    opens_own(&self);
    says = "note\npower off\n";
    cut_at = 2;
    told("no memory for the answers", KIJ_NO_ANSWER, kij_run_devices(self.till, 0, NULL).code);
    told("the end isn't taken", false, is_off);
    told("the devices run", KIJ_OK, kij_run_devices(self.till, 0, NULL).code);
    told("it is taken", true, is_off);
    closes(&self);
    opens_own(&self);
    says = "note\npower off\n";
    cut_at = 2;
    told("no memory for the answers of a report", KIJ_NO_ANSWER, lines(&self, "order\n"));
    told("the end of that isn't taken", false, is_off);
    told("the devices run again", KIJ_OK, kij_run_devices(self.till, 0, NULL).code);
    told("the end of that is taken", true, is_off);
    closes(&self);
    opens_own(&self);
    says = "paper 5\npower off\n";
    no_power = 1;
    told("no memory behind what can't be", KIJ_NO_MEMORY, kij_run_devices(self.till, 0, NULL).code);
    told("it isn't taken", false, is_off);
    told("what can't be", KIJ_BAD_INPUT, kij_run_devices(self.till, 0, NULL).code);
    told("what is behind it is taken", true, is_off);
    told("nothing else", KIJ_OK, kij_run_devices(self.till, 0, NULL).code);
    closes(&self);
}

/* Sends codes, and waits until they have come to the scanner's end of the line. */
static void sends(const shop *self, const char *codes) {
    int size = (int)strlen(codes), there = 0;
    told("codes are sent", size, (long)write(self->other, codes, (size_t)size));
    for (int turn = 0; turn < 10000 && there < size; turn++) {
        kij_internal_sleep(1);
        if (ioctl(self->line, FIONREAD, &there) != 0) abort();
    }
    told("they have come", size, there);
}

/* A scan that finds no memory is told the next time, and so is each one behind it. */
static void try_scans(void) {
    shop self;
    opens(&self, true);
    no_scan = 1;
    sends(&self, "123\r456\r");
    told("no memory for a scan", KIJ_NO_MEMORY, kij_run_devices(self.till, 0, NULL).code);
    told("none is told", 0, scans);
    told("there is memory again", KIJ_OK, kij_run_devices(self.till, 0, NULL).code);
    told("both are told", 2, scans);
    told("nothing is left", KIJ_OK, kij_run_devices(self.till, 0, NULL).code);
    told("none is told twice", 2, scans);
    no_scan = 1;
    sends(&self, "789\r");
    told("no memory for a third one", KIJ_NO_MEMORY, kij_run_devices(self.till, 0, NULL).code);
    pull(&self);
    told("the scanner is gone", KIJ_OK, kij_run_devices(self.till, 0, NULL).code);
    told("the third one is told first", 3, scans);
    closes(&self);
}

/* A scanner is read though there is no memory for what happened at another device. */
static void try_scan_beside(void) {
    shop self;
    char name[64];
    opens(&self, true);
    int other = open_other(name, sizeof name);
    told("a display too", KIJ_OK, kij_serial_display_open(self.till, "p1", name, NULL).code);
    close(other);
    /* An order finds that the display is gone, and there is no memory for its report. */
    no_report = 3;
    told("the display is gone", KIJ_NO_MEMORY, lines(&self, "order\n"));
    sends(&self, "123\r");
    /* The lines that are held end first, and then the inputs find none. */
    no_lines = 1;
    told("no memory for that", KIJ_NO_MEMORY, kij_run_devices(self.till, 0, NULL).code);
    told("the scan is told", 1, scans);
    told("there is memory again", KIJ_OK, kij_run_devices(self.till, 0, NULL).code);
    told("the display is off", true, is_off);
    closes(&self);
}

/* A device that something else was attached to is driven again. */
static void try_attached(void) {
    shop self;
    opens(&self, false);
    told("it is driven", 1, drives);
    told("attached", KIJ_OK, kij_attach(self.till, "p1", 1).code);
    told("it is driven again", 2, drives);
    told("another device", KIJ_OK, kij_attach(self.till, "d1", 1).code);
    told("that isn't driven", 2, drives);
    answered(&self, "attached by lines", "note\n  attach  p1 1 \nattach p11 1\nattach\nattach  \n# attach p1 1\nnote",
             "ok\nok\nok\nok\nok\nok\nok\n");
    told("it is driven once more", 3, drives);
    told("all lines are carried out", 2, noted);
    answered(&self, "an order behind that", "note\nattach p1 1\norder\nattach p1 2\norder", "ok\nok\nok\nok\nok\n");
    told("both are done", 10, got(&self, 10));
    most = 60;
    told("no memory for a front", KIJ_NO_ANSWER, lines(&self, "attach p1 1\norder\n"));
    most = SIZE_MAX;
    told("the order isn't done", 0, got(&self, 0));
    answered(&self, "the next one", "order\n", "ok\n");
    told("it is", 5, got(&self, 5));
    closes(&self);
}

/* A control that can't be closed isn't given to anybody else, and is closed as soon as it can be. */
static void try_discard(void) {
    shop self;
    kij_control *first, *second, *third;
    opens(&self, false);
    told("a control", KIJ_OK, kij_new(self.till, KIJ_LINE_DISPLAY, NULL, &first).code);
    no_close = 2;
    kij_discard(first);
    told("another one", KIJ_OK, kij_new(self.till, KIJ_LINE_DISPLAY, NULL, &second).code);
    told("it isn't the first", false, first == second);
    told("it couldn't be closed", 0, no_close);
    told("a call closes it", KIJ_OK, kij_control_claim(second, 0).code);
    told("how many were closed", 1, closed);
    told("a third one", KIJ_OK, kij_new(self.till, KIJ_LINE_DISPLAY, NULL, &third).code);
    told("it is the first", true, first == third);
    kij_discard(second);
    told("a fourth one", KIJ_OK, kij_new(self.till, KIJ_LINE_DISPLAY, NULL, &third).code);
    told("it is the second", true, second == third);
    closes(&self);
}

int main(void) {
    try_lost_answer();
    try_cut_answer();
    try_failed_order();
    try_held_lines();
    try_kept_order();
    try_power();
    try_unheard_power();
    try_no_bytes();
    try_unseen();
    try_said();
    try_scans();
    try_scan_beside();
    try_attached();
    try_discard();
    return failed != 0;
}
