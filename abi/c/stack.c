/* Measures the stack that each export takes, and then runs the same calls on a thread whose stack has 128 KiB. Then it
   reads a profile that is nested as deep as may be, on a thread with 4 MiB. Usage: stack SCRIPT .., with scripts for
   the built-in profile. It prints the bytes of each, and ends with 'enough' if none takes more than README.md says. */
#define _GNU_SOURCE
#include "kijolvar.h"
#include <pthread.h>
#include <stdbool.h>
#include <stdio.h>
#include <stdlib.h>
#include <string.h>
#include <sys/mman.h>

enum { STACK = 128 * 1024, MOST = 96 * 1024, DEEP = 4 * 1024 * 1024, GUARD = 64 * 1024, PAINT = 0x5A };

enum export {
    OPEN, OPEN_FILE, FORMAT_FILE, CARRY_OUT, ANSWER, NEXT_ERRAND, ERRAND_FAILED, HOST, DRIVE, NEXT_ORDER, ORDER_BYTES,
    ORDER_DONE, REPLIES, CLOSE, EXPORTS
};

static const char *const names[EXPORTS] = {"open", "open_file", "format_file", "carry_out", "answer", "next_errand",
                                           "errand_failed", "host", "drive", "next_order", "order_bytes", "order_done",
                                           "replies", "close"};

static uint8_t file[KIJOLVAR_DISK_LENGTH], bytes[KIJOLVAR_DISK_LENGTH], text[1024 * 1024];
static size_t most[EXPORTS];
static long lines_run;

/* The lowest byte of the stack that is measured, and of the part that is painted; null if nothing is measured. */
static uint8_t *low, *dirty;

static void fails(const char *what) {
    printf("failed: %s\n", what);
    exit(1);
}

/* Paints the stack below this call. */
__attribute__((noinline)) static void paint(void) {
    uint8_t *here = (uint8_t *)__builtin_frame_address(0) - 512;
    if (low == NULL) return;
    for (volatile uint8_t *at = dirty; (uint8_t *)at < here; at++) *at = PAINT;
}

/* Notes how much of the painted stack an export used. */
__attribute__((noinline)) static void note(enum export export) {
    uint8_t *here = __builtin_frame_address(0);
    if (low == NULL) return;
    uint64_t painted;
    memset(&painted, PAINT, sizeof painted);
    for (dirty = low; *(uint64_t *)dirty == painted;) dirty += sizeof painted;
    if (dirty == low) fails("the stack that is measured is too small");
    if ((size_t)(here - dirty) > most[export]) most[export] = (size_t)(here - dirty);
}

#define MEASURED(export, call) (paint(), code = (call), note(export))

static void settles(kijolvar_till *till) {
    uint64_t at = 0;
    size_t count = 0;
    uint32_t code;
    do {
        MEASURED(NEXT_ERRAND, kijolvar_next_errand(*till, &till->at, &at, bytes, sizeof bytes, &count));
        if (code == KIJOLVAR_WRITE) memcpy(file + at, bytes, count);
    } while (code == KIJOLVAR_WRITE || code == KIJOLVAR_SYNC);
    if (code != KIJOLVAR_OK) fails("an errand");
}

static void carries_out(kijolvar_till *till, const char *lines, size_t length) {
    size_t needed = 0;
    uint32_t code;
    MEASURED(CARRY_OUT,
             kijolvar_carry_out(*till, &till->at, (const uint8_t *)lines, length, text, sizeof text, &needed));
    if (code == KIJOLVAR_ERRANDS) settles(till), code = KIJOLVAR_OK;
    if (code != KIJOLVAR_OK) fails("a line's code");
    MEASURED(ANSWER, kijolvar_answer(*till, &till->at, text, sizeof text, &needed));
    if (code != KIJOLVAR_OK) fails("an answer");
    do MEASURED(NEXT_ORDER, kijolvar_next_order(*till, &till->at, text, sizeof text, &needed));
    while (code == KIJOLVAR_ORDER);
    if (code != KIJOLVAR_OK) fails("an order");
    lines_run++;
}

/* A day over a script's lines, one by one, over a new file. */
static void day(const char *lines) {
    static const char *const devices[] = {"d1", "p1", "r1"};
    kijolvar_till till = {NULL};
    uint32_t code;
    memset(file, 0, sizeof file);
    MEASURED(FORMAT_FILE, kijolvar_format_file(NULL, 0, file, sizeof file, &till.at));
    if (code != KIJOLVAR_OK) fails("a new file");
    settles(&till);
    for (size_t place = 0; place < 3; place++) {
        MEASURED(HOST, kijolvar_host(till, &till.at, (const uint8_t *)devices[place], 2));
        if (code != KIJOLVAR_OK) fails("a device");
    }
    for (const char *end; *lines != 0; lines = end) {
        end = strchrnul(lines, '\n');
        end += *end == '\n';
        carries_out(&till, lines, (size_t)(end - lines));
    }
    MEASURED(ERRAND_FAILED, (kijolvar_errand_failed(till, &till.at), 0));
    MEASURED(CLOSE, (kijolvar_close(till), 0));
}

/* The bytes of an order of each driven device, and a reply of the printer. */
static void sends(void) {
    static const char lines[] = "new d CashDrawer\nopen d d1\nset d DeviceEnabled true\nnew p LineDisplay\nopen p p1\n"
                                "claim p 0\nset p DeviceEnabled true\nnew r POSPrinter\nopen r r1\nclaim r 0\n"
                                "set r DeviceEnabled true\ninput r1 paper 100\n";
    static const char *const orders[] = {"call d openDrawer\n", "call p displayText 414243444546 0\n",
                                         "call r printNormal 2 41421b7c624343440a454647484950515253540a1b7c50\n"};
    static const char *const devices[] = {"d1", "p1", "r1"};
    static const uint8_t status[] = {0x3c, 0x48, 0x0f, 0};
    static const kijolvar_wire_settings usual = {48, 0, 3, 500, 2, 25, 250, 1, 0};
    kijolvar_till till = {NULL};
    size_t needed = 0, used = 0, skipped = 0;
    uint32_t code;
    MEASURED(OPEN, kijolvar_open(NULL, 0, &till.at));
    if (code != KIJOLVAR_OK) fails("a till with driven devices");
    carries_out(&till, lines, sizeof lines - 1);
    for (size_t place = 0; place < 3; place++) {
        const uint8_t *line = (const uint8_t *)orders[place];
        MEASURED(DRIVE, kijolvar_drive(till, &till.at, (const uint8_t *)devices[place], 2));
        if (code != KIJOLVAR_OK) fails("a driven device");
        MEASURED(CARRY_OUT,
                 kijolvar_carry_out(till, &till.at, line, strlen(orders[place]), text, sizeof text, &needed));
        if (code != KIJOLVAR_WAITS) fails("a line that waits");
        MEASURED(ORDER_BYTES, kijolvar_order_bytes(till, &till.at, &usual, 1, 5, text, sizeof text, &needed));
        if (code != KIJOLVAR_OK || needed == 0) fails("the bytes of an order");
        MEASURED(NEXT_ORDER, kijolvar_next_order(till, &till.at, text, sizeof text, &needed));
        if (code != KIJOLVAR_ORDER) fails("an order of a driven device");
        MEASURED(ORDER_DONE, kijolvar_order_done(till, &till.at, 0, NULL, 0, text, sizeof text, &needed));
        if (code != KIJOLVAR_OK) fails("a report");
        if (place == 1) continue;
        MEASURED(REPLIES, kijolvar_replies(till, &till.at, (const uint8_t *)devices[place], 2, &usual, 0, status,
                                           sizeof status, &used, &skipped, text, sizeof text, &needed));
        if (code != KIJOLVAR_OK || used != sizeof status || needed == 0) fails("a reply");
    }
    MEASURED(CLOSE, (kijolvar_close(till), 0));
}

/* Opens a till over a profile, by each call, and wants a code. */
static void opens(const char *profile, uint32_t wanted) {
    const uint8_t *given = (const uint8_t *)profile;
    const size_t length = strlen(profile);
    kijolvar_till till = {NULL};
    uint32_t code;
    MEASURED(OPEN, kijolvar_open(given, length, &till.at));
    if (code != wanted) fails("a till in memory");
    if (code == KIJOLVAR_OK) MEASURED(CLOSE, (kijolvar_close(till), 0));
    MEASURED(OPEN_FILE, kijolvar_open_file(given, length, file, sizeof file, &till.at));
    if (code != wanted) fails("a till over a file");
    if (code == KIJOLVAR_OK) MEASURED(CLOSE, (kijolvar_close(till), 0));
}

/* The built-in profile, one of many devices, and one that is refused. */
static void begins(void) {
    static char profile[8192];
    size_t length = 0;
    for (int number = 0; number < 32; number++)
        length += (size_t)snprintf(profile + length, sizeof profile - length,
                                   "[[device]]\nname = \"r%d\"\ncategory = \"POSPrinter\"\nchars = 32\nlines = 300\n"
                                   "near = 20\n", number);
    opens("", KIJOLVAR_OK);
    opens(profile, KIJOLVAR_OK);
    opens("x = 1", KIJOLVAR_BAD_PROFILE);
}

/* A profile that is refused: tables within tables, each under a name of 80 parts, as deep as the reader of TOML goes.
   */
static void *nests(void *unused) {
    static char profile[32768];
    char *at = stpcpy(profile, "x = ");
    for (int number = 0; number < 79; number++) {
        at = stpcpy(at, "{a");
        for (int part = 1; part < 80; part++) at = stpcpy(at, ".a");
        at = stpcpy(at, " = ");
    }
    at = stpcpy(at, "1");
    for (int number = 0; number < 79; number++) at = stpcpy(at, "}");
    opens(profile, KIJOLVAR_BAD_PROFILE);
    return unused;
}

static void *all(void *given) {
    for (char **script = given; *script != NULL; script++) {
        FILE *opened = fopen(*script, "r");
        size_t length;
        char *lines = malloc(sizeof text);
        if (opened == NULL || lines == NULL) fails(*script);
        length = fread(lines, 1, sizeof text - 1, opened);
        lines[length] = 0;
        fclose(opened);
        day(lines);
        free(lines);
    }
    begins();
    sends();
    return NULL;
}

/* Runs a function on a thread whose stack has so many bytes, above a guard, and paints it before if it is measured. */
static void runs(void *(*function)(void *), void *given, size_t size, bool is_measured) {
    uint8_t *stack = mmap(NULL, GUARD + size, PROT_READ | PROT_WRITE, MAP_PRIVATE | MAP_ANONYMOUS, -1, 0);
    pthread_attr_t attributes;
    pthread_t thread;
    if (stack == MAP_FAILED || mprotect(stack, GUARD, PROT_NONE) != 0) fails("no memory");
    low = dirty = is_measured ? stack + GUARD : NULL;
    if (is_measured) memset(low, PAINT, size);
    if (pthread_attr_init(&attributes) != 0 || pthread_attr_setstack(&attributes, stack + GUARD, size) != 0
        || pthread_create(&thread, &attributes, function, given) != 0 || pthread_join(thread, NULL) != 0)
        fails("no thread");
    munmap(stack, GUARD + size);
}

int main(int count, char **words) {
    runs(all, words + 1, 2 * STACK, true);
    bool is_enough = count > 1 && lines_run > 0;
    for (int export = 0; export < EXPORTS; export++) {
        printf("%s %zu\n", names[export], most[export]);
        is_enough = is_enough && most[export] > 0 && most[export] <= MOST;
    }
    long before = lines_run;
    runs(all, words + 1, STACK, false);
    is_enough = is_enough && lines_run == 2 * before;
    runs(nests, NULL, DEEP, true);
    printf("open over a nested profile %zu\n", most[OPEN]);
    puts(is_enough ? "enough" : "not enough");
    return 0;
}
