/* Refuses each allocation in turn, over a small day with totals in memory and one with totals in a file, and a drawer
   of the host's. Each answer is a code or a line of docs/reference/console.md, the drawer's order comes if it was
   opened, and nothing is left.
   The file opens again: it has what was acknowledged, and nothing of what was refused. The same of what is said without
   a till, and of the move to layout 2: the file is as it was, or is moved. */
#include "kijolvar.h"
#include <stdbool.h>
#include <stdio.h>
#include <stdlib.h>
#include <string.h>

struct tried {
    bool ok;
    void *at;
};

static char nothing;
static long may_come;
static long live;

static struct tried tell(void *at) { return (struct tried){at != NULL, at != NULL ? at : &nothing}; }

static bool comes(void) { return may_come-- > 0; }

struct tried rattle_alloc(size_t size, size_t align) {
    if (!comes()) return tell(NULL);
    live++;
    return tell(malloc(size != 0 ? size : align));
}

struct tried rattle_realloc(void *at, size_t kept, size_t size, size_t align) {
    (void)kept;
    if (!comes()) return tell(NULL);
    return tell(realloc(at, size != 0 ? size : align));
}

void rattle_dealloc(void *at) {
    live--;
    free(at);
}

static const char lines[] = "new d CashDrawer\nopen d d1\nset d DeviceEnabled true\ncall d openDrawer\ndeliver d\n"
                            "new t HardTotals\nopen t t1\nset t DeviceEnabled true\ncall t create 61 4 false\n"
                            "call t write 1 0 00000001";
static const char wanted[] = "ok\nok\nok\nok\nevent StatusUpdateEvent 1\nok\nok\nok\nok 1\nok\n";

static uint8_t file[KIJOLVAR_DISK_LENGTH], bytes[KIJOLVAR_DISK_LENGTH];

/* Does the errands of a till in the file. */
static uint32_t settle(kijolvar_till *till) {
    uint64_t at = 0;
    size_t count = 0;
    for (;;) {
        uint32_t code = kijolvar_next_errand(*till, &till->at, &at, bytes, sizeof bytes, &count);
        if (code == KIJOLVAR_WRITE) memcpy(file + at, bytes, count);
        else if (code != KIJOLVAR_SYNC) return code;
    }
}

/* What a line did. A line whose answer is missing may have done its work or not. */
enum effect { NOTHING, ALL, UNKNOWN };

/* What a line did, counted from 0, by an answer that is the whole or was cut. After the line where it was cut no line
   is carried out. */
static enum effect effect(const uint8_t *text, size_t count, int line, bool is_whole) {
    size_t at = 0, end;
    for (; at < count && line > 0; at++) line -= text[at] == '\n';
    for (end = at; end < count && text[end] != '\n';) end++;
    if (line > 0 || (end == count && is_whole)) return NOTHING;
    if (end == count) return UNKNOWN;
    return memcmp(text + at, "ok", 2) == 0 ? ALL : NOTHING;
}

/* Whether the drawer's order is told, once, or none is. */
static bool tells(kijolvar_till *till, bool is_opened) {
    static const char order[] = "d1 openDrawer";
    uint8_t text[64];
    size_t needed = 77;
    uint32_t code = kijolvar_next_order(*till, &till->at, text, sizeof text, &needed);
    if (!is_opened) return code == KIJOLVAR_OK && needed == 0;
    return code == KIJOLVAR_ORDER && needed == strlen(order) && memcmp(text, order, needed) == 0 && tells(till, false);
}

/* A till over totals in memory or in the file, which may be a new one. */
static uint32_t begin(kijolvar_till *till, bool in_file, bool is_new) {
    if (!in_file) return kijolvar_open(NULL, 0, &till->at);
    uint32_t code = is_new ? kijolvar_format_file(NULL, 0, file, sizeof file, &till->at)
                           : kijolvar_open_file(NULL, 0, file, sizeof file, &till->at);
    return code;
}

/* How often the file had no files, a file without its bytes, and a file with them. */
static long found[3];

/* Whether the file opens, and has what the day's lines created and wrote. */
static bool holds(enum effect created, enum effect written) {
    static const char look[] = "new t HardTotals\nopen t t1\nset t DeviceEnabled true\nget t NumberOfFiles\n"
                               "call t find 61\ncall t read 1 0 4\n";
    static const char *const wanted[] = {"ok\nok\nok\nok 0\nerr 109\nerr 106\n",
                                         "ok\nok\nok\nok 1\nok 1 4\nok 00000000\n",
                                         "ok\nok\nok\nok 1\nok 1 4\nok 00000001\n"};
    kijolvar_till till = {NULL};
    uint8_t text[64];
    size_t needed = 0;
    may_come = 1000000;
    if (begin(&till, true, false) != KIJOLVAR_OK) return false;
    uint32_t code = kijolvar_carry_out(till, &till.at, (const uint8_t *)look, strlen(look), text, sizeof text, &needed);
    if (code == KIJOLVAR_ERRANDS && (code = settle(&till)) == KIJOLVAR_OK)
        code = kijolvar_answer(till, &till.at, text, sizeof text, &needed);
    kijolvar_close(till);
    if (code != KIJOLVAR_OK || live != 0) return false;
    for (int place = 0; place < 3; place++) {
        if (needed != strlen(wanted[place]) || memcmp(text, wanted[place], needed) != 0) continue;
        found[place]++;
        bool is_created = created == UNKNOWN || (place > 0) == (created == ALL);
        return is_created && (written == UNKNOWN || (place == 2) == (written == ALL));
    }
    return false;
}

/* A day where so many allocations come: whether it ended whole; exits where it is amiss. */
static bool day(long count, bool in_file) {
    kijolvar_till till = {NULL};
    uint8_t text[512];
    size_t needed = 0;
    memset(file, 0, sizeof file);
    may_come = count;
    live = 0;
    uint32_t code = begin(&till, in_file, true);
    bool is_formatted = false;
    enum effect created = NOTHING, written = NOTHING;
    if (code == KIJOLVAR_OK) {
        code = settle(&till);
        is_formatted = in_file && code == KIJOLVAR_OK;
        if (code == KIJOLVAR_OK) code = kijolvar_host(till, &till.at, (const uint8_t *)"d1", 2);
        if (code == KIJOLVAR_OK) {
            code = kijolvar_carry_out(till, &till.at, (const uint8_t *)lines, strlen(lines), text, sizeof text,
                                      &needed);
            if (code == KIJOLVAR_ERRANDS && (code = settle(&till)) == KIJOLVAR_OK)
                code = kijolvar_answer(till, &till.at, text, sizeof text, &needed);
            bool is_known = code == KIJOLVAR_OK || code == KIJOLVAR_CUT;
            created = is_known ? effect(text, needed, 8, code == KIJOLVAR_OK) : UNKNOWN;
            written = is_known ? effect(text, needed, 9, code == KIJOLVAR_OK) : UNKNOWN;
            if (code == KIJOLVAR_OK && !tells(&till, effect(text, needed, 3, true) == ALL))
                exit(printf("another order where %ld came\n", count));
        }
        kijolvar_close(till);
    } else if (till.at != NULL) {
        exit(printf("a till was written at code %u\n", code));
    }
    if (live != 0) exit(printf("%ld allocations are left where %ld came\n", live, count));
    if (is_formatted && !holds(created, written)) exit(printf("the file has something else where %ld came\n", count));
    if (code == KIJOLVAR_NO_MEMORY || code == KIJOLVAR_CUT || (in_file && code == KIJOLVAR_DISK_FAILED)) return false;
    if (code != KIJOLVAR_OK) exit(printf("code %u where %ld came\n", code, count));
    return needed == strlen(wanted) && memcmp(text, wanted, needed) == 0;
}

/* How many allocations a whole day takes. */
static long whole(bool in_file) {
    long count = 0;
    while (!day(count, in_file))
        if (++count == 10000) exit(printf("never whole\n"));
    return count;
}

/* What is asked without a till. */
struct question {
    bool is_survey, is_list;
    const char *given;
    uint32_t code;
    uint64_t at;
    const char *told;
};

static const struct question questions[] = {
    {false, false, "", KIJOLVAR_OK, 77, NULL},
    {false, false, "spare = []", KIJOLVAR_OK, 77, NULL},
    {false, false, "a = 1\n\xff", KIJOLVAR_BAD_TEXT, 6, "not UTF-8"},
    {false, false, "a =", KIJOLVAR_BAD_TEXT, 3, "not TOML: "},
    {false, false, "a = 1", KIJOLVAR_BAD_PROFILE, 77, "unknown key: a"},
    {false, false, "[[spare]]\ncategory = \"POSPrinter\"\nchars = 0\nlines = 1\nnear = 1\n", KIJOLVAR_BAD_PROFILE, 77,
     "spare 1: chars must be 1 to 255"},
    {false, true, "", KIJOLVAR_OK, 77,
     "d1 CashDrawer\ns1 Scanner\np1 LineDisplay rows 2 columns 4\nr1 POSPrinter chars 8 near 2\nt1 HardTotals\n"},
    {false, true, "a = 1", KIJOLVAR_BAD_PROFILE, 77, NULL},
    {true, false, NULL, KIJOLVAR_OK, 77, "layout 1\n"},
};

/* The code of a question; exits where its answer is amiss. */
static uint32_t ask(const struct question *asked) {
    uint8_t text[512];
    size_t needed = 77, size = asked->given != NULL ? strlen(asked->given) : 0;
    const uint8_t *given = (const uint8_t *)asked->given;
    uint64_t at = 77;
    uint32_t code = asked->is_survey ? kijolvar_survey(file, sizeof file, &at, text, sizeof text, &needed)
                    : asked->is_list ? kijolvar_devices(given, size, text, sizeof text, &needed)
                                     : kijolvar_profile_mistake(given, size, &at, text, sizeof text, &needed);
    if (live != 0) exit(printf("%ld allocations are left\n", live));
    if (code == KIJOLVAR_NO_MEMORY && at == 77 && needed == 77) return code;
    if (code != asked->code || at != asked->at) exit(printf("code %u and place %lu\n", code, (unsigned long)at));
    if (asked->told == NULL ? needed != 77 : memcmp(text, asked->told, strlen(asked->told)) != 0)
        exit(printf("another text: %.*s\n", (int)needed, (const char *)text));
    return code;
}

/* Asks with ever more allocations: how many it takes. */
static long asks(const struct question *asked) {
    long count = 0;
    for (may_come = count; ask(asked) == KIJOLVAR_NO_MEMORY; may_come = ++count)
        if (count == 10000) exit(printf("never answered\n"));
    return count;
}

/* Moves the file with so many allocations: whether it is moved. Until it is, it is as it was. */
static bool moves(long count) {
    static uint8_t before[KIJOLVAR_DISK_LENGTH];
    static const struct question moved = {true, false, NULL, KIJOLVAR_OK, 77, "layout 2\n"};
    kijolvar_till till = {NULL};
    memcpy(before, file, sizeof file);
    may_come = count;
    uint32_t code = kijolvar_migrate_file(NULL, 0, file, sizeof file, &till.at);
    if (memcmp(before, file, sizeof file) != 0) exit(printf("the file is written\n"));
    if (code == KIJOLVAR_OK) {
        code = settle(&till);
        kijolvar_close(till);
        may_come = 1000000;
        if (code != KIJOLVAR_OK || ask(&moved) != KIJOLVAR_OK) exit(printf("the file isn't moved\n"));
        code = kijolvar_migrate_file(NULL, 0, file, sizeof file, &till.at);
        if (code != KIJOLVAR_MOVED) exit(printf("code %u, moved again\n", code));
    } else if (code != KIJOLVAR_NO_MEMORY || till.at != NULL) exit(printf("code %u\n", code));
    if (live != 0) exit(printf("%ld allocations are left\n", live));
    return code != KIJOLVAR_NO_MEMORY;
}

int main(void) {
    long count = 0;
    /* The day in the file is the last, and leaves its totals. */
    long in_memory = whole(false), in_file = whole(true);
    printf("%ld and %ld allocations\n", in_memory, in_file);
    for (size_t place = 0; place < sizeof questions / sizeof questions[0]; place++)
        printf("%ld%s", asks(&questions[place]),
               place + 1 < sizeof questions / sizeof questions[0] ? ", " : " without a till\n");
    while (!moves(count))
        if (++count == 10000) exit(printf("never moved\n"));
    printf("%ld for the move\n", count);
    for (int place = 0; place < 3; place++)
        if (found[place] == 0) exit(printf("the file never had this: %d\n", place));
    printf("whole in the end, and nothing is left\n");
    return 0;
}
