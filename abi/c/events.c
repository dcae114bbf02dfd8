/* Which control has an event to deliver. Two tills are given the same lines, picked at random. One is asked for the
   next event, and the other delivers to each control in turn, which has to find the same one. Then the cases one by
   one. */
#include "kijolvar.h"
#include <stdbool.h>
#include <stdint.h>
#include <stdio.h>
#include <stdlib.h>
#include <string.h>

static void wants(const char *what, bool holds) {
    if (!holds) exit(printf("failed: %s\n", what));
}

/* What a call left where it had nothing to write, and what none stands for here. */
static const size_t untouched = 77, none = SIZE_MAX;

/* Carries out lines: the answer to them. */
static const char *answer(kijolvar_till *till, const char *lines) {
    static char text[1024];
    size_t needed = 0;
    uint32_t code = kijolvar_carry_out(*till, &till->at, (const uint8_t *)lines, strlen(lines), (uint8_t *)text,
                                       sizeof text - 1, &needed);
    wants(lines, code == KIJOLVAR_OK && needed < sizeof text);
    text[needed] = 0;
    return text;
}

/* Carries out lines, each of which is answered by `ok`. */
static void does(kijolvar_till *till, const char *lines) {
    const char *text = answer(till, lines);
    for (; memcmp(text, "ok\n", 3) == 0; text += 3) continue;
    wants(lines, *text == 0);
}

/* The first control, from a number on, that has an event. */
static size_t next(kijolvar_till *till, size_t from) {
    size_t control = untouched;
    uint32_t code = kijolvar_next_event(*till, &till->at, from, &control);
    if (code == KIJOLVAR_EVENT) return control;
    wants("no event", code == KIJOLVAR_OK && control == untouched);
    return none;
}

/* The names of the controls, by their numbers. */
static const char *const names[] = {"a", "b", "s", "t", "r"};
enum { CONTROLS = sizeof names / sizeof names[0] };

/* Delivers to a control: whether there was an event. */
static bool delivers(kijolvar_till *till, size_t control) {
    char line[32];
    snprintf(line, sizeof line, "deliver %s", names[control]);
    const char *text = answer(till, line);
    wants("a delivery", memcmp(text, "event ", 6) == 0 || strcmp(text, "none\n") == 0);
    return *text == 'e';
}

/* Delivers to each control in turn, from a number on, until one has an event. */
static size_t found(kijolvar_till *till, size_t from) {
    for (size_t control = from; control < CONTROLS; control++)
        if (delivers(till, control)) return control;
    return none;
}

static const char *const begin = "new a CashDrawer\nnew b CashDrawer\nnew s Scanner\nnew t Scanner\nnew r POSPrinter\n"
                                 "open a d1\nopen b d1\nopen s s1\nopen t s1\nopen r r1\nclaim s 0\nclaim r 0\n"
                                 "set a DeviceEnabled true\nset b PowerNotify 1\nset b DeviceEnabled true\n"
                                 "set s DeviceEnabled true\nset r DeviceEnabled true\nset r AsyncMode true";

static kijolvar_till opened(void) {
    kijolvar_till till = {NULL};
    wants("a till", kijolvar_open(NULL, 0, &till.at) == KIJOLVAR_OK);
    return till;
}

/* A number below a bound, of the generator's higher bits. */
static size_t pick(size_t bound) {
    static uint32_t seed = 20;
    seed = seed * 1103515245u + 12345u;
    return (seed >> 16) % bound;
}

static void same_as_in_turn(void) {
    /* What is rarely so has more lines that bring it about. */
    static const char *const lines[] = {
        "input d1 open", "input d1 closed", "input d1 power off", "input d1 power on", "input d1 open",
        "input d1 closed", "input d1 power on", "open a d1\nset a DeviceEnabled true", "input d1 open\ninput d1 closed",
        "set a FreezeEvents true", "set a FreezeEvents false", "set b FreezeEvents true", "set b FreezeEvents false",
        "set a DeviceEnabled false", "set a DeviceEnabled true", "close a", "open a d1",
        "input s1 scan 104 61 61", "input s1 fault", "set s DataEventEnabled true", "set s DataEventEnabled false",
        "set s FreezeEvents true", "set s FreezeEvents false", "call s clearInput", "call r printNormal 2 610a",
        "work r1", "input r1 cover open", "input r1 cover closed", "input r1 paper 0", "input r1 paper 9",
        "set r FreezeEvents true", "set r FreezeEvents false", "call r clearOutput",
    };
    kijolvar_till asked = opened(), delivering = opened();
    size_t events[CONTROLS] = {0}, no_event = 0;
    does(&asked, begin);
    does(&delivering, begin);
    for (int step = 0; step < 20000; step++) {
        const char *line = lines[pick(sizeof lines / sizeof lines[0])];
        char before[64];
        snprintf(before, sizeof before, "%s", answer(&asked, line));
        wants("the same answer", strcmp(before, answer(&delivering, line)) == 0);
        if (pick(2) == 0) continue;
        size_t from = pick(3), control = next(&asked, from);
        wants("the same, asked again", next(&asked, from) == control);
        wants("the first to which a delivery gives an event", found(&delivering, from) == control);
        if (control == none) no_event++;
        else events[control]++;
        if (control != none) wants("its event", delivers(&asked, control));
    }
    wants("no event", no_event > 100);
    /* t has none, since it has not claimed the scanner. */
    for (size_t control = 0; control < CONTROLS; control++)
        wants("events of each", control == 3 ? events[control] == 0 : events[control] > 100);
    kijolvar_close(asked);
    kijolvar_close(delivering);
}

static void each_case(void) {
    kijolvar_till till = opened();
    size_t control = untouched;
    wants("no control", next(&till, 0) == none);
    does(&till, begin);
    wants("the power of the one that is notified", next(&till, 0) == 1 && delivers(&till, 1));
    wants("no other event", next(&till, 0) == none);
    for (size_t number = 0; number < CONTROLS; number++)
        wants("its number", kijolvar_control(till, &till.at, (const uint8_t *)names[number], 1, &control) ==
                                    KIJOLVAR_OK && control == number);
    control = untouched;
    wants("no such control", kijolvar_control(till, &till.at, (const uint8_t *)"aa", 2, &control) ==
                                     KIJOLVAR_NO_CONTROL && control == untouched);
    does(&till, "input d1 open");
    wants("the first of two", next(&till, 0) == 0 && next(&till, 0) == 0);
    wants("the second", next(&till, 1) == 1);
    wants("none after it", next(&till, 2) == none && next(&till, none) == none);
    does(&till, "set a FreezeEvents true");
    wants("a frozen one has none", next(&till, 0) == 1);
    does(&till, "set a FreezeEvents false");
    wants("and has one again", next(&till, 0) == 0 && delivers(&till, 0) && next(&till, 0) == 1);
    does(&till, "close b\ninput s1 scan 104 61 61\ninput s1 fault");
    wants("a closed one has none, and a scan waits", next(&till, 0) == none);
    does(&till, "set s DataEventEnabled true");
    wants("an ErrorEvent is before the scan", next(&till, 0) == 2);
    wants("EL_INPUT_DATA", strcmp(answer(&till, "deliver s continue"), "event ErrorEvent 111 0 3\n") == 0);
    wants("the scan", next(&till, 0) == 2 && strcmp(answer(&till, "deliver s"), "event DataEvent 0\n") == 0);
    wants("EL_INPUT waits", next(&till, 0) == none);
    does(&till, "set s DataEventEnabled true\nset s FreezeEvents true");
    wants("a frozen error", next(&till, 0) == none);
    does(&till, "set s FreezeEvents false");
    wants("EL_INPUT", next(&till, 0) == 2 && strcmp(answer(&till, "deliver s"), "event ErrorEvent 111 0 2\n") == 0);
    does(&till, "call r printNormal 2 610a\ninput r1 cover open");
    wants("a status of the printer", next(&till, 0) == 4 && delivers(&till, 4));
    answer(&till, "work r1");
    wants("an error of output", next(&till, 0) == 4);
    does(&till, "release r");
    wants("it is gone with the claim", next(&till, 0) == none);
    kijolvar_close(till);
}

/* While errands are left, and once one failed, nothing is told. */
static void in_a_file(void) {
    static uint8_t bytes[KIJOLVAR_DISK_LENGTH], errand[KIJOLVAR_DISK_LENGTH];
    kijolvar_till till = {NULL};
    uint64_t at;
    size_t needed, control = untouched;
    uint32_t code;
    wants("a till", kijolvar_format_file(NULL, 0, bytes, sizeof bytes, &till.at) == KIJOLVAR_OK);
    wants("errands are left", kijolvar_next_event(till, &till.at, 0, &control) == KIJOLVAR_ERRANDS);
    do {
        code = kijolvar_next_errand(till, &till.at, &at, errand, sizeof errand, &needed);
    } while (code == KIJOLVAR_WRITE || code == KIJOLVAR_SYNC);
    wants("no errand is left", code == KIJOLVAR_OK && next(&till, 0) == none);
    does(&till, "new a CashDrawer\nopen a d1\nset a DeviceEnabled true\ninput d1 open");
    wants("an event", next(&till, 0) == 0);
    kijolvar_errand_failed(till, &till.at);
    wants("one failed", kijolvar_next_event(till, &till.at, 0, &control) == KIJOLVAR_DISK_FAILED);
    wants("nothing was written", control == untouched);
    kijolvar_close(till);
}

int main(void) {
    each_case();
    in_a_file();
    same_as_in_turn();
    puts("as they should be");
    return 0;
}
