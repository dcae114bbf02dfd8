/* Makes the same call many times, by text or by the typed layer. Usage: typed CASE text|typed COUNT. bench/typed.sh
 * measures it. */
#include "kij.h"
#include "kijolvar.h"
#include <stdio.h>
#include <stdlib.h>
#include <string.h>

/* The controls have the names that the typed layer makes up, so both ways send the same bytes. */
static const char opening[] =
    "new k1 CashDrawer\nopen k1 d1\nset k1 DeviceEnabled true\n"
    "new k2 LineDisplay\nopen k2 p1\nclaim k2 0\nset k2 DeviceEnabled true\n"
    "new k3 POSPrinter\nopen k3 r1\nclaim k3 0\nset k3 DeviceEnabled true\ninput r1 paper 100000\n"
    "new k4 HardTotals\nopen k4 t1\nset k4 DeviceEnabled true\ncall k4 create 41 100 false";

static const char receipt[] = "Bread, sliced               4.50\nMilk 1.39\n";

/* The cases: a name, and the line by text. */
static const char *const cases[][2] = {
    {"openDrawer", "call k1 openDrawer"},
    {"State", "get k1 State"},
    {"FreezeEvents", "set k1 FreezeEvents false"},
    {"deliver", "deliver k1"},
    {"displayText", "call k2 displayText 427265616420342e3530 0"},
    {"printNormal",
     "call k3 printNormal 2 42726561642c20736c69636564202020202020202020202020202020342e35300a4d696c6b20312e33390a"},
    {"read", "call k4 read 1 0 100"},
};

enum { CASES = sizeof cases / sizeof cases[0] };

static void fail(const char *what) {
    fprintf(stderr, "typed: %s\n", what);
    exit(1);
}

/* Makes the call by text: the code and the first byte of the answer are looked at, and no more. */
static void by_text(const char *line, long count) {
    kijolvar_till till = {NULL};
    static uint8_t text[1024];
    size_t needed = 0, size = strlen(line);
    if (kijolvar_open(NULL, 0, &till.at) != KIJOLVAR_OK) fail("no till");
    if (kijolvar_carry_out(till, &till.at, (const uint8_t *)opening, strlen(opening), text, sizeof text, &needed) !=
        KIJOLVAR_OK)
        fail("no controls");
    for (long round = 0; round < count; round++) {
        uint32_t code = kijolvar_carry_out(till, &till.at, (const uint8_t *)line, size, text, sizeof text, &needed);
        if (code != KIJOLVAR_OK || (text[0] != 'o' && text[0] != 'e' && text[0] != 'n')) fail("no answer");
    }
    kijolvar_close(till);
}

/* Makes the typed call. */
static void by_type(int number, long count) {
    kij_till *till;
    kij_control *drawer, *display, *printer, *totals;
    const uint8_t *data;
    kij_event event;
    size_t size;
    int64_t value;
    if (kij_open(NULL, NULL, KIJ_EXISTING, &till).code != KIJ_OK ||
        kij_start(till, KIJ_CASH_DRAWER, "d1", KIJ_UNCLAIMED, &drawer).code != KIJ_OK ||
        kij_start(till, KIJ_LINE_DISPLAY, "p1", KIJ_CLAIMED, &display).code != KIJ_OK ||
        kij_start(till, KIJ_POS_PRINTER, "r1", KIJ_CLAIMED, &printer).code != KIJ_OK ||
        kij_input_paper(till, "r1", 100000).code != KIJ_OK ||
        kij_start(till, KIJ_HARD_TOTALS, "t1", KIJ_UNCLAIMED, &totals).code != KIJ_OK ||
        kij_totals_create(totals, "A", 1, 100, false, NULL).code != KIJ_OK)
        fail("no controls");
    for (long round = 0; round < count; round++) {
        kij_result result = {KIJ_OK, 0, KIJ_NO_CATEGORY};
        switch (number) {
        case 0: result = kij_drawer_open(drawer); break;
        case 1: result = kij_get_int(drawer, KIJ_PROP_STATE, &value); break;
        case 2: result = kij_set_bool(drawer, KIJ_PROP_FREEZE_EVENTS, false); break;
        case 3: result = kij_next_event(drawer, &event); break;
        case 4: result = kij_display_text(display, "Bread 4.50", 10, KIJ_DISP_DT_NORMAL); break;
        case 5: result = kij_printer_print(printer, KIJ_PTR_S_RECEIPT, receipt, sizeof receipt - 1); break;
        case 6: result = kij_totals_read(totals, 1, 0, 100, &data, &size); break;
        }
        if (result.code != KIJ_OK) fail(kij_strerror(result));
    }
    kij_close(till);
}

int main(int count, char **words) {
    if (count == 2 && strcmp(words[1], "cases") == 0) {
        for (int number = 0; number < CASES; number++) puts(cases[number][0]);
        return 0;
    }
    if (count != 4) return fprintf(stderr, "usage: typed cases | typed CASE text|typed COUNT\n"), 2;
    for (int number = 0; number < CASES; number++) {
        if (strcmp(cases[number][0], words[1]) != 0) continue;
        if (strcmp(words[2], "text") == 0) by_text(cases[number][1], atol(words[3]));
        else by_type(number, atol(words[3]));
        return 0;
    }
    fail("no such case");
}
