/* What the typed layer refuses by itself, and what it says of each code; that a second thread is refused while a call
   is under way; that a control that was given back is handed out again, also within a listener; the replies to
   ErrorEvents; and what is said of profiles and of files of totals. It is C99 and C++17. Usage: misuse FILE */
#include "kij.h"
#include <errno.h>
#include <limits.h>
#include <pthread.h>
#include <stdio.h>
#include <stdlib.h>
#include <string.h>

static void wants(const char *what, bool holds) {
    if (!holds) exit(printf("failed: %s\n", what));
}

static void succeeds(const char *what, kij_result result) {
    if (result.code != KIJ_OK) exit(printf("failed: %s: %s\n", what, kij_strerror(result)));
}

static void gives(const char *what, int code, kij_result result) {
    if (result.code != code) exit(printf("failed: %s: %d, not %d\n", what, result.code, code));
}

static const int codes[] = {
    KIJ_NO_MEMORY,     KIJ_BAD_PROFILE,  KIJ_NO_ANSWER,    KIJ_DISK_FAILED, KIJ_TOO_SMALL, KIJ_NO_DEVICE,
    KIJ_WRONG_VERSION, KIJ_SYSTEM,       KIJ_BAD_ARGUMENT, KIJ_WRONG_TYPE,  KIJ_IN_CALL,   KIJ_BAD_ANSWER,
    KIJ_NAME_IN_USE,   KIJ_FULL,         KIJ_BAD_DEVICE,   KIJ_BAD_INPUT,   KIJ_BAD_SPARE, KIJ_UNKNOWN,
    KIJ_IN_USE,        KIJ_KIND_DIFFERS, KIJ_VACANT,       KIJ_UNFORMATTED, KIJ_DAMAGED,   KIJ_MOVED,
    KIJ_DRIVEN,        KIJ_BAD_SETTINGS, KIJ_DISCARDED,
};

/* Why the system refused a file is said in words of the layer or in the system's. An unknown number has no words. */
static void said_by_system(void) {
    static const struct {
        int why;
        const char *text;
    } refusals[] = {
        {EACCES, "Permission denied"},
        {EROFS, "Read-only file system"},
        {ENOSPC, "No space left on device"},
        {EWOULDBLOCK, "The file of the totals is in use: close the other program that has it open."},
        {ENOENT, "The file of the totals isn't there. If it was to be created, its folder isn't, or /proc."},
        {EOPNOTSUPP, "The file system can't do that: totals are created there by pos_console format --disk FILE."},
        {EEXIST, "The file of the totals is there already. Of a copy, this may be the file beside it with .part at its "
                 "end: remove that if no other program makes the copy."},
        {0, "The system refused the file of the totals; the extended code is errno."},
        {-5, "The system refused the file of the totals; the extended code is errno."},
        {99999, "The system refused the file of the totals; the extended code is errno."},
    };
    for (size_t place = 0; place < sizeof refusals / sizeof refusals[0]; place++) {
        kij_result result = {KIJ_SYSTEM, refusals[place].why, KIJ_NO_CATEGORY};
        wants(refusals[place].text, strcmp(kij_strerror(result), refusals[place].text) == 0);
    }
    kij_result failed = {KIJ_DISK_FAILED, 0, KIJ_NO_CATEGORY};
    const char *said = kij_strerror(failed);
    wants("what to do after a failed sync", strstr(said, "trouble.md, \"After a failed sync\"") != NULL);
}

/* Each code has a name and a text, which no other has. */
static void texts(void) {
    kij_result results[64];
    size_t count = 0;
    for (int code = KIJ_E_SUCCESS; code <= KIJ_E_EXTENDED; code = code == 0 ? KIJ_E_CLOSED : code + 1) {
        kij_result result = {code, 0, KIJ_NO_CATEGORY};
        results[count++] = result;
    }
    for (size_t place = 0; place < sizeof codes / sizeof codes[0]; place++) {
        kij_result result = {codes[place], 0, KIJ_NO_CATEGORY};
        results[count++] = result;
    }
    for (size_t place = 0; place < count; place++) {
        wants("a name", kij_code_name(results[place].code)[0] != 0);
        for (size_t other = 0; other < place; other++) {
            wants("a text of its own", strcmp(kij_strerror(results[place]), kij_strerror(results[other])) != 0);
            wants("a name of its own",
                  strcmp(kij_code_name(results[place].code), kij_code_name(results[other].code)) != 0);
        }
    }
    static const struct {
        kij_result result;
        const char *name;
    } extended[] = {
        {{KIJ_E_EXTENDED, KIJ_ETOT_NOROOM, KIJ_HARD_TOTALS}, "ETOT_NOROOM"},
        {{KIJ_E_EXTENDED, KIJ_EPTR_COVER_OPEN, KIJ_POS_PRINTER}, "EPTR_COVER_OPEN"},
        {{KIJ_E_EXTENDED, KIJ_EPTR_REC_EMPTY, KIJ_POS_PRINTER}, "EPTR_REC_EMPTY"},
        {{KIJ_E_EXTENDED, 999, KIJ_POS_PRINTER}, ""},
        {{KIJ_E_ILLEGAL, KIJ_EPTR_COVER_OPEN, KIJ_POS_PRINTER}, ""},
    };
    for (size_t place = 0; place < sizeof extended / sizeof extended[0]; place++)
        wants("an extended code", strcmp(kij_extended_name(extended[place].result), extended[place].name) == 0);
    said_by_system();
    kij_result unknown = {12345, 0, KIJ_NO_CATEGORY};
    wants("a code that is none", kij_code_name(12345)[0] == 0 && kij_strerror(unknown)[0] != 0);
    wants("a property", strcmp(kij_property_name(KIJ_PROP_SCAN_DATA), "ScanData") == 0);
    wants("no property", kij_property_name((kij_property)0)[0] == 0 && kij_property_name((kij_property)35)[0] == 0);
    wants("the version", kij_version() == KIJ_VERSION && strcmp(kij_release(), KIJ_RELEASE) == 0);
}

/* Arguments that are refused before the library is asked. */
static void arguments(kij_till *till) {
    kij_control *control = NULL, *printer;
    kij_event event;
    const uint8_t *data;
    const char *text;
    size_t size;
    int64_t number;
    bool is_true;
    gives("a profile", KIJ_BAD_PROFILE, kij_open("nonsense", NULL, KIJ_EXISTING, &till));
    gives("no place", KIJ_BAD_ARGUMENT, kij_open(NULL, NULL, KIJ_EXISTING, NULL));
    gives("flags", KIJ_BAD_ARGUMENT, kij_open(NULL, NULL, 3, &till));
    gives("no till", KIJ_BAD_ARGUMENT, kij_new(NULL, KIJ_SCANNER, NULL, &control));
    gives("a category", KIJ_BAD_ARGUMENT, kij_new(till, (kij_category)6, NULL, &control));
    static const char *const names[] = {"", "a b", "a\n", "abcdefghijklmnopq", "\xc3\xa4"};
    for (size_t place = 0; place < sizeof names / sizeof names[0]; place++) {
        gives("a name", KIJ_BAD_ARGUMENT, kij_new(till, KIJ_SCANNER, names[place], &control));
        gives("a device", KIJ_BAD_ARGUMENT, kij_start(till, KIJ_SCANNER, names[place], KIJ_CLAIMED, &control));
        gives("a device", KIJ_BAD_ARGUMENT, kij_show(till, names[place], &text));
    }
    static const int claims[] = {KIJ_FOREVER, 2, 1000};
    for (size_t place = 0; place < sizeof claims / sizeof claims[0]; place++)
        gives("a timeout as a claim", KIJ_BAD_ARGUMENT,
              kij_start(till, KIJ_CASH_DRAWER, "d1", claims[place], &control));
    wants("no control is written", control == NULL);
    succeeds("a name", kij_new(till, KIJ_POS_PRINTER, "printer", &printer));
    gives("the name twice", KIJ_NAME_IN_USE, kij_new(till, KIJ_SCANNER, "printer", &control));
    wants("its name", strcmp(kij_name(printer), "printer") == 0 && kij_category_of(printer) == KIJ_POS_PRINTER);
    wants("its till", kij_till_of(printer) == till);
    gives("no control", KIJ_BAD_ARGUMENT, kij_drawer_open(NULL));
    gives("no number", KIJ_BAD_ARGUMENT, kij_get_int(printer, KIJ_PROP_STATE, NULL));
    gives("another type", KIJ_WRONG_TYPE, kij_get_int(printer, KIJ_PROP_CLAIMED, &number));
    gives("another type", KIJ_WRONG_TYPE, kij_get_bool(printer, KIJ_PROP_STATE, &is_true));
    gives("another type", KIJ_WRONG_TYPE, kij_get_bytes(printer, KIJ_PROP_STATE, &data, &size));
    gives("no property", KIJ_BAD_ARGUMENT, kij_get_int(printer, (kij_property)0, &number));
    gives("no property", KIJ_BAD_ARGUMENT, kij_set_int(printer, (kij_property)35, 1));
    gives("closed", KIJ_E_CLOSED, kij_set_int(printer, KIJ_PROP_STATE, 1));
    gives("no event", KIJ_BAD_ARGUMENT, kij_next_event(printer, NULL));
    gives("no event", KIJ_BAD_ARGUMENT, kij_reply_to(NULL, KIJ_ER_CLEAR));
    gives("no listener", KIJ_BAD_ARGUMENT, kij_pump(printer, NULL, NULL));
    gives("null with lines", KIJ_BAD_ARGUMENT, kij_carry_out(till, NULL, 1, &text));
    succeeds("null without lines", kij_carry_out(till, NULL, 0, &text));
    wants("no answer", text[0] == 0);
    succeeds("none", kij_next_event(printer, &event));
    wants("none", event.kind == KIJ_NO_EVENT && event.control == printer);
    gives("a number", KIJ_BAD_ARGUMENT, kij_control_claim(printer, INT64_MAX));
    gives("a number", KIJ_BAD_ARGUMENT, kij_control_claim(printer, INT64_MIN));
    gives("the greatest number", KIJ_E_CLOSED, kij_control_claim(printer, 999999999999999999));
    gives("below 0", KIJ_BAD_ARGUMENT, kij_input_paper(till, "r1", -1));
    gives("no drawer", KIJ_BAD_INPUT, kij_input_drawer(till, "r1", true));
    gives("no device", KIJ_BAD_DEVICE, kij_input_drawer(till, "d9", true));
    gives("another kind", KIJ_WRONG_TYPE, kij_show_drawer(till, "r1", &is_true));
    kij_discard(printer);
    succeeds("any printer", kij_new(till, KIJ_POS_PRINTER, NULL, &control));
    wants("it isn't the one that has a name", control != printer);
    kij_discard(control);
    succeeds("the name again", kij_new(till, KIJ_POS_PRINTER, "printer", &control));
    wants("it is the one that has it", control == printer);
    gives("the name twice again", KIJ_NAME_IN_USE, kij_new(till, KIJ_POS_PRINTER, "printer", &control));
    kij_discard(printer);
    gives("its name for a scanner", KIJ_NAME_IN_USE, kij_new(till, KIJ_SCANNER, "printer", &control));
    kij_discard(NULL);
    kij_close(NULL);
}

/* Whether a control is open on this device, or on none. */
static bool is_on(const kij_control *control, const char *device) {
    const char *found = kij_device_of(control);
    return device == NULL || found == NULL ? device == found : strcmp(device, found) == 0;
}

/* The device of a control is the one on which it is open. */
static void opened_on(kij_till *till) {
    kij_control *drawer = NULL, *again = NULL;
    char line[32];
    const char *text;
    succeeds("a drawer", kij_new(till, KIJ_CASH_DRAWER, NULL, &drawer));
    wants("it is on none", is_on(drawer, NULL));
    gives("no such device", KIJ_E_NOEXIST, kij_control_open(drawer, "d9"));
    wants("it is on none still", is_on(drawer, NULL));
    succeeds("it is opened", kij_control_open(drawer, "d1"));
    wants("its device", is_on(drawer, "d1"));
    gives("it is open", KIJ_E_ILLEGAL, kij_control_open(drawer, "d9"));
    wants("the same device", is_on(drawer, "d1"));
    succeeds("it is closed", kij_control_close(drawer));
    wants("it is on none then", is_on(drawer, NULL));
    succeeds("it is opened again", kij_control_open(drawer, "d1"));
    wants("its device again", is_on(drawer, "d1"));
    snprintf(line, sizeof line, "close %s", kij_name(drawer));
    succeeds("a line closes it", kij_carry_out(till, line, KIJ_ZERO_ENDED, &text));
    gives("it is closed already", KIJ_E_CLOSED, kij_control_close(drawer));
    wants("it is on none in the end", is_on(drawer, NULL));
    kij_discard(drawer);
    succeeds("a drawer that is open", kij_start(till, KIJ_CASH_DRAWER, "d1", KIJ_UNCLAIMED, &drawer));
    wants("its device at once", is_on(drawer, "d1"));
    kij_discard(drawer);
    succeeds("another drawer", kij_new(till, KIJ_CASH_DRAWER, NULL, &again));
    wants("it is that one, on no device", again == drawer && is_on(again, NULL));
    kij_discard(again);
}

/* No order succeeds in no time, and each has to end. No call waits for less than no time. */
static void times(kij_till *till) {
    static const int refused[] = {0, KIJ_FOREVER, -2, INT_MIN};
    for (size_t place = 0; place < sizeof refused / sizeof refused[0]; place++) {
        int time = refused[place];
        kij_escpos_settings printer = KIJ_ESCPOS_SETTINGS;
        kij_display_settings display = KIJ_DISPLAY_SETTINGS;
        kij_scanner_settings scanner = KIJ_SCANNER_SETTINGS;
        printer.timeout = display.timeout = time;
        gives("a printer's timeout", KIJ_BAD_SETTINGS, kij_escpos_printer_open(till, "r1", "/dev/none", &printer));
        gives("a display's timeout", KIJ_BAD_SETTINGS, kij_serial_display_open(till, "p1", "/dev/none", &display));
        if (time == 0) continue;
        printer.timeout = display.timeout = 1;
        printer.pause = display.pause = scanner.pause = time;
        gives("a printer's pause", KIJ_BAD_SETTINGS, kij_escpos_printer_open(till, "r1", "/dev/none", &printer));
        gives("a display's pause", KIJ_BAD_SETTINGS, kij_serial_display_open(till, "p1", "/dev/none", &display));
        gives("a scanner's pause", KIJ_BAD_SETTINGS, kij_wedge_scanner_open(till, "s1", "/dev/none", &scanner));
        if (time != KIJ_FOREVER) gives("a time to run", KIJ_BAD_ARGUMENT, kij_run_devices(till, time, NULL));
    }
}

/* Bytes of any length: the whole is printed, or the control says no. */
static void lengths(kij_till *till) {
    static char text[80000];
    kij_control *printer;
    kij_printer_view view;
    kij_printed printed;
    size_t lines = 0;
    memset(text, 'x', sizeof text);
    succeeds("paper", kij_input_paper(till, "r1", 100000));
    succeeds("a printer", kij_start(till, KIJ_POS_PRINTER, "r1", KIJ_CLAIMED, &printer));
    succeeds("no bytes", kij_printer_print(printer, KIJ_PTR_S_RECEIPT, NULL, 0));
    gives("null with bytes", KIJ_BAD_ARGUMENT, kij_printer_print(printer, KIJ_PTR_S_RECEIPT, NULL, 1));
    succeeds("4,096 bytes", kij_printer_print(printer, KIJ_PTR_S_RECEIPT, text, 4096));
    gives("4,097 bytes", KIJ_E_ILLEGAL, kij_printer_print(printer, KIJ_PTR_S_RECEIPT, text, 4097));
    gives("69,000 bytes", KIJ_E_ILLEGAL, kij_printer_print(printer, KIJ_PTR_S_RECEIPT, text, 69000));
    gives("80,000 bytes", KIJ_BAD_ARGUMENT, kij_printer_print(printer, KIJ_PTR_S_RECEIPT, text, sizeof text));
    succeeds("a view", kij_show_printer(till, "r1", &view));
    wants("a buffer", view.lines == 100000 - 511 && view.buffer.size == 8 && !view.is_cover_open);
    for (; kij_next_printed(&view, &printed); lines++)
        wants("a line", printed.kind == KIJ_PRINTED_LINE && printed.alignment == 'l' && printed.size == 8 &&
                            memcmp(printed.characters, "xxxxxxxx", 8) == 0 && strcmp(printed.bold, "00000000") == 0);
    wants("all lines", lines == 511);
    kij_discard(printer);
}

static kij_reply clears(const kij_event *event, void *with) {
    (*(int *)with) += event->kind == KIJ_ERROR_EVENT;
    return KIJ_ER_CLEAR;
}

/* ER_CLEAR of a listener deletes the output that waits, and the input that is held. */
static void replies(kij_till *till) {
    kij_control *printer, *scanner;
    kij_work_report report;
    int64_t number = 0;
    int errors = 0;
    succeeds("a printer", kij_start(till, KIJ_POS_PRINTER, "r1", KIJ_CLAIMED, &printer));
    succeeds("later", kij_set_bool(printer, KIJ_PROP_ASYNC_MODE, true));
    succeeds("a line", kij_printer_print(printer, KIJ_PTR_S_RECEIPT, "a\n", 2));
    succeeds("a line", kij_printer_print(printer, KIJ_PTR_S_RECEIPT, "b\n", 2));
    succeeds("a cover", kij_input_cover(till, "r1", true));
    succeeds("work", kij_work(till, "r1", &report));
    wants("it fails", report.kind == KIJ_WORK_FAILED && report.error.extended == KIJ_EPTR_COVER_OPEN);
    succeeds("an error", kij_get_int(printer, KIJ_PROP_STATE, &number));
    wants("an error", number == KIJ_S_ERROR);
    succeeds("a reply", kij_pump(printer, clears, &errors));
    succeeds("no error", kij_get_int(printer, KIJ_PROP_STATE, &number));
    wants("nothing waits", number == KIJ_S_IDLE && errors == 1);
    succeeds("a scanner", kij_start(till, KIJ_SCANNER, "s1", KIJ_CLAIMED, &scanner));
    succeeds("a scan", kij_input_scan(till, "s1", 104, "a", 1, "a", 1));
    succeeds("a fault", kij_input_scan_fault(till, "s1"));
    succeeds("held", kij_get_int(scanner, KIJ_PROP_DATA_COUNT, &number));
    wants("held", number == 1);
    succeeds("events", kij_set_bool(scanner, KIJ_PROP_DATA_EVENT_ENABLED, true));
    succeeds("a reply", kij_pump_all(till, clears, &errors));
    succeeds("none held", kij_get_int(scanner, KIJ_PROP_DATA_COUNT, &number));
    wants("none held", number == 0 && errors == 2);
    kij_discard(scanner);
    kij_discard(printer);
}

/* A till, the printer's control that a listener has made, and how many events it heard. */
typedef struct renewal {
    kij_till *till;
    kij_control *printer;
    int errors, of_drawer;
} renewal;

/* Makes a printer's control with output that waits. */
static void waits(renewal *self) {
    succeeds("a printer", kij_start(self->till, KIJ_POS_PRINTER, "r1", KIJ_CLAIMED, &self->printer));
    succeeds("later", kij_set_bool(self->printer, KIJ_PROP_ASYNC_MODE, true));
    succeeds("its output", kij_printer_print(self->printer, KIJ_PTR_S_RECEIPT, "a\n", 2));
}

/* Makes one whose output has failed. */
static void fails(renewal *self) {
    kij_work_report report;
    waits(self);
    succeeds("a cover", kij_input_cover(self->till, "r1", true));
    succeeds("work", kij_work(self->till, "r1", &report));
    wants("it fails", report.kind == KIJ_WORK_FAILED);
}

/* Gives the printer's control back at an ErrorEvent, and makes another one. */
static kij_reply renews(const kij_event *event, void *with) {
    renewal *self = (renewal *)with;
    kij_control *before = self->printer;
    self->of_drawer += kij_category_of(event->control) == KIJ_CASH_DRAWER;
    if (event->kind != KIJ_ERROR_EVENT) return KIJ_ER_DEFAULT;
    self->errors++;
    kij_discard(before);
    succeeds("the cover is closed", kij_input_cover(self->till, "r1", false));
    waits(self);
    wants("the same one is handed out", self->printer == before);
    return KIJ_ER_CLEAR;
}

/* The reply of a listener that gave its control back isn't that of another application, which has the control now. */
static void renewed(kij_till *till) {
    renewal self = {till, NULL, 0, 0};
    kij_control *drawer;
    kij_work_report report;
    succeeds("a drawer", kij_start(till, KIJ_CASH_DRAWER, "d1", KIJ_UNCLAIMED, &drawer));
    for (int way = 0; way < 2; way++) {
        fails(&self);
        succeeds("it opens", kij_input_drawer(till, "d1", true));
        succeeds("it closes", kij_input_drawer(till, "d1", false));
        if (way == 0) gives("it is given back", KIJ_DISCARDED, kij_pump(self.printer, renews, &self));
        else succeeds("one is given back", kij_pump_all(till, renews, &self));
        wants("what was heard", self.errors == way + 1 && self.of_drawer == (way == 0 ? 0 : 4));
        succeeds("work", kij_work(till, "r1", &report));
        wants("the output of the other one waits still", report.kind == KIJ_WORK_DONE);
        kij_discard(self.printer);
    }
    kij_discard(drawer);
}

/* A control that was given back is handed out again, so the till is never full of them. */
static void controls(kij_till *till) {
    kij_control *drawer;
    bool is_open = false;
    for (int round = 0; round < 5000; round++) {
        succeeds("a drawer", kij_start(till, KIJ_CASH_DRAWER, "d1", KIJ_UNCLAIMED, &drawer));
        succeeds("opens", kij_drawer_open(drawer));
        gives("no device", KIJ_E_NOEXIST, kij_start(till, KIJ_SCANNER, "d1", KIJ_UNCLAIMED, &drawer));
        kij_discard(drawer);
    }
    succeeds("a drawer", kij_show_drawer(till, "d1", &is_open));
    wants("open", is_open);
}

static int is_refused, is_over;

/* Makes calls until it is refused. */
static void *calls(void *with) {
    kij_control *control = (kij_control *)with;
    while (!__atomic_load_n(&is_over, __ATOMIC_ACQUIRE)) {
        int64_t number;
        kij_result result = kij_get_int(control, KIJ_PROP_STATE, &number);
        if (result.code == KIJ_IN_CALL) __atomic_store_n(&is_refused, 1, __ATOMIC_RELEASE);
        else if (result.code != KIJ_OK) exit(printf("failed: another thread: %d\n", result.code));
    }
    return NULL;
}

/* Two threads on one till: each call is carried out whole or refused, and nothing breaks. */
static void threads(kij_till *till) {
    pthread_t thread;
    kij_control *one, *two;
    long calls_done = 0;
    succeeds("a control", kij_new(till, KIJ_CASH_DRAWER, NULL, &one));
    succeeds("a control", kij_new(till, KIJ_CASH_DRAWER, NULL, &two));
    wants("a thread", pthread_create(&thread, NULL, calls, one) == 0);
    for (long round = 0; round < 200000000 && !__atomic_load_n(&is_refused, __ATOMIC_ACQUIRE); round++) {
        int64_t number = 0;
        kij_result result = kij_get_int(two, KIJ_PROP_STATE, &number);
        wants("a code", result.code == KIJ_OK || result.code == KIJ_IN_CALL);
        calls_done += result.code == KIJ_OK;
        if (result.code == KIJ_IN_CALL) break;
    }
    __atomic_store_n(&is_over, 1, __ATOMIC_RELEASE);
    wants("it ends", pthread_join(thread, NULL) == 0 && calls_done >= 0);
    kij_discard(one);
    kij_discard(two);
}

/* Why a profile is refused, and what it has. */
static void profiles(void) {
    kij_mistake mistake;
    kij_device devices[4];
    size_t count = 0;
    succeeds("the built-in profile", kij_profile_mistake(NULL, &mistake));
    wants("no mistake", mistake.line == 0 && mistake.reason[0] == 0);
    gives("no TOML", KIJ_BAD_PROFILE, kij_profile_mistake("a = 1\n\"\xc3\xa4\" = = 2", &mistake));
    wants("its place", mistake.line == 2 && mistake.column == 7 && memcmp(mistake.reason, "not TOML: ", 10) == 0);
    gives("no text", KIJ_BAD_PROFILE, kij_profile_mistake("a = 1\nb\xff", &mistake));
    wants("where it ends", mistake.line == 2 && mistake.column == 2 && strcmp(mistake.reason, "not UTF-8") == 0);
    const char *wide = "[[device]]\nname = \"d\"\ncategory = \"LineDisplay\"\nrows = 2\ncolumns = 81\n";
    gives("a number", KIJ_BAD_PROFILE, kij_profile_mistake(wide, &mistake));
    wants("its entry", mistake.line == 0 && strcmp(mistake.reason, "device 1: columns must be 1 to 80") == 0);
    gives("its devices", KIJ_BAD_PROFILE, kij_devices(wide, devices, 4, &count));
    succeeds("devices", kij_devices(NULL, devices, 4, &count));
    wants("all are counted", count == 5);
    wants("a display", strcmp(devices[2].name, "p1") == 0 && devices[2].category == KIJ_LINE_DISPLAY &&
                           devices[2].rows == 2 && devices[2].columns == 4 && devices[2].chars == 0);
    wants("a printer", strcmp(devices[3].name, "r1") == 0 && devices[3].category == KIJ_POS_PRINTER &&
                           devices[3].chars == 8 && devices[3].near_end == 2);
    gives("no room", KIJ_BAD_ARGUMENT, kij_devices(NULL, NULL, 1, &count));
    succeeds("a count alone", kij_devices("[[spare]]\ncategory = \"Scanner\"\n", NULL, 0, &count));
    wants("no devices", count == 0);
    count = 1;
    succeeds("an empty profile", kij_devices("", devices, 4, &count));
    wants("an empty profile has no devices", count == 0);
    succeeds("an empty profile is sound", kij_profile_mistake("", &mistake));
}

/* A till over an empty profile, with totals in memory and in a file, has no devices. The file is removed. */
static void without_devices(const char *path) {
    const char *const totals[] = {NULL, path};
    kij_till *till;
    kij_control *drawer;
    for (int place = 0; place < 2; place++) {
        succeeds("a till", kij_open("", totals[place], place == 0 ? KIJ_EXISTING : KIJ_CREATE_NEW, &till));
        gives("no drawer", KIJ_E_NOEXIST, kij_start(till, KIJ_CASH_DRAWER, "d1", KIJ_UNCLAIMED, &drawer));
        kij_close(till);
    }
    wants("the file is removed", remove(path) == 0);
}

/* Writes a byte of a file. */
static void writes(const char *path, long at, int byte) {
    FILE *file = fopen(path, "r+b");
    wants("a byte", file != NULL && fseek(file, at, SEEK_SET) == 0 && fputc(byte, file) == byte && fclose(file) == 0);
}

/* Whether anything is at a path with an end. */
static bool is_there(const char *path, const char *end) {
    char whole[4096];
    snprintf(whole, sizeof whole, "%s%s", path, end);
    FILE *file = fopen(whole, "rb");
    if (file != NULL) fclose(file);
    return file != NULL;
}

/* A file of totals is copied while a till has it. The copy is whole, or isn't there. */
static void backups(const char *path) {
    char copy[4096], part[4096], text[4096], again[4096];
    size_t needed = 0;
    uint64_t place = 0;
    kij_till *till;
    kij_control *totals;
    int64_t handle = 0;
    snprintf(copy, sizeof copy, "%s.copy", path);
    snprintf(part, sizeof part, "%s.copy.part", path);
    remove(path);
    gives("a copy of no file", KIJ_SYSTEM, kij_backup(path, copy));
    kij_result result = kij_open(NULL, "/proc/totals", KIJ_CREATE_NEW, &till);
    wants("no unnamed files", result.code == KIJ_SYSTEM && result.extended == EOPNOTSUPP);
    succeeds("a till", kij_open(NULL, path, KIJ_CREATE_NEW, &till));
    succeeds("totals", kij_start(till, KIJ_HARD_TOTALS, "t1", KIJ_UNCLAIMED, &totals));
    succeeds("a file", kij_totals_create(totals, "A", 1, 2, false, &handle));
    succeeds("its bytes", kij_totals_write(totals, handle, 0, "BC", 2));
    succeeds("a copy while a till has it", kij_backup(path, copy));
    wants("no part is left", is_there(copy, "") && !is_there(part, ""));
    succeeds("other bytes", kij_totals_write(totals, handle, 0, "DE", 2));
    result = kij_backup(path, copy);
    wants("a copy is there", result.code == KIJ_SYSTEM && result.extended == EEXIST && !is_there(part, ""));
    succeeds("what it holds", kij_files(copy, text, sizeof text, &needed, &place));
    wants("its bytes", strstr(text, "\nfile 41\nname A\nsize 2\nhex 4243\n") != NULL);
    remove(copy);
    FILE *file = fopen(part, "wb");
    wants("a part that a crash has left", file != NULL && fclose(file) == 0);
    result = kij_backup(path, copy);
    wants("it is there", result.code == KIJ_SYSTEM && result.extended == EEXIST && is_there(part, ""));
    remove(part);
    kij_close(till);
    succeeds("a copy of a file that no till has", kij_backup(path, copy));
    succeeds("what the file holds", kij_files(path, text, sizeof text, &needed, &place));
    succeeds("what the copy holds", kij_files(copy, again, sizeof again, &needed, &place));
    wants("it is the same", strcmp(text, again) == 0 && strstr(text, "\nhex 4445\n") != NULL);
    remove(copy);
    gives("no path", KIJ_BAD_ARGUMENT, kij_backup(NULL, copy));
    gives("no path of a copy", KIJ_BAD_ARGUMENT, kij_backup(path, NULL));
    gives("no folder", KIJ_SYSTEM, kij_backup(path, "/nowhere/at/all"));
    unsigned long slot = strtoul(strstr(text, "\nslot ") + 6, NULL, 10);
    for (long byte = 9; byte < 17; byte++) writes(path, (long)slot + byte, 0xff);
    gives("a damaged file", KIJ_DAMAGED, kij_backup(path, copy));
    file = fopen(path, "wb");
    wants("a short file", file != NULL && fputs("short", file) >= 0 && fclose(file) == 0);
    gives("a short file", KIJ_TOO_SMALL, kij_backup(path, copy));
    writes(path, 327679, 0);
    writes(path, 0, 0);
    gives("no totals", KIJ_UNFORMATTED, kij_backup(path, copy));
    wants("nothing is made", !is_there(copy, "") && !is_there(part, ""));
    remove(path);
}

/* What a file of totals holds, and that it is moved to layout 2. */
static void totals_files(const char *path) {
    char text[4096], cut[10];
    size_t needed = 0, again = 0;
    uint64_t place = 0;
    kij_till *till;
    kij_control *totals;
    int64_t handle = 0;
    remove(path);
    gives("no file", KIJ_SYSTEM, kij_files(path, text, sizeof text, &needed, &place));
    gives("no file", KIJ_SYSTEM, kij_migrate(path));
    succeeds("a till", kij_open(NULL, path, KIJ_CREATE_NEW, &till));
    succeeds("totals", kij_start(till, KIJ_HARD_TOTALS, "t1", KIJ_UNCLAIMED, &totals));
    succeeds("a file", kij_totals_create(totals, "A", 1, 2, false, &handle));
    gives("a till has it", KIJ_SYSTEM, kij_files(path, text, sizeof text, &needed, &place));
    gives("a till has it", KIJ_SYSTEM, kij_migrate(path));
    kij_close(till);
    succeeds("what it holds", kij_files(path, text, sizeof text, &needed, &place));
    wants("layout 1", memcmp(text, "layout 1\n", 9) == 0 && strlen(text) == needed);
    wants("a file", strstr(text, "\nfiles 1\nfile 41\nname A\nsize 2\nhex 0000\ntext ..\n") != NULL);
    succeeds("less room", kij_files(path, cut, sizeof cut, &again, &place));
    wants("a front", again == needed && strlen(cut) == 9 && memcmp(cut, text, 9) == 0);
    succeeds("no room", kij_files(path, NULL, 0, &again, &place));
    succeeds("a move", kij_migrate(path));
    succeeds("what it holds", kij_files(path, text, sizeof text, &needed, &place));
    wants("layout 2", memcmp(text, "layout 2\n", 9) == 0 && strstr(text, "\nfiles 1\nfile 41\n") != NULL);
    gives("again", KIJ_MOVED, kij_migrate(path));
    unsigned long slot = strtoul(strstr(text, "\nslot ") + 6, NULL, 10);
    for (long byte = 9; byte < 17; byte++) writes(path, (long)slot + byte, 0xff);
    gives("damage", KIJ_DAMAGED, kij_files(path, text, sizeof text, &needed, &place));
    wants("where", place == slot + 9 && strcmp(text, "the length of the current body is above the longest") == 0);
    gives("damage, with no room", KIJ_DAMAGED, kij_files(path, NULL, 0, &again, &place));
    gives("no move", KIJ_DAMAGED, kij_migrate(path));
    FILE *file = fopen(path, "wb");
    wants("a short file", file != NULL && fputs("short", file) >= 0 && fclose(file) == 0);
    gives("a short file", KIJ_TOO_SMALL, kij_files(path, text, sizeof text, &needed, &place));
    gives("a short file", KIJ_TOO_SMALL, kij_migrate(path));
    writes(path, 327679, 0);
    writes(path, 0, 0);
    gives("no totals", KIJ_UNFORMATTED, kij_files(path, text, sizeof text, &needed, &place));
    gives("no totals", KIJ_UNFORMATTED, kij_migrate(path));
    remove(path);
}

/* The next event of any control, in the order in which they were made. */
static void any_event(kij_till *till) {
    kij_control *one, *two;
    kij_event event;
    succeeds("none", kij_next_event_of_any(till, &event));
    wants("none", event.kind == KIJ_NO_EVENT && event.control == NULL);
    succeeds("a drawer", kij_start(till, KIJ_CASH_DRAWER, "d1", KIJ_UNCLAIMED, &one));
    succeeds("a drawer", kij_start(till, KIJ_CASH_DRAWER, "d1", KIJ_UNCLAIMED, &two));
    succeeds("it is closed", kij_input_drawer(till, "d1", false));
    for (int place = 0; place < 2; place++) {
        succeeds("an event", kij_next_event_of_any(till, &event));
        wants("of each in turn", event.kind == KIJ_STATUS_UPDATE_EVENT && event.control == (place == 0 ? one : two));
    }
    succeeds("none", kij_next_event_of_any(till, &event));
    wants("none is left", event.kind == KIJ_NO_EVENT);
    gives("no place", KIJ_BAD_ARGUMENT, kij_next_event_of_any(till, NULL));
    kij_discard(one);
    kij_discard(two);
}

/* Whose the next event is; it is of this kind. */
static void comes(kij_till *till, kij_control *whose, kij_event_kind kind) {
    kij_event event;
    succeeds("the next event", kij_next_event_of_any(till, &event));
    wants("its control", event.control == whose);
    wants("its kind", event.kind == kind);
}

/* The control and the kind of each event that a listener gets. */
typedef struct heard {
    size_t count;
    kij_control *control[8];
    kij_event_kind kind[8];
} heard;

static kij_reply hears(const kij_event *event, void *with) {
    heard *all = (heard *)with;
    wants("not too many", all->count < 8);
    all->control[all->count] = event->control;
    all->kind[all->count++] = event->kind;
    return KIJ_ER_DEFAULT;
}

/* Events of several controls, of which some can't be delivered, and one is of a control that lines made. */
static void any_of_several(void) {
    static const char lines[] = "new raw CashDrawer\nopen raw d1\nset raw DeviceEnabled true";
    kij_till *till;
    kij_control *first, *scanner, *last;
    const char *answer;
    heard all;
    succeeds("a till", kij_open(NULL, NULL, KIJ_EXISTING, &till));
    succeeds("a drawer", kij_start(till, KIJ_CASH_DRAWER, "d1", KIJ_UNCLAIMED, &first));
    succeeds("lines", kij_carry_out(till, lines, KIJ_ZERO_ENDED, &answer));
    succeeds("a scanner", kij_start(till, KIJ_SCANNER, "s1", KIJ_CLAIMED, &scanner));
    succeeds("a drawer", kij_start(till, KIJ_CASH_DRAWER, "d1", KIJ_UNCLAIMED, &last));
    succeeds("it opens", kij_input_drawer(till, "d1", true));
    succeeds("frozen", kij_set_bool(first, KIJ_PROP_FREEZE_EVENTS, true));
    succeeds("a scan waits", kij_input_scan(till, "s1", 104, "a", 1, "a", 1));
    comes(till, last, KIJ_STATUS_UPDATE_EVENT);
    comes(till, NULL, KIJ_NO_EVENT);
    succeeds("a fault", kij_input_scan_fault(till, "s1"));
    succeeds("data", kij_set_bool(scanner, KIJ_PROP_DATA_EVENT_ENABLED, true));
    comes(till, scanner, KIJ_ERROR_EVENT);
    succeeds("not frozen", kij_set_bool(first, KIJ_PROP_FREEZE_EVENTS, false));
    comes(till, first, KIJ_STATUS_UPDATE_EVENT);
    succeeds("it closes", kij_input_drawer(till, "d1", false));
    succeeds("it opens", kij_input_drawer(till, "d1", true));
    memset(&all, 0, sizeof all);
    succeeds("all", kij_pump_all(till, hears, &all));
    wants("one of each in turn", all.count == 5 && all.control[0] == first && all.control[1] == scanner &&
                                     all.control[2] == last && all.control[3] == first && all.control[4] == last);
    wants("the scan", all.kind[1] == KIJ_DATA_EVENT);
    comes(till, NULL, KIJ_NO_EVENT);
    succeeds("lines have theirs", kij_carry_out(till, "deliver raw", KIJ_ZERO_ENDED, &answer));
    wants("lines have theirs", strcmp(answer, "event StatusUpdateEvent 1\n") == 0);
    kij_close(till);
}

int main(int count, char **words) {
    kij_till *till;
    if (count != 2) return 2;
    texts();
    profiles();
    without_devices(words[1]);
    totals_files(words[1]);
    backups(words[1]);
    succeeds("a till", kij_open(NULL, NULL, KIJ_EXISTING, &till));
    arguments(till);
    opened_on(till);
    times(till);
    lengths(till);
    replies(till);
    renewed(till);
    controls(till);
    any_event(till);
    any_of_several();
    threads(till);
    kij_close(till);
    printf("as they should be\n");
    return 0;
}
