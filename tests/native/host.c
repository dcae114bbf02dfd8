/* A host in C for tests/native.py: a till whose devices have drivers. It reads commands, a line each, and answers each
   by a line:

   printer DEVICE PORT [drawer NAME] [timeout N] [pause N] [lines N] [width N] [asked] [serial SPEED [flow FLOW]]
   display DEVICE PORT [escpos] [timeout N] [pause N] [serial SPEED [flow FLOW]]
   scanner DEVICE PORT [keys] [pause N] [serial SPEED [flow FLOW]]
                     the flow control of a serial line: none, which is the default here, rts-cts or xon-xoff
   own DEVICE N [printer|display|scanner]
                     kij_driver_open: a driver of this program's, whose drawer, or other device, takes so many orders
   did               the last order of that, in words
   says WORDS;WORDS  what happens there next
   there yes|no      whether the device is there
   reads TYPE HEX    a code that it reads next; or a failed scan, for `fault` in place of the type
   calls             the driver calls its till with each order from now on: `did` is what that came to
   run TIMEOUT       kij_run_devices: `true` or `false`; without an end by -1
   state DEVICE      kij_show_driver: whether it is online, and how many orders were printed late
   why DEVICE        kij_show_driver: why its port couldn't be opened or was lost the last time, as errno
   lines LINE;LINE   kij_carry_out: the answers, with `;` in place of line feeds
   print HEX         a typed call, by a control that the first one makes
   later HEX         the same with AsyncMode: the request waits
   reason HEX        kij_reason of `print HEX`; nothing if that is done
   clear             clearOutput of that control
   release           it is released
   close             it is given back, and the next request makes another one
   reply             delivers the events of that control with the reply ER_CLEAR: how many of them were ErrorEvents
   drop              delivers them, releases it at an ErrorEvent, and then replies ER_CLEAR: how many there were
   swap              from now on these are of the other printer, r2 or r1, and its control; r1 is the first
   given             how often the driver of this program's was told that output is given up
   host DEVICE       kij_host
   order             kij_next_order: its device, or `none`
   tear DEVICE       kij_tear_off
   attach DEVICE N   kij_attach
   detach DEVICE     kij_detach
   totals PATH       kij_open of another till over a file of totals that has to be there
   migrate PATH      kij_migrate
   memory N [COUNT]  refuses the allocation of this number and all behind it, or so many, and gives all again if N is 0
                     or less

   What is refused is answered by the name of its code, and the extended code if it has one. `host begin FILE` reads no
   commands: it answers what the calls say by which a program begins. */
#include "kij.h"
#include <stdio.h>
#include <stdlib.h>
#include <string.h>

static kij_till *till;
/* The printer of typed calls with its control, and the control of the other one. */
static const char *printer_name = "r1";
static kij_control *printer, *other;

#ifdef HOST_HAS_HEAP
void heap_refuses_some(long number, long count);
#endif

static void answer(kij_result result, const char *text) {
    if (result.code == KIJ_OK) printf("%s\n", text);
    else if (result.extended != 0) printf("%s %d\n", kij_code_name(result.code), result.extended);
    else printf("%s\n", kij_code_name(result.code));
}

/* The next word, or null. */
static char *word(void) { return strtok(NULL, " \n"); }

/* The number behind a word. */
static int number(void) {
    const char *text = word();
    return text == NULL ? -1 : (int)strtol(text, NULL, 10);
}

/* Reads the settings of a serial line, if the key is one of those. */
static void read_serial(const char *key, kij_serial_settings *serial) {
    static const char *const flows[] = {"none", "rts-cts", "xon-xoff"};
    if (strcmp(key, "serial") == 0) {
        serial->is_serial = true;
        serial->speed = number();
        serial->flow = KIJ_FLOW_NONE;
    } else if (strcmp(key, "flow") == 0) {
        const char *name = word();
        for (int flow = KIJ_FLOW_NONE; flow <= KIJ_FLOW_XON_XOFF; flow++)
            if (strcmp(name, flows[flow]) == 0) serial->flow = (kij_flow)flow;
    }
}

static kij_result open_printer(void) {
    kij_escpos_settings settings = KIJ_ESCPOS_SETTINGS;
    const char *device = word(), *port = word(), *key;
    while ((key = word()) != NULL) {
        if (strcmp(key, "drawer") == 0) settings.drawer = word();
        else if (strcmp(key, "timeout") == 0) settings.timeout = number();
        else if (strcmp(key, "pause") == 0) settings.pause = number();
        else if (strcmp(key, "lines") == 0) settings.lines = number();
        else if (strcmp(key, "width") == 0) settings.width = number();
        else if (strcmp(key, "asked") == 0) settings.is_asked = true;
        else read_serial(key, &settings.serial);
    }
    return kij_escpos_printer_open(till, device, port, &settings);
}

static kij_result open_display(void) {
    kij_display_settings settings = KIJ_DISPLAY_SETTINGS;
    const char *device = word(), *port = word(), *key;
    while ((key = word()) != NULL) {
        if (strcmp(key, "escpos") == 0) settings.protocol = KIJ_ESCPOS;
        else if (strcmp(key, "timeout") == 0) settings.timeout = number();
        else if (strcmp(key, "pause") == 0) settings.pause = number();
        else read_serial(key, &settings.serial);
    }
    return kij_serial_display_open(till, device, port, &settings);
}

static kij_result open_scanner(void) {
    kij_scanner_settings settings = KIJ_SCANNER_SETTINGS;
    const char *device = word(), *port = word(), *key;
    while ((key = word()) != NULL) {
        if (strcmp(key, "keys") == 0) settings.has_keys = true;
        else if (strcmp(key, "pause") == 0) settings.pause = number();
        else read_serial(key, &settings.serial);
    }
    return kij_wedge_scanner_open(till, device, port, &settings);
}

/* ---- A driver of this program's ---- */

/* A code that is read next. */
typedef struct code {
    bool has_failed;
    int type;
    char data[40];
    size_t size;
} code;

static struct {
    int left;
    char did[200];
    char says[200];
    /* What `happened` returned last. */
    char said[200];
    bool is_away;
    code codes[32];
    size_t code_count;
    size_t read;
    bool calls;
    bool has_ended;
    int given_up;
} own;

/* An order in words. */
static void write_order(const kij_order *order) {
    static const char *const kinds[] = {"none",       "openDrawer", "displayTextAt", "clearText",
                                        "scrollText", "print",      "cutPaper"};
    int size = snprintf(own.did, sizeof own.did, "%s %s", order->device, kinds[order->kind]);
    char *at = own.did + size;
    if (order->size > 0) *at++ = ' ';
    for (size_t place = 0; place < order->size; place++) at += sprintf(at, "%02x", order->data[place]);
    if (order->kind == KIJ_ORDER_DISPLAY_TEXT_AT) sprintf(at, " %d %d %d", order->row, order->column, order->attribute);
    if (order->kind == KIJ_ORDER_SCROLL_TEXT) sprintf(at, " %d %d", order->direction, order->units);
    if (order->kind == KIJ_ORDER_CUT_PAPER) sprintf(at, " %d", order->percentage);
}

static bool carry_out_own(void *context, const kij_order *order) {
    (void)context;
    write_order(order);
    if (own.calls) {
        kij_result result = kij_run_devices(till, 0, NULL);
        snprintf(own.did, sizeof own.did, "%s", kij_code_name(result.code));
    }
    return own.left-- > 0;
}

static const char *happened_own(void *context) {
    (void)context;
    if (own.says[0] == 0) return NULL;
    strcpy(own.said, own.says);
    own.says[0] = 0;
    return own.said;
}

static bool is_online_own(void *context) {
    (void)context;
    return !own.is_away;
}

static bool scan_own(void *context, kij_scan *scan) {
    (void)context;
    if (own.read == own.code_count) return false;
    const code *found = &own.codes[own.read++];
    scan->has_failed = found->has_failed;
    scan->type = found->type;
    scan->data = scan->label = found->data;
    scan->data_size = scan->label_size = found->size;
    return true;
}

static void attached_own(void *context) {
    (void)context;
    strcpy(own.says, "paper 700\n");
}

static void give_up_own(void *context) {
    (void)context;
    own.given_up++;
}

/* The program must see this, so that the tests do. */
static void end_own(void *context) {
    (void)context;
    own.has_ended = true;
}

static kij_result open_own(void) {
    kij_driver driver;
    const char *device = word();
    memset(&driver, 0, sizeof driver);
    own.left = number();
    const char *kind = word();
    driver.category = KIJ_CASH_DRAWER;
    if (kind != NULL && strcmp(kind, "printer") == 0) driver.category = KIJ_POS_PRINTER;
    if (kind != NULL && strcmp(kind, "display") == 0) driver.category = KIJ_LINE_DISPLAY;
    if (kind != NULL && strcmp(kind, "scanner") == 0) driver.category = KIJ_SCANNER;
    if (driver.category != KIJ_SCANNER) driver.carry_out = carry_out_own;
    driver.happened = happened_own;
    driver.is_online = is_online_own;
    driver.scan = scan_own;
    driver.attached = attached_own;
    driver.given_up = give_up_own;
    driver.end = end_own;
    return kij_driver_open(till, device, &driver, NULL);
}

/* Writes bytes in hex digits, of which there is room for. */
static size_t bytes_of(const char *digits, char *bytes) {
    size_t size = strlen(digits) / 2;
    for (size_t place = 0; place < size; place++) {
        char pair[3] = {digits[2 * place], digits[2 * place + 1], 0};
        bytes[place] = (char)strtoul(pair, NULL, 16);
    }
    return size;
}

static const char *say(char *words) {
    size_t size = strcspn(words, "\n");
    memcpy(own.says, words, size);
    strcpy(own.says + size, "\n");
    for (char *at = own.says; *at != 0; at++)
        if (*at == ';') *at = '\n';
    return "ok";
}

static const char *read_code(void) {
    const char *kind = word(), *digits = word();
    if (own.read == own.code_count) own.read = own.code_count = 0;
    code *next = &own.codes[own.code_count++];
    next->has_failed = strcmp(kind, "fault") == 0;
    next->type = next->has_failed ? 0 : (int)strtol(kind, NULL, 10);
    next->size = digits == NULL ? 0 : bytes_of(digits, next->data);
    return "ok";
}

static const char *set_there(void) {
    own.is_away = strcmp(word(), "no") == 0;
    return "ok";
}

static void run(void) {
    bool is_any = false;
    kij_result result = kij_run_devices(till, number(), &is_any);
    answer(result, is_any ? "true" : "false");
}

static void state(void) {
    char text[64];
    kij_driver_view view = {false, 0, 0};
    kij_result result = kij_show_driver(till, word(), &view);
    snprintf(text, sizeof text, "%s %llu", view.is_online ? "online" : "offline", (unsigned long long)view.late_orders);
    answer(result, text);
}

static void why(void) {
    char text[20];
    kij_driver_view view = {false, 0, 0};
    kij_result result = kij_show_driver(till, word(), &view);
    snprintf(text, sizeof text, "%d", view.port_error);
    answer(result, text);
}

static void carry_out(char *lines) {
    const char *found = "";
    for (char *at = lines; *at != 0; at++)
        if (*at == ';') *at = '\n';
    kij_result result = kij_carry_out(till, lines, strcspn(lines, "\0"), &found);
    if (result.code != KIJ_OK) {
        answer(result, "");
        return;
    }
    for (; *found != 0; found++) putchar(*found == '\n' ? ';' : *found);
    putchar('\n');
}

/* Prints bytes by a typed call, over a control that the first one makes. */
static kij_result print(bool is_later) {
    static uint8_t bytes[100000];
    char *digits = strtok(NULL, "\n");
    size_t size = digits == NULL ? 0 : bytes_of(digits, (char *)bytes);
    kij_result result = {KIJ_OK, 0, KIJ_NO_CATEGORY};
    if (printer == NULL) result = kij_start(till, KIJ_POS_PRINTER, printer_name, KIJ_CLAIMED, &printer);
    if (result.code == KIJ_OK && is_later) result = kij_set_bool(printer, KIJ_PROP_ASYNC_MODE, true);
    if (result.code == KIJ_OK) result = kij_printer_print(printer, KIJ_PTR_S_RECEIPT, bytes, size);
    return result;
}

static const char *reason(void) {
    kij_result result = print(false);
    return result.code == KIJ_OK ? "" : kij_reason(till, result);
}

static const char *swap(void) {
    kij_control *before = printer;
    printer = other;
    other = before;
    printer_name = strcmp(printer_name, "r1") == 0 ? "r2" : "r1";
    return "ok";
}

static const char *give_back(void) {
    kij_discard(printer);
    printer = NULL;
    return "ok";
}

/* Delivers the events of the control, and replies to each that output failed that it is given up. */
static void reply(void) {
    char text[20];
    kij_event event;
    int count = 0;
    kij_result result;
    do {
        result = kij_next_event_replied(printer, KIJ_ER_CLEAR, &event);
        if (result.code == KIJ_OK && event.kind == KIJ_ERROR_EVENT) count++;
    } while (result.code == KIJ_OK && event.kind != KIJ_NO_EVENT);
    snprintf(text, sizeof text, "%d", count);
    answer(result, text);
}

/* A listener that releases the control whose output failed, and gives that up. */
static kij_reply release_at_error(const kij_event *event, void *count) {
    if (event->kind != KIJ_ERROR_EVENT) return KIJ_ER_DEFAULT;
    ++*(int *)count;
    (void)kij_control_release(event->control);
    return KIJ_ER_CLEAR;
}

static void drop(void) {
    char text[20];
    int count = 0;
    kij_result result = kij_pump(printer, release_at_error, &count);
    snprintf(text, sizeof text, "%d", count);
    answer(result, text);
}

static void order(void) {
    kij_order found;
    memset(&found, 0, sizeof found);
    kij_result result = kij_next_order(till, &found);
    answer(result, result.code == KIJ_OK && found.kind != KIJ_NO_ORDER ? found.device : "none");
}

static kij_result attach(void) {
    const char *device = word();
    return kij_attach(till, device, number());
}

/* Opens a till over a file that has to be there, and closes it. */
static kij_result open_totals(void) {
    kij_till *other = NULL;
    kij_result result = kij_open(NULL, word(), KIJ_EXISTING, &other);
    kij_close(other);
    return result;
}

static void obey(char *line) {
    size_t front = strcspn(line, " \n");
    char *rest = line + front + (line[front] != 0);
    if (strncmp(line, "lines ", 6) == 0) {
        rest[strcspn(rest, "\n")] = 0;
        carry_out(rest);
        return;
    }
    if (strncmp(line, "says ", 5) == 0) {
        puts(say(rest));
        return;
    }
    const char *verb = strtok(line, " \n");
    if (verb == NULL) answer(kij_run_devices(till, -2, NULL), "");
    else if (strcmp(verb, "printer") == 0) answer(open_printer(), "ok");
    else if (strcmp(verb, "display") == 0) answer(open_display(), "ok");
    else if (strcmp(verb, "scanner") == 0) answer(open_scanner(), "ok");
    else if (strcmp(verb, "own") == 0) answer(open_own(), "ok");
    else if (strcmp(verb, "did") == 0) puts(own.did);
    else if (strcmp(verb, "there") == 0) puts(set_there());
    else if (strcmp(verb, "reads") == 0) puts(read_code());
    else if (strcmp(verb, "calls") == 0) puts((own.calls = true) ? "ok" : "");
    else if (strcmp(verb, "run") == 0) run();
    else if (strcmp(verb, "state") == 0) state();
    else if (strcmp(verb, "why") == 0) why();
    else if (strcmp(verb, "print") == 0) answer(print(false), "ok");
    else if (strcmp(verb, "later") == 0) answer(print(true), "ok");
    else if (strcmp(verb, "reason") == 0) puts(reason());
    else if (strcmp(verb, "clear") == 0) answer(kij_printer_clear_output(printer), "ok");
    else if (strcmp(verb, "release") == 0) answer(kij_control_release(printer), "ok");
    else if (strcmp(verb, "close") == 0) puts(give_back());
    else if (strcmp(verb, "reply") == 0) reply();
    else if (strcmp(verb, "drop") == 0) drop();
    else if (strcmp(verb, "swap") == 0) puts(swap());
    else if (strcmp(verb, "given") == 0) printf("%d\n", own.given_up);
    else if (strcmp(verb, "host") == 0) answer(kij_host(till, word()), "ok");
    else if (strcmp(verb, "tear") == 0) answer(kij_tear_off(till, word()), "ok");
    else if (strcmp(verb, "attach") == 0) answer(attach(), "ok");
    else if (strcmp(verb, "detach") == 0) answer(kij_detach(till, word()), "ok");
    else if (strcmp(verb, "order") == 0) order();
    else if (strcmp(verb, "totals") == 0) answer(open_totals(), "ok");
    else if (strcmp(verb, "migrate") == 0) answer(kij_migrate(word()), "ok");
#ifdef HOST_HAS_HEAP
    else if (strcmp(verb, "memory") == 0) {
        long from = number(), count = number();
        /* This is the answer, for which there is memory. */
        puts("ok");
        heap_refuses_some(from, count);
    }
#endif
    else printf("not understood\n");
}

/* The text of a file, or null. */
static char *text_of(const char *path) {
    static char text[10000];
    FILE *file = fopen(path, "rb");
    if (file == NULL) return NULL;
    text[fread(text, 1, sizeof text - 1, file)] = 0;
    fclose(file);
    return text;
}

/* What the calls answer by which a program begins: of a profile, of a file that isn't there, and of tills. */
static int begin(const char *path) {
    kij_mistake mistake;
    size_t count;
    uint64_t place;
    answer(kij_profile_mistake(NULL, &mistake), "ok");
    answer(kij_devices(NULL, NULL, 0, &count), "ok");
    answer(kij_files(path, NULL, 0, &count, &place), "ok");
    answer(kij_backup(path, path), "ok");
    answer(kij_migrate(path), "ok");
    answer(kij_open(NULL, NULL, KIJ_EXISTING, &till), "ok");
    answer(kij_open(NULL, path, KIJ_CREATE, &till), "ok");
    return 0;
}

int main(int count, char **words) {
    static char line[300000];
    if (count < 2 || count > 3) {
        fprintf(stderr, "Usage: host PROFILE [TOTALS], or host begin FILE\n");
        return 2;
    }
    if (count == 3 && strcmp(words[1], "begin") == 0) return begin(words[2]);
    const char *totals = count > 2 ? words[2] : NULL;
    kij_result result = kij_open(text_of(words[1]), totals, totals == NULL ? KIJ_EXISTING : KIJ_CREATE, &till);
    if (result.code != KIJ_OK) {
        fprintf(stderr, "%s\n", kij_strerror(result));
        return 1;
    }
    while (fgets(line, sizeof line, stdin) != NULL) {
        obey(line);
        fflush(stdout);
    }
    bool is_own = own.did[0] != 0;
    kij_close(till);
    return is_own && !own.has_ended;
}
