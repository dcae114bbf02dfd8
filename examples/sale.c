/* Rings up a sale: scan, show, pay, print, and the day's totals in a file. Usage: sale FILE

   The file is created if it is missing. sale.py and sale.rs are the same sale. */
#include <kij.h>
#include <stdio.h>
#include <stdlib.h>
#include <string.h>

#define PROFILE(rows)                                                                                                  \
    "device = [\n"                                                                                                     \
    "  { name = \"drawer\", category = \"CashDrawer\" },\n"                                                            \
    "  { name = \"scanner\", category = \"Scanner\" },\n"                                                              \
    "  { name = \"display\", category = \"LineDisplay\", rows = " rows ", columns = 20 },\n"                           \
    "  { name = \"printer\", category = \"POSPrinter\", chars = 20, lines = 2, near = 1 },\n"                          \
    "  { name = \"totals\", category = \"HardTotals\" },\n"                                                            \
    "]\n"

typedef struct article {
    const char *code;
    const char *name;
    long cents;
} article;

static const article articles[] = {{"4006381", "Bread", 450}, {"4006398", "Milk", 139}};

/* A sale: the till and its controls, and what the customer buys. */
typedef struct sale {
    kij_till *till;
    kij_control *scanner, *display, *printer;
    article basket[8];
    size_t count;
} sale;

/* Ends the program if a call failed. */
static void need(kij_result result) {
    if (result.code == KIJ_OK) return;
    fprintf(stderr, "%s: %s\n", kij_code_name(result.code), kij_strerror(result));
    exit(1);
}

static long total(const sale *self) {
    long cents = 0;
    for (size_t place = 0; place < self->count; place++) cents += self->basket[place].cents;
    return cents;
}

/* Writes a row of 20 characters and a 0 byte. */
static char *row(char *text, const char *name, long cents) {
    char wide[64];
    snprintf(wide, sizeof wide, "%-13.13s%4ld.%02ld", name, cents / 100, cents % 100);
    wide[20] = 0;
    return strcpy(text, wide);
}

/* Returns the article of a code, or null. */
static const article *article_of(const uint8_t *code, size_t size) {
    for (size_t place = 0; place < sizeof articles / sizeof articles[0]; place++)
        if (strlen(articles[place].code) == size && memcmp(articles[place].code, code, size) == 0)
            return &articles[place];
    return NULL;
}

/* Puts an article into the basket, and writes the row that the customer sees of it. */
static void buy(sale *self, const article *found, char *text) {
    bool is_full = self->count == sizeof self->basket / sizeof self->basket[0];
    if (found == NULL || is_full) {
        sprintf(text, "%-20s", found == NULL ? "Unknown article" : "The basket is full");
        return;
    }
    self->basket[self->count++] = *found;
    row(text, found->name, found->cents);
}

/* Hears the scanner. A scan that fails drops those before it, and the article is scanned again. */
static kij_reply heard_scanner(const kij_event *event, void *with) {
    sale *self = (sale *)with;
    const uint8_t *label;
    char text[41];
    size_t size;
    if (event->kind == KIJ_ERROR_EVENT) {
        printf("scanner: ErrorEvent %d %d %d: clear\n", event->error.code, event->error.extended, event->locus);
        return KIJ_ER_CLEAR;
    }
    need(kij_get_bytes(self->scanner, KIJ_PROP_SCAN_DATA_LABEL, &label, &size));
    buy(self, article_of(label, size), text);
    row(text + 20, "Total", total(self));
    need(kij_display_clear_text(self->display));
    need(kij_display_text(self->display, text, KIJ_ZERO_ENDED, KIJ_DISP_DT_NORMAL));
    need(kij_set_bool(self->scanner, KIJ_PROP_DATA_EVENT_ENABLED, true));
    return KIJ_ER_DEFAULT;
}

static void scan(sale *self, const char *code) {
    need(kij_input_scan(self->till, "scanner", KIJ_SCAN_SDT_EAN13, code, KIJ_ZERO_ENDED, code, KIJ_ZERO_ENDED));
}

static void fill_basket(sale *self) {
    kij_display_view view;
    need(kij_set_bool(self->scanner, KIJ_PROP_DECODE_DATA, true));
    need(kij_set_bool(self->scanner, KIJ_PROP_DATA_EVENT_ENABLED, true));
    scan(self, "4006381");
    need(kij_pump(self->scanner, heard_scanner, self));
    scan(self, "4006398");
    need(kij_input_scan_fault(self->till, "scanner"));
    need(kij_pump(self->scanner, heard_scanner, self));
    scan(self, "4006398");
    need(kij_pump(self->scanner, heard_scanner, self));
    need(kij_show_display(self->till, "display", &view));
    printf("display: %.*s\n", (int)view.size, (const char *)view.characters);
}

static void pay(sale *self) {
    kij_control *drawer;
    kij_event event;
    need(kij_start(self->till, KIJ_CASH_DRAWER, "drawer", KIJ_UNCLAIMED, &drawer));
    need(kij_drawer_open(drawer));
    need(kij_next_event(drawer, &event));
    printf("drawer: StatusUpdateEvent %d\n", event.status);
    kij_discard(drawer);
}

/* Adds to the number in a file of the totals, which is created if it is missing. */
static int64_t file_of(kij_control *totals, const char *name) {
    int64_t handle, size;
    kij_result result = kij_totals_find(totals, name, KIJ_ZERO_ENDED, &handle, &size);
    if (result.code == KIJ_E_NOEXIST) result = kij_totals_create(totals, name, KIJ_ZERO_ENDED, 8, false, &handle);
    need(result);
    return handle;
}

static uint64_t number_in(kij_control *totals, int64_t handle) {
    const uint8_t *data;
    size_t size;
    uint64_t number = 0;
    need(kij_totals_read(totals, handle, 0, 8, &data, &size));
    for (size_t place = 0; place < size; place++) number = number << 8 | data[place];
    return number;
}

static void add(kij_control *totals, int64_t handle, uint64_t more) {
    uint8_t bytes[8];
    uint64_t number = number_in(totals, handle) + more;
    for (int place = 0; place < 8; place++) bytes[place] = (uint8_t)(number >> (56 - 8 * place));
    need(kij_totals_write(totals, handle, 0, bytes, sizeof bytes));
}

/* Adds the sale to the day's totals: both files, or none. */
static void book(sale *self) {
    kij_control *totals;
    need(kij_start(self->till, KIJ_HARD_TOTALS, "totals", KIJ_UNCLAIMED, &totals));
    int64_t sales = file_of(totals, "SALES"), count = file_of(totals, "COUNT");
    need(kij_totals_begin_trans(totals));
    add(totals, sales, (uint64_t)total(self));
    add(totals, count, 1);
    need(kij_totals_commit_trans(totals));
    kij_discard(totals);
}

/* Hears the printer: it is loaded with paper if that runs out, and prints again. */
static kij_reply heard_printer(const kij_event *event, void *with) {
    if (event->kind == KIJ_ERROR_EVENT) {
        printf("printer: ErrorEvent %d %d %d: retry\n", event->error.code, event->error.extended, event->locus);
        need(kij_input_paper(((sale *)with)->till, "printer", 100));
        return KIJ_ER_RETRY;
    }
    if (event->kind == KIJ_STATUS_UPDATE_EVENT) printf("printer: StatusUpdateEvent %d\n", event->status);
    else printf("printer: OutputCompleteEvent %lld\n", (long long)event->output_id);
    return KIJ_ER_DEFAULT;
}

/* Prints the receipt while the sale goes on. */
static void print_receipt(sale *self) {
    char text[512];
    size_t size = 0;
    kij_work_report report;
    kij_printer_view view;
    kij_printed printed;
    for (size_t place = 0; place < self->count; place++, size += 21)
        strcat(row(text + size, self->basket[place].name, self->basket[place].cents), "\n");
    strcat(row(text + size, "Total", total(self)), "\n");
    need(kij_set_bool(self->printer, KIJ_PROP_ASYNC_MODE, true));
    need(kij_printer_print(self->printer, KIJ_PTR_S_RECEIPT, text, KIJ_ZERO_ENDED));
    do {
        need(kij_work(self->till, "printer", &report));
        need(kij_pump(self->printer, heard_printer, self));
    } while (report.kind != KIJ_IDLE);
    need(kij_show_printer(self->till, "printer", &view));
    while (kij_next_printed(&view, &printed))
        printf("receipt: %.*s\n", (int)printed.size, (const char *)printed.characters);
}

static void sell(kij_till *till) {
    sale self = {till, NULL, NULL, NULL, {{NULL, NULL, 0}}, 0};
    need(kij_start(till, KIJ_SCANNER, "scanner", KIJ_CLAIMED, &self.scanner));
    need(kij_start(till, KIJ_LINE_DISPLAY, "display", KIJ_CLAIMED, &self.display));
    need(kij_start(till, KIJ_POS_PRINTER, "printer", KIJ_CLAIMED, &self.printer));
    fill_basket(&self);
    pay(&self);
    book(&self);
    print_receipt(&self);
    need(kij_input_cover(till, "printer", true));
    kij_result result = kij_printer_print_immediate(self.printer, KIJ_PTR_S_RECEIPT, "Thank you", KIJ_ZERO_ENDED);
    printf("print_immediate: %d %d\n", result.code, result.extended);
}

/* Prints each file of the totals. */
static void report(kij_till *till) {
    kij_control *totals;
    const uint8_t *found;
    size_t size;
    int64_t count, handle, bytes;
    char name[11];
    need(kij_start(till, KIJ_HARD_TOTALS, "totals", KIJ_UNCLAIMED, &totals));
    need(kij_get_int(totals, KIJ_PROP_NUMBER_OF_FILES, &count));
    for (int64_t index = 0; index < count; index++) {
        need(kij_totals_find_by_index(totals, index, &found, &size));
        snprintf(name, sizeof name, "%.*s", (int)size, (const char *)found);
        need(kij_totals_find(totals, name, KIJ_ZERO_ENDED, &handle, &bytes));
        printf("totals: %s %llu\n", name, (unsigned long long)number_in(totals, handle));
    }
}

int main(int count, char **words) {
    kij_till *till;
    kij_mistake mistake;
    if (count != 2) return fprintf(stderr, "usage: sale FILE\n"), 2;
    if (kij_profile_mistake(PROFILE("9"), &mistake).code == KIJ_BAD_PROFILE) printf("profile: %s\n", mistake.reason);
    need(kij_open(PROFILE("2"), words[1], KIJ_CREATE, &till));
    sell(till);
    kij_close(till);
    need(kij_open(PROFILE("2"), words[1], KIJ_EXISTING, &till));
    report(till);
    kij_close(till);
    return 0;
}
