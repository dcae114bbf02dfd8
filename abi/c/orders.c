/* Devices of the host's own: a drawer, a display and a printer whose orders are given to the host, each once and in
   order, while those of other devices are kept from it. An order that there is no room for stays. */
#include "kij.h"
#include "kijolvar.h"
#include <stdio.h>
#include <stdlib.h>
#include <string.h>

static void wants(const char *what, bool holds) {
    if (!holds) exit(printf("failed: %s\n", what));
}

static void succeeds(const char *what, kij_result result) { wants(what, result.code == KIJ_OK); }

/* The controls of a till: a drawer, a display and a printer. */
typedef struct shop {
    kij_till *till;
    kij_control *drawer, *display, *printer;
} shop;

static const kij_order orders[] = {
    {KIJ_ORDER_OPEN_DRAWER, "d1", NULL, 0, 0, 0, 0, 0, 0, 0},
    {KIJ_ORDER_DISPLAY_TEXT_AT, "p1", (const uint8_t *)"4.50", 4, 0, 0, 2, 0, 0, 0},
    {KIJ_ORDER_SCROLL_TEXT, "p1", NULL, 0, 0, 0, 0, 3, 1, 0},
    {KIJ_ORDER_CLEAR_TEXT, "p1", NULL, 0, 0, 0, 0, 0, 0, 0},
    {KIJ_ORDER_PRINT, "r1", (const uint8_t *)"Bread\n", 6, 0, 0, 0, 0, 0, 0},
    {KIJ_ORDER_CUT_PAPER, "r1", NULL, 0, 0, 0, 0, 0, 0, 100},
};

/* Orders something of each device. */
static void uses(const shop *self) {
    succeeds("the drawer", kij_drawer_open(self->drawer));
    succeeds("a text", kij_display_text(self->display, "4.50", 4, KIJ_DISP_DT_REVERSE));
    succeeds("a scroll", kij_display_scroll_text(self->display, KIJ_DISP_ST_LEFT, 1));
    succeeds("no text", kij_display_clear_text(self->display));
    succeeds("a line", kij_printer_print(self->printer, KIJ_PTR_S_RECEIPT, "Bread\n", KIJ_ZERO_ENDED));
    succeeds("a cut", kij_printer_cut_paper(self->printer, KIJ_PTR_CP_FULLCUT));
}

static bool is_same(const kij_order *a, const kij_order *b) {
    return a->kind == b->kind && strcmp(a->device, b->device) == 0 && a->size == b->size &&
           (a->size == 0 || memcmp(a->data, b->data, a->size) == 0) && a->row == b->row && a->column == b->column &&
           a->attribute == b->attribute && a->direction == b->direction && a->units == b->units &&
           a->percentage == b->percentage;
}

/* Each order comes once, in order, and then none. */
static void comes(const shop *self, size_t count) {
    kij_order order;
    for (size_t place = 0; place < count; place++) {
        succeeds("an order", kij_next_order(self->till, &order));
        wants("the next one", is_same(&order, &orders[place]));
    }
    succeeds("no more", kij_next_order(self->till, &order));
    wants("none", order.kind == KIJ_NO_ORDER && order.device == NULL);
}

/* By the text interface: an order that there is no room for stays, and nothing is written; one that fits has no byte
   behind it written. */
static void is_short(void) {
    static const char wanted[] = "d1 openDrawer";
    static const char lines[] = "new d CashDrawer\nopen d d1\nset d DeviceEnabled true\ncall d openDrawer";
    const size_t whole = strlen(wanted);
    kijolvar_till till = {NULL};
    uint8_t text[64];
    size_t needed = 77;
    wants("a till", kijolvar_open(NULL, 0, &till.at) == KIJOLVAR_OK);
    wants("a drawer", kijolvar_host(till, &till.at, (const uint8_t *)"d1", 2) == KIJOLVAR_OK);
    wants("lines", kijolvar_carry_out(till, &till.at, (const uint8_t *)lines, strlen(lines), text, sizeof text,
                                      &needed) == KIJOLVAR_OK);
    memset(text, 'x', sizeof text);
    for (size_t room = 0; room < whole; room++) {
        wants("short", kijolvar_next_order(till, &till.at, text, room, &needed) == KIJOLVAR_SHORT);
        wants("its length", needed == whole && text[0] == 'x' && text[whole - 1] == 'x');
    }
    wants("whole", kijolvar_next_order(till, &till.at, text, whole, &needed) == KIJOLVAR_ORDER);
    wants("and no byte more", needed == whole && memcmp(text, wanted, whole) == 0 && text[whole] == 'x');
    wants("then none", kijolvar_next_order(till, &till.at, text, whole, &needed) == KIJOLVAR_OK && needed == 0);
    kijolvar_close(till);
}

int main(void) {
    static const char *const none[] = {"d", "d11", "D1", "t1", "nobody"};
    shop self;
    succeeds("a till", kij_open(NULL, NULL, KIJ_EXISTING, &self.till));
    succeeds("a drawer", kij_start(self.till, KIJ_CASH_DRAWER, "d1", KIJ_CLAIMED, &self.drawer));
    succeeds("a display", kij_start(self.till, KIJ_LINE_DISPLAY, "p1", KIJ_CLAIMED, &self.display));
    succeeds("a printer", kij_start(self.till, KIJ_POS_PRINTER, "r1", KIJ_CLAIMED, &self.printer));
    succeeds("paper", kij_input_paper(self.till, "r1", 100));
    comes(&self, 0);
    uses(&self);
    comes(&self, 0);
    for (size_t place = 0; place < sizeof none / sizeof none[0]; place++)
        wants("no such device", kij_host(self.till, none[place]).code == KIJ_NO_DEVICE);
    wants("no name", kij_host(self.till, "").code == KIJ_BAD_ARGUMENT);
    uses(&self);
    comes(&self, 0);
    succeeds("a drawer of the host's", kij_host(self.till, "d1"));
    succeeds("once more", kij_host(self.till, "d1"));
    uses(&self);
    comes(&self, 1);
    succeeds("a display", kij_host(self.till, "p1"));
    succeeds("a printer", kij_host(self.till, "r1"));
    uses(&self);
    comes(&self, sizeof orders / sizeof orders[0]);
    succeeds("an open cover", kij_input_cover(self.till, "r1", true));
    wants("nothing is printed then", kij_printer_print(self.printer, KIJ_PTR_S_RECEIPT, "A", 1).code == KIJ_E_EXTENDED);
    comes(&self, 0);
    kij_close(self.till);
    is_short();
    printf("as they should be\n");
    return 0;
}
