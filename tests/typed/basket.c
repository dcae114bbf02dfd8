/* Tries the sale of examples/sale.c with a code that no article has, and with more articles than the basket takes. It
   prints what the customer sees. */
#define main sells_as_usual
#include "../../examples/sale.c"
#undef main

/* Scans a code, and prints what the display shows. */
static void shows(sale *self, const char *code) {
    kij_display_view view;
    scan(self, code);
    need(kij_pump(self->scanner, heard_scanner, self));
    need(kij_show_display(self->till, "display", &view));
    printf("%.*s\n", (int)view.size, (const char *)view.characters);
}

int main(void) {
    sale self = {NULL, NULL, NULL, NULL, {{NULL, NULL, 0}}, 0};
    need(kij_open(PROFILE("2"), NULL, KIJ_EXISTING, &self.till));
    need(kij_start(self.till, KIJ_SCANNER, "scanner", KIJ_CLAIMED, &self.scanner));
    need(kij_start(self.till, KIJ_LINE_DISPLAY, "display", KIJ_CLAIMED, &self.display));
    need(kij_set_bool(self.scanner, KIJ_PROP_DECODE_DATA, true));
    need(kij_set_bool(self.scanner, KIJ_PROP_DATA_EVENT_ENABLED, true));
    shows(&self, "9");
    for (int count = 0; count < 9; count++) shows(&self, "4006398");
    kij_close(self.till);
    return 0;
}
