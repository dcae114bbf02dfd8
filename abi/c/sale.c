/* Rings up a sale by typed calls and by lines of the text interface: a code is scanned, shown, printed and added to the
   totals, and the drawer opens; then another till finds the totals. Usage: sale FILE, which is created if it is
   missing. */
#include "kij.h"
#include <stdio.h>
#include <string.h>

/* Carries out a line, and prints its answer: a code, and what is behind `ok`. */
static void tell(kij_till *till, const char *line) {
    const char *answer = "", *code = "";
    kij_result result = kij_carry_out(till, line, KIJ_ZERO_ENDED, &answer);
    if (result.code != KIJ_OK) {
        printf("%s: %s\n", line, kij_code_name(result.code));
        return;
    }
    if (strncmp(answer, "ok", 2) == 0) {
        code = "0";
        answer += 2;
    } else if (strncmp(answer, "err ", 4) == 0) {
        answer += 4;
    }
    printf("%s: %s%.*s\n", line, code, (int)strcspn(answer, "\n"), answer);
}

/* A control by its name, opened, claimed and enabled: its code. */
static int control_code(kij_till *till, kij_category category, const char *name, const char *device,
                        kij_control **control) {
    kij_result result = kij_new(till, category, name, control);
    if (result.code == KIJ_OK) result = kij_control_open(*control, device);
    if (result.code == KIJ_OK) result = kij_control_claim(*control, 0);
    if (result.code == KIJ_OK) result = kij_set_bool(*control, KIJ_PROP_DEVICE_ENABLED, true);
    return result.code;
}

static kij_reply heard(const kij_event *event, void *with) {
    (void)with;
    if (event->kind == KIJ_DATA_EVENT) printf("%s: DataEvent 0\n", kij_name(event->control));
    if (event->kind == KIJ_STATUS_UPDATE_EVENT)
        printf("%s: StatusUpdateEvent %d\n", kij_name(event->control), event->status);
    return KIJ_ER_DEFAULT;
}

/* Prints the events of a control, or why that failed. */
static void pump(kij_control *control) {
    kij_result result = kij_pump(control, heard, NULL);
    if (result.code != KIJ_OK) printf("events: %s\n", kij_code_name(result.code));
}

static void sell(kij_till *till) {
    static const struct {
        kij_category category;
        const char *name, *device;
    } controls[] = {
        {KIJ_CASH_DRAWER, "drawer", "d1"},  {KIJ_SCANNER, "scanner", "s1"},    {KIJ_LINE_DISPLAY, "display", "p1"},
        {KIJ_POS_PRINTER, "printer", "r1"}, {KIJ_HARD_TOTALS, "totals", "t1"},
    };
    /* A control that couldn't be made stays null, which each call refuses. */
    kij_control *made[5] = {NULL, NULL, NULL, NULL, NULL};
    printf("controls:");
    for (size_t place = 0; place < 5; place++)
        printf(" %d", control_code(till, controls[place].category, controls[place].name, controls[place].device,
                                   &made[place]));
    printf("\n");
    tell(till, "set scanner DataEventEnabled true");
    tell(till, "input s1 scan 104 34303036333831 34303036333831");
    pump(made[1]);
    tell(till, "get scanner ScanData");
    printf("display: %d\n", kij_display_text(made[2], "4.50", KIJ_ZERO_ENDED, KIJ_DISP_DT_NORMAL).code);
    printf("print: %d\n", kij_printer_print(made[3], KIJ_PTR_S_RECEIPT, "Bread 4.50\n", KIJ_ZERO_ENDED).code);
    tell(till, "call printer cutPaper 100");
    printf("drawer: %d\n", kij_drawer_open(made[0]).code);
    pump(made[0]);
    tell(till, "call totals create 64617973616c6573 4 false");
    tell(till, "call totals write 1 0 000001c2");
    tell(till, "show r1");
    tell(till, "show p1");
}

static void look(kij_till *till) {
    kij_control *totals;
    printf("totals: %d\n", control_code(till, KIJ_HARD_TOTALS, "totals", "t1", &totals));
    tell(till, "call totals find 64617973616c6573");
    tell(till, "call totals read 1 0 4");
}

int main(int count, char **words) {
    static void (*const parts[])(kij_till *) = {sell, look};
    if (count != 2) return fprintf(stderr, "usage: sale FILE\n"), 2;
    for (size_t part = 0; part < 2; part++) {
        kij_till *till;
        kij_result result = kij_open(NULL, words[1], KIJ_CREATE, &till);
        if (result.code != KIJ_OK) return fprintf(stderr, "%s: %s\n", words[1], kij_strerror(result)), 1;
        parts[part](till);
        kij_close(till);
    }
    return 0;
}
