/* The devices' side of a till: inputs, work, the exchange of peripherals, and orders for devices of the host's. */
#include "kij_hardware.h"
#include <string.h>

static kij_result plain(int code) { return kij_internal_result(code, 0, KIJ_NO_CATEGORY); }

/* Begins a call on a device: the name has to be one, since it becomes a word of a line. */
static int begin(kij_till *till, const char *device, kij_word *name) {
    return kij_internal_is_name(device, name) ? kij_internal_enter(till) : KIJ_BAD_ARGUMENT;
}

/* Carries out `VERB DEVICE WORD ARGUMENT ..`, which returns nothing. */
static kij_result ask(kij_till *till, kij_verb verb, const char *device, const kij_word *word,
                      const kij_argument *arguments, size_t count) {
    char *value;
    kij_word name;
    int code = begin(till, device, &name);
    if (code != KIJ_OK) return plain(code);
    code = kij_internal_run(till, verb, &name, word, arguments, count);
    kij_result result = code == KIJ_OK ? kij_internal_answer(till, KIJ_NO_CATEGORY, &value) : plain(code);
    if (verb == KIJ_VERB_ATTACH && (result.code == KIJ_OK || result.code == KIJ_NO_ANSWER))
        kij_internal_drive_again(till, name.text + 1, name.size - 1);
    kij_internal_leave(till);
    return result;
}

kij_result kij_input_drawer(kij_till *till, const char *device, bool is_open) {
    static const kij_word words[] = {KIJ_WORD(" closed"), KIJ_WORD(" open")};
    return ask(till, KIJ_VERB_INPUT, device, &words[is_open], NULL, 0);
}

kij_result kij_input_scan(kij_till *till, const char *device, int64_t type, const void *data, size_t data_size,
                          const void *label, size_t label_size) {
    static const kij_word word = KIJ_WORD(" scan");
    kij_argument arguments[3];
    if (type < 0) return plain(KIJ_BAD_ARGUMENT);
    arguments[0] = kij_internal_number(type);
    arguments[1] = kij_internal_bytes(data, data_size);
    arguments[2] = kij_internal_bytes(label, label_size);
    return ask(till, KIJ_VERB_INPUT, device, &word, arguments, 3);
}

kij_result kij_input_scan_fault(kij_till *till, const char *device) {
    static const kij_word word = KIJ_WORD(" fault");
    return ask(till, KIJ_VERB_INPUT, device, &word, NULL, 0);
}

kij_result kij_input_cover(kij_till *till, const char *device, bool is_open) {
    static const kij_word words[] = {KIJ_WORD(" cover closed"), KIJ_WORD(" cover open")};
    return ask(till, KIJ_VERB_INPUT, device, &words[is_open], NULL, 0);
}

kij_result kij_input_paper(kij_till *till, const char *device, int64_t lines) {
    static const kij_word word = KIJ_WORD(" paper");
    kij_argument argument = kij_internal_number(lines);
    return lines < 0 ? plain(KIJ_BAD_ARGUMENT) : ask(till, KIJ_VERB_INPUT, device, &word, &argument, 1);
}

kij_result kij_input_power(kij_till *till, const char *device, bool is_on) {
    static const kij_word words[] = {KIJ_WORD(" power off"), KIJ_WORD(" power on")};
    return ask(till, KIJ_VERB_INPUT, device, &words[is_on], NULL, 0);
}

kij_result kij_attach(kij_till *till, const char *device, int64_t spare) {
    kij_argument argument = kij_internal_number(spare);
    return spare < 0 ? plain(KIJ_BAD_ARGUMENT) : ask(till, KIJ_VERB_ATTACH, device, NULL, &argument, 1);
}

kij_result kij_detach(kij_till *till, const char *device) { return ask(till, KIJ_VERB_DETACH, device, NULL, NULL, 0); }

/* Reads `idle`, `done ID` and `failed CODE EXTENDED`. */
static bool is_read(char *text, kij_work_report *report) {
    int64_t code = 0, extended = 0;
    if (strcmp(text, "idle") == 0) return true;
    if (strncmp(text, "done ", 5) == 0) {
        text += 5;
        report->kind = KIJ_WORK_DONE;
        return kij_internal_read_number(&text, &report->output_id) && *text == 0;
    }
    if (strncmp(text, "failed ", 7) != 0) return false;
    text += 7;
    report->kind = KIJ_WORK_FAILED;
    if (!kij_internal_read_number(&text, &code) || !kij_internal_read_number(&text, &extended) || *text != 0)
        return false;
    report->error = kij_internal_result((int)code, (int)extended, KIJ_POS_PRINTER);
    return true;
}

kij_result kij_work(kij_till *till, const char *device, kij_work_report *report) {
    char *text;
    kij_word name;
    if (report == NULL) return plain(KIJ_BAD_ARGUMENT);
    int code = begin(till, device, &name);
    if (code != KIJ_OK) return plain(code);
    code = kij_internal_run(till, KIJ_VERB_WORK, &name, NULL, NULL, 0);
    kij_result result = plain(code);
    kij_work_report found;
    memset(&found, 0, sizeof found);
    if (code == KIJ_OK && is_read(till->text, &found)) *report = found;
    else if (code == KIJ_OK) {
        result = kij_internal_answer(till, KIJ_NO_CATEGORY, &text);
        if (result.code == KIJ_OK) result.code = KIJ_BAD_ANSWER;
    }
    kij_internal_leave(till);
    return result;
}

/* What the library's code means to who names a device. */
static int code_of(uint32_t code) {
    switch (code) {
    case KIJOLVAR_OK: return KIJ_OK;
    case KIJOLVAR_NO_MEMORY: return KIJ_NO_MEMORY;
    case KIJOLVAR_NO_DEVICE: return KIJ_NO_DEVICE;
    default: return KIJ_BAD_ANSWER;
    }
}

kij_result kij_host(kij_till *till, const char *device) {
    kij_word name;
    int code = begin(till, device, &name);
    if (code != KIJ_OK) return plain(code);
    uint32_t found = kijolvar_host(till->inner, &till->inner.at, (const uint8_t *)name.text + 1, name.size - 1);
    kij_internal_leave(till);
    return plain(code_of(found));
}

kij_result kij_tear_off(kij_till *till, const char *device) {
    kij_word name;
    int code = begin(till, device, &name);
    if (code != KIJ_OK) return plain(code);
    uint32_t found = kijolvar_tear_off(till->inner, &till->inner.at, (const uint8_t *)name.text + 1, name.size - 1);
    kij_internal_leave(till);
    return plain(code_of(found));
}

/* Cuts the next word off a text. */
static char *word_from(char **text) {
    char *word = *text;
    *text += strcspn(word, " ");
    if (**text == ' ') *(*text)++ = 0;
    return word;
}

static bool is_int(char **text, int *number) {
    int64_t found;
    if (!kij_internal_read_number(text, &found) || found < INT32_MIN || found > INT32_MAX) return false;
    *number = (int)found;
    return true;
}

static bool is_data(char *word, kij_order *order) {
    order->data = (const uint8_t *)word;
    return kij_internal_read_bytes(word, strlen(word), &order->size);
}

bool kij_internal_is_order(char *text, kij_order *order) {
    memset(order, 0, sizeof *order);
    order->device = word_from(&text);
    const char *word = word_from(&text);
    if (strcmp(word, "openDrawer") == 0) order->kind = KIJ_ORDER_OPEN_DRAWER;
    else if (strcmp(word, "clearText") == 0) order->kind = KIJ_ORDER_CLEAR_TEXT;
    else if (strcmp(word, "print") == 0) {
        order->kind = KIJ_ORDER_PRINT;
        return is_data(word_from(&text), order) && *text == 0;
    } else if (strcmp(word, "cutPaper") == 0) {
        order->kind = KIJ_ORDER_CUT_PAPER;
        return is_int(&text, &order->percentage) && *text == 0;
    } else if (strcmp(word, "scrollText") == 0) {
        order->kind = KIJ_ORDER_SCROLL_TEXT;
        return is_int(&text, &order->direction) && is_int(&text, &order->units) && *text == 0;
    } else if (strcmp(word, "displayTextAt") == 0) {
        order->kind = KIJ_ORDER_DISPLAY_TEXT_AT;
        if (!is_int(&text, &order->row) || !is_int(&text, &order->column)) return false;
        char *data = word_from(&text);
        return is_int(&text, &order->attribute) && *text == 0 && is_data(data, order);
    }
    return order->kind != KIJ_NO_ORDER && *text == 0;
}

/* Takes an order's line out, into the till's answer: the library's code. */
static uint32_t take_order(kij_till *till) {
    size_t needed = 0;
    uint32_t code = kij_internal_kept_order(till);
    if (code != KIJOLVAR_OK) return code;
    code = kijolvar_next_order(till->inner, &till->inner.at, (uint8_t *)till->text, till->text_room - 1, &needed);
    if (code == KIJOLVAR_SHORT) {
        if (!kij_internal_text(till, needed + 1)) return KIJOLVAR_NO_MEMORY;
        code = kijolvar_next_order(till->inner, &till->inner.at, (uint8_t *)till->text, needed, &needed);
    }
    if (code == KIJOLVAR_ORDER) till->text[needed] = 0;
    return code;
}

kij_result kij_next_order(kij_till *till, kij_order *order) {
    if (order == NULL) return plain(KIJ_BAD_ARGUMENT);
    int code = kij_internal_enter(till);
    if (code != KIJ_OK) return plain(code);
    kij_order found;
    memset(&found, 0, sizeof found);
    /* A line that is held has the order of a driven device, which is no order of the host's. */
    if (till->is_holding) kij_internal_give_up(till);
    switch (till->is_holding ? (uint32_t)KIJOLVAR_NO_MEMORY : take_order(till)) {
    case KIJOLVAR_OK: break;
    case KIJOLVAR_ORDER: code = kij_internal_is_order(till->text, &found) ? KIJ_OK : KIJ_BAD_ANSWER; break;
    case KIJOLVAR_NO_MEMORY: code = KIJ_NO_MEMORY; break;
    case KIJOLVAR_DISK_FAILED: code = KIJ_DISK_FAILED; break;
    default: code = KIJ_BAD_ANSWER;
    }
    if (code == KIJ_OK) *order = found;
    kij_internal_leave(till);
    return plain(code);
}
