/* What simulated devices are physically. */
#include "kij_internal.h"
#include <string.h>

static kij_result plain(int code) { return kij_internal_result(code, 0, KIJ_NO_CATEGORY); }

/* Cuts off what stands before a byte or the end, and returns it. */
static char *cut(char **text, char at) {
    char *word = *text;
    const char ends[2] = {at, 0};
    *text += strcspn(word, ends);
    if (**text != 0) *(*text)++ = 0;
    return word;
}

/* Asks what a device is; the till's answer isn't to be kept by anyone else. */
static kij_result show(kij_till *till, const char *device, char **text) {
    char *value = NULL;
    kij_word name;
    if (!kij_internal_is_name(device, &name)) return plain(KIJ_BAD_ARGUMENT);
    int code = kij_internal_enter(till);
    if (code != KIJ_OK) return plain(code);
    code = kij_internal_run(till, KIJ_VERB_SHOW, &name, NULL, NULL, 0);
    kij_result result = code == KIJ_OK ? kij_internal_answer(till, KIJ_NO_CATEGORY, &value) : plain(code);
    kij_internal_leave(till);
    *text = value;
    return result;
}

kij_result kij_show(kij_till *till, const char *device, const char **text) {
    char *value;
    if (text == NULL) return plain(KIJ_BAD_ARGUMENT);
    kij_result result = show(till, device, &value);
    if (result.code == KIJ_OK) *text = value;
    return result;
}

kij_result kij_show_drawer(kij_till *till, const char *device, bool *is_open) {
    char *text;
    if (is_open == NULL) return plain(KIJ_BAD_ARGUMENT);
    kij_result result = show(till, device, &text);
    if (result.code != KIJ_OK) return result;
    if (strcmp(text, "open") != 0 && strcmp(text, "closed") != 0) return plain(KIJ_WRONG_TYPE);
    *is_open = strcmp(text, "open") == 0;
    return result;
}

kij_result kij_show_display(kij_till *till, const char *device, kij_display_view *view) {
    char *text;
    size_t size;
    if (view == NULL) return plain(KIJ_BAD_ARGUMENT);
    kij_result result = show(till, device, &text);
    if (result.code != KIJ_OK) return result;
    char *characters = cut(&text, ' ');
    if (*text == 0 || strchr(text, ' ') != NULL || !kij_internal_read_bytes(characters, strlen(characters), &size))
        return plain(KIJ_WRONG_TYPE);
    view->characters = (const uint8_t *)characters;
    view->size = size;
    view->attributes = text;
    return result;
}

/* Reads CHARACTERS:BOLD. */
static bool is_line(char *text, kij_printed *printed) {
    char *characters = cut(&text, ':');
    printed->characters = (const uint8_t *)characters;
    printed->bold = strcmp(text, "-") == 0 ? "" : text;
    return kij_internal_read_bytes(characters, strlen(characters), &printed->size);
}

bool kij_next_printed(kij_printer_view *view, kij_printed *printed) {
    int64_t percentage = 0;
    if (view == NULL || printed == NULL || *view->rest == 0) return false;
    memset(printed, 0, sizeof *printed);
    char *text = cut(&view->rest, ' ');
    char *kind = cut(&text, ':');
    if (*kind != 'x') {
        printed->alignment = *kind;
        return is_line(text, printed);
    }
    printed->kind = KIJ_PRINTED_CUT;
    if (!kij_internal_read_number(&text, &percentage)) return false;
    printed->percentage = (int)percentage;
    return true;
}

kij_result kij_show_printer(kij_till *till, const char *device, kij_printer_view *view) {
    char *text;
    kij_printer_view found;
    if (view == NULL) return plain(KIJ_BAD_ARGUMENT);
    kij_result result = show(till, device, &text);
    if (result.code != KIJ_OK) return result;
    memset(&found, 0, sizeof found);
    found.is_cover_open = strcmp(cut(&text, ' '), "open") == 0;
    if (!kij_internal_read_number(&text, &found.lines)) return plain(KIJ_WRONG_TYPE);
    char *buffer = cut(&text, ' ');
    if (strchr(buffer, ':') == NULL || !is_line(buffer, &found.buffer)) return plain(KIJ_WRONG_TYPE);
    found.rest = text;
    *view = found;
    return result;
}
