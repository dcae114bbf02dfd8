/* Tills and their controls. */
#ifndef _GNU_SOURCE
#define _GNU_SOURCE
#endif
#include "kij_hardware.h"
#include <stdio.h>
#include <stdlib.h>
#include <string.h>
#include <sys/file.h>
#include <unistd.h>

int kij_version(void) { return KIJ_VERSION; }

const char *kij_release(void) { return KIJ_RELEASE; }

/* Frees what a till has, whose library's till isn't there or is closed. */
static void free_till(kij_till *till) {
    while (till->first != NULL) {
        kij_control *next = till->first->next;
        free(till->first);
        till->first = next;
    }
    free(till->errand);
    free(till->line);
    free(till->text);
    free(till);
}

static kij_result plain(int code) { return kij_internal_result(code, 0, KIJ_NO_CATEGORY); }

/* Unlocks the file and closes it. A process that was forked meanwhile has it too, and would keep it locked; but it
   doesn't unlock it itself. */
static void close_file(const kij_till *till) {
    if (till->file < 0) return;
    if (till->process == getpid()) (void)flock(till->file, LOCK_UN);
    close(till->file);
}

kij_result kij_open(const char *profile, const char *totals, int flags, kij_till **till) {
    if (till == NULL || flags < KIJ_EXISTING || flags > KIJ_CREATE_NEW) return plain(KIJ_BAD_ARGUMENT);
    /* A path that is missing by mistake: totals in memory wouldn't outlive the till. */
    if (totals == NULL && flags != KIJ_EXISTING) return plain(KIJ_BAD_ARGUMENT);
    if (kijolvar_version() != KIJOLVAR_VERSION) return plain(KIJ_WRONG_VERSION);
    profile = kij_internal_profile(profile);
    kij_till *made = (kij_till *)calloc(1, sizeof *made);
    if (made == NULL) return plain(KIJ_NO_MEMORY);
    made->file = -1;
    made->process = getpid();
    if (!kij_internal_rooms(made)) {
        free_till(made);
        return plain(KIJ_NO_MEMORY);
    }
    int why = totals == NULL ? 0 : kij_internal_open_file(totals, flags, profile, &made->file);
    if (why == 0) {
        why = kij_internal_open_till(made, profile);
        if (why == 0) {
            *till = made;
            return plain(KIJ_OK);
        }
        close_file(made);
    }
    free_till(made);
    return why < 0 ? plain(-why) : kij_internal_result(KIJ_SYSTEM, why, KIJ_NO_CATEGORY);
}

int kij_disk_error(const kij_till *till) { return till == NULL ? 0 : till->disk_error; }

void kij_close(kij_till *till) {
    if (till == NULL) return;
    /* A driver of the caller's may not call the till while it ends. */
    (void)kij_internal_enter(till);
    kij_internal_end_drives(till);
    kijolvar_close(till->inner);
    close_file(till);
    free_till(till);
}

/* What a line is to the drivers: its orders are of output that waits. Or, if it is carried out: it attaches something
   to a device, it gives up what a printer hasn't printed, or it does that if it delivers the event of an output that
   failed. */
typedef enum effect { NO_EFFECT, WORKS, ATTACHES, GIVES_UP, MAY_GIVE_UP } effect;

/* A word in a line. */
typedef struct line_word {
    const char *at;
    size_t size;
} line_word;

/* Reads the next word of a line. */
static line_word next_word(const char **at, const char *end) {
    line_word word;
    while (*at < end && **at == ' ') (*at)++;
    word.at = *at;
    while (*at < end && **at != ' ') (*at)++;
    word.size = (size_t)(*at - word.at);
    return word;
}

static bool is_word(line_word word, const char *text) {
    return word.size == strlen(text) && memcmp(word.at, text, word.size) == 0;
}

/* What a line is to the drivers, and the name in it. */
static effect effect_of(const char *line, const char *end, line_word *name) {
    line_word verb = next_word(&line, end);
    *name = next_word(&line, end);
    if (name->size == 0) return NO_EFFECT;
    if (is_word(verb, "work")) return WORKS;
    if (is_word(verb, "attach")) return ATTACHES;
    if (is_word(verb, "call") && is_word(next_word(&line, end), "clearOutput")) return GIVES_UP;
    return is_word(verb, "deliver") && is_word(next_word(&line, end), "clear") ? MAY_GIVE_UP : NO_EFFECT;
}

/* How many bytes lines have up to the first one that is something to the drivers, and with it; all of them if there is
   none. One that works on output that waits is alone. */
static size_t effect_end(const char *lines, size_t size, effect *found, line_word *name) {
    const char *at = lines, *end = lines + size;
    *found = NO_EFFECT;
    while (at < end) {
        const char *begin = at;
        const char *feed = (const char *)memchr(at, '\n', (size_t)(end - at));
        const char *last = feed == NULL ? end : feed;
        /* The library drops a carriage return before a line feed. */
        if (feed != NULL && last > at && last[-1] == '\r') last--;
        *found = effect_of(at, last, name);
        at = feed == NULL ? end : feed + 1;
        if (*found == WORKS && begin > lines) {
            *found = NO_EFFECT;
            at = begin;
            break;
        }
        if (*found != NO_EFFECT) break;
    }
    return (size_t)(at - lines);
}

/* Puts the front of an answer before the till's, if there is one. By the code of what is behind it returns that of
   both. */
static int put_before(kij_till *till, kij_buffer *front, int code) {
    if (front->size == 0) return code;
    if (kij_internal_buffer_add(front, till->text, till->text_size + 1)) {
        char *text = till->text;
        till->text = front->bytes;
        till->text_room = front->room;
        till->text_size = front->size - 1;
        front->bytes = text;
    } else {
        if (code == KIJ_OK) code = KIJ_NO_ANSWER;
        till->text_size = 0;
        till->text[0] = 0;
    }
    free(front->bytes);
    return code == KIJ_NO_MEMORY ? (int)KIJ_NO_ANSWER : code;
}

/* Whether the last line was carried out that is something to the drivers, by the code of the lines and their answer.
   What has no answer was. */
static bool has_effect(const kij_till *till, int code, effect what) {
    size_t at = till->text_size;
    if (code != KIJ_OK || at == 0) return code == KIJ_NO_ANSWER;
    do at--;
    while (at > 0 && till->text[at - 1] != '\n');
    const char *answer = till->text + at;
    return what == MAY_GIVE_UP ? kij_internal_is_output_error(answer) : strcmp(answer, "ok\n") == 0;
}

/* The control of a name, or null if lines made it. */
static const kij_control *control_named(const kij_till *till, line_word name) {
    const kij_control *control = till->first;
    while (control != NULL && !is_word(name, kij_name(control))) control = control->next;
    return control;
}

/* Does what a line is to the drivers, if it was carried out, by the code of the lines and their answer. */
static void apply_effect(kij_till *till, int code, effect what, line_word name) {
    if (what == NO_EFFECT || what == WORKS || !has_effect(till, code, what)) return;
    if (what == ATTACHES) kij_internal_drive_again(till, name.at, name.size);
    else kij_internal_forget_orders(till, control_named(till, name));
}

/* Carries out lines: a code of enum kij_code. A driven device that something was attached to is driven again before the
   next line. */
static int carry_out(kij_till *till, const char *lines, size_t size) {
    kij_buffer front = {NULL, 0, 0};
    line_word name = {NULL, 0};
    effect what = NO_EFFECT;
    int code = KIJ_OK;
    for (;;) {
        size_t end = effect_end(lines, size, &what, &name);
        till->is_working = what == WORKS;
        code = kij_internal_carry_out(till, lines, end);
        apply_effect(till, code, what, name);
        lines += end;
        size -= end;
        if (size == 0 || code != KIJ_OK) break;
        if (!kij_internal_buffer_add(&front, till->text, till->text_size)) code = KIJ_NO_ANSWER;
        if (code != KIJ_OK) break;
    }
    return put_before(till, &front, code);
}

kij_result kij_carry_out(kij_till *till, const char *lines, size_t size, const char **answer) {
    if (answer == NULL || (lines == NULL && size != 0)) return plain(KIJ_BAD_ARGUMENT);
    int code = kij_internal_enter(till);
    if (code != KIJ_OK) return plain(code);
    if (lines == NULL) lines = "";
    if (size == KIJ_ZERO_ENDED) size = strlen(lines);
    till->has_opened = till->has_opened || memmem(lines, size, "open ", 5) != NULL;
    code = till->drives == NULL ? kij_internal_carry_out(till, lines, size) : carry_out(till, lines, size);
    if (code == KIJ_OK || code == KIJ_NO_ANSWER) *answer = till->text;
    kij_internal_leave(till);
    return plain(code);
}

/* The word of a category in lines, or null. */
static const kij_word *word_of(kij_category category) {
    static const kij_word words[] = {KIJ_WORD(" CashDrawer"), KIJ_WORD(" Scanner"), KIJ_WORD(" LineDisplay"),
                                     KIJ_WORD(" POSPrinter"), KIJ_WORD(" HardTotals")};
    return category >= KIJ_CASH_DRAWER && category <= KIJ_HARD_TOTALS ? &words[category - 1] : NULL;
}

static bool has_name(const kij_control *control, const kij_word *name) {
    return control->name.size == name->size && memcmp(control->name.text, name->text, name->size) == 0;
}

/* A control of the category that was given back, or null: the one of this name, or any whose name was made up. */
static kij_control *free_control(kij_till *till, kij_category category, const kij_word *name) {
    for (kij_control *control = till->first; control != NULL; control = control->next)
        if (control->is_free && control->category == category &&
            (name == NULL ? !control->is_named : has_name(control, name)))
            return control;
    return NULL;
}

/* Asks the library for a control of this name. */
static kij_result ask_new(kij_till *till, kij_category category, const kij_word *name) {
    char *value;
    int code = kij_internal_run(till, KIJ_VERB_NEW, name, word_of(category), NULL, 0);
    return code == KIJ_OK ? kij_internal_answer(till, category, &value) : kij_internal_result(code, 0, category);
}

/* Makes a name up. */
static void make_name(kij_word *name, unsigned long number) {
    snprintf(name->text, sizeof name->text, " k%lu", number % 1000000000000000UL);
    name->size = strlen(name->text);
}

/* The library's number of a control that it has, by its name, which is written behind a space. */
static int find_number(kij_till *till, const kij_word *name, size_t *number) {
    const uint8_t *bytes = (const uint8_t *)name->text + 1;
    uint32_t code = kijolvar_control(till->inner, &till->inner.at, bytes, name->size - 1, number);
    return code == KIJOLVAR_OK ? KIJ_OK : KIJ_BAD_ANSWER;
}

/* Makes a control; its room is there before the library is asked. */
static kij_result made_control(kij_till *till, kij_category category, const kij_word *name, kij_control **control) {
    kij_control *made = (kij_control *)calloc(1, sizeof *made);
    kij_result result = kij_internal_result(KIJ_NO_MEMORY, 0, category);
    if (made == NULL) return result;
    made->till = till;
    made->category = category;
    do {
        if (name != NULL) made->name = *name;
        else make_name(&made->name, ++till->names);
        result = ask_new(till, category, &made->name);
    } while (name == NULL && result.code == KIJ_NAME_IN_USE);
    if (result.code == KIJ_OK) result.code = find_number(till, &made->name, &made->number);
    if (result.code != KIJ_OK) {
        free(made);
        return result;
    }
    if (till->last != NULL) till->last->next = made;
    else till->first = made;
    till->last = made;
    *control = made;
    return result;
}

kij_result kij_new(kij_till *till, kij_category category, const char *name, kij_control **control) {
    kij_word word;
    if (control == NULL || word_of(category) == NULL || (name != NULL && !kij_internal_is_name(name, &word)))
        return kij_internal_result(KIJ_BAD_ARGUMENT, 0, category);
    int code = kij_internal_enter(till);
    if (code != KIJ_OK) return kij_internal_result(code, 0, category);
    if (till->has_unclosed) kij_internal_close_given_back(till);
    kij_result result = kij_internal_result(KIJ_OK, 0, category);
    kij_control *found = free_control(till, category, name == NULL ? NULL : &word);
    if (found == NULL) result = made_control(till, category, name == NULL ? NULL : &word, &found);
    if (result.code == KIJ_OK) {
        found->is_free = false;
        found->is_named = name != NULL;
        *control = found;
    }
    kij_internal_leave(till);
    return result;
}

kij_result kij_start(kij_till *till, kij_category category, const char *device, int claiming, kij_control **control) {
    kij_control *made;
    if (control == NULL || (claiming != KIJ_UNCLAIMED && claiming != KIJ_CLAIMED))
        return kij_internal_result(KIJ_BAD_ARGUMENT, 0, category);
    kij_result result = kij_new(till, category, NULL, &made);
    if (result.code != KIJ_OK) return result;
    result = kij_control_open(made, device);
    if (result.code == KIJ_OK && claiming == KIJ_CLAIMED) result = kij_control_claim(made, 0);
    if (result.code == KIJ_OK) result = kij_set_bool(made, KIJ_PROP_DEVICE_ENABLED, true);
    if (result.code == KIJ_OK) {
        *control = made;
        return result;
    }
    /* It outlasts that the control is closed. */
    kij_refusal refusal = till->refusal;
    kij_discard(made);
    till->refusal = refusal;
    return result;
}

void kij_internal_close_given_back(kij_till *till) {
    char *value;
    till->has_unclosed = false;
    for (kij_control *control = till->first; control != NULL; control = control->next) {
        if (!control->is_unclosed) continue;
        int code = kij_internal_run(till, KIJ_VERB_CLOSE, &control->name, NULL, NULL, 0);
        if (code == KIJ_OK) code = kij_internal_answer(till, control->category, &value).code;
        control->is_free = kij_internal_is_closed(code);
        control->is_unclosed = !control->is_free;
        if (control->is_free) control->is_open = false;
        till->has_unclosed |= control->is_unclosed;
    }
}

void kij_discard(kij_control *control) {
    if (control == NULL) return;
    control->turn++;
    control->is_free = kij_internal_is_closed(kij_control_close(control).code);
    /* One that can't be closed, as without memory, may be claimed still: it is closed later, and nobody gets it. */
    control->is_unclosed = !control->is_free;
    control->till->has_unclosed |= control->is_unclosed;
}

const char *kij_name(const kij_control *control) { return control->name.text + 1; }

kij_category kij_category_of(const kij_control *control) { return control->category; }

kij_till *kij_till_of(const kij_control *control) { return control->till; }

const char *kij_device_of(const kij_control *control) { return control->is_open ? control->device.text + 1 : NULL; }
