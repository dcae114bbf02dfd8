/* Events, and the replies to ErrorEvents. */
#include "kij_internal.h"
#include <string.h>

/* The word of a reply in a line, or null for the default one. */
static const kij_word *word_of(kij_reply reply) {
    static const kij_word retry = KIJ_WORD(" retry"), clear = KIJ_WORD(" clear"), go_on = KIJ_WORD(" continue");
    switch (reply) {
    case KIJ_ER_RETRY: return &retry;
    case KIJ_ER_CLEAR: return &clear;
    case KIJ_ER_CONTINUEINPUT: return &go_on;
    default: return NULL;
    }
}

/* Reads the numbers of an event. */
static bool has_numbers(char *text, int64_t *numbers, size_t count) {
    for (size_t place = 0; place < count; place++)
        if (!kij_internal_read_number(&text, &numbers[place])) return false;
    return *text == 0;
}

/* Reads `NAME NUMBER ..`: whether it is an event of these. */
static bool is_read(char *text, kij_event *event) {
    int64_t numbers[3];
    char *space = strchr(text, ' ');
    if (space == NULL) return false;
    *space = 0;
    if (strcmp(text, "StatusUpdateEvent") == 0 && has_numbers(space + 1, numbers, 1)) {
        event->kind = KIJ_STATUS_UPDATE_EVENT;
        event->status = (int)numbers[0];
    } else if (strcmp(text, "DataEvent") == 0 && has_numbers(space + 1, numbers, 1)) {
        event->kind = KIJ_DATA_EVENT;
    } else if (strcmp(text, "ErrorEvent") == 0 && has_numbers(space + 1, numbers, 3)) {
        event->kind = KIJ_ERROR_EVENT;
        event->error = kij_internal_result((int)numbers[0], (int)numbers[1], event->control->category);
        event->locus = (int)numbers[2];
    } else if (strcmp(text, "OutputCompleteEvent") == 0 && has_numbers(space + 1, numbers, 1)) {
        event->kind = KIJ_OUTPUT_COMPLETE_EVENT;
        event->output_id = numbers[0];
    }
    return event->kind != KIJ_NO_EVENT;
}

/* Makes an event none. */
static inline void clear(kij_event *event, kij_control *control) {
    memset(event, 0, sizeof *event);
    event->control = control;
}

/* Whether an event was delivered by which an application gives up what a printer hasn't printed, by the code of that
   and the answer. What has no answer was done. */
static bool gives_up(const kij_till *till, const kij_word *reply, int code) {
    if (till->drives == NULL || reply == NULL || strcmp(reply->text, " clear") != 0) return false;
    return code == KIJ_OK ? kij_internal_is_output_error(till->text) : code == KIJ_NO_ANSWER;
}

/* Delivers the control's next event, with the reply of a word, or the default one. */
static inline kij_result deliver(kij_control *control, const kij_word *reply, kij_event *event) {
    if (control == NULL || event == NULL) return kij_internal_result(KIJ_BAD_ARGUMENT, 0, KIJ_NO_CATEGORY);
    kij_till *till = control->till;
    kij_result result = kij_internal_result(kij_internal_enter(till), 0, control->category);
    if (result.code != KIJ_OK) return result;
    result.code = kij_internal_run(till, KIJ_VERB_DELIVER, &control->name, reply, NULL, 0);
    if (gives_up(till, reply, result.code)) kij_internal_forget_orders(till, control);
    if (result.code == KIJ_OK) {
        char *text = till->text;
        if (memcmp(text, "none", 5) == 0) {
            clear(event, control);
        } else if (memcmp(text, "event ", 6) == 0) {
            kij_event found;
            clear(&found, control);
            if (is_read(text + 6, &found)) *event = found;
            else result.code = KIJ_BAD_ANSWER;
        } else {
            result = kij_internal_answer(till, control->category, &text);
            if (result.code == KIJ_OK) result.code = KIJ_BAD_ANSWER;
        }
    }
    kij_internal_leave(till);
    return result;
}

kij_result kij_next_event(kij_control *control, kij_event *event) { return deliver(control, NULL, event); }

/* The control of this number that the layer has handed out, or null: lines may have made others. */
static kij_control *control_of(kij_till *till, size_t number) {
    kij_control *control = till->first;
    while (control != NULL && control->number < number) control = control->next;
    if (control == NULL || control->number != number) return NULL;
    return control->is_free || control->is_unclosed ? NULL : control;
}

/* Finds the first control, from a number on, that has an event to deliver; null is none. */
static kij_result find(kij_till *till, size_t from, kij_control **found) {
    size_t number = 0;
    uint32_t answer;
    int code = kij_internal_enter(till);
    *found = NULL;
    if (code != KIJ_OK) return kij_internal_result(code, 0, KIJ_NO_CATEGORY);
    do {
        answer = kijolvar_next_event(till->inner, &till->inner.at, from, &number);
        if (answer == KIJOLVAR_EVENT) *found = control_of(till, number);
        from = number + 1;
    } while (answer == KIJOLVAR_EVENT && *found == NULL);
    kij_internal_leave(till);
    if (answer == KIJOLVAR_DISK_FAILED) code = KIJ_DISK_FAILED;
    else if (answer != KIJOLVAR_EVENT && answer != KIJOLVAR_OK) code = KIJ_BAD_ANSWER;
    return kij_internal_result(code, 0, KIJ_NO_CATEGORY);
}

kij_result kij_next_event_of_any(kij_till *till, kij_event *event) {
    kij_control *control;
    if (till == NULL || event == NULL) return kij_internal_result(KIJ_BAD_ARGUMENT, 0, KIJ_NO_CATEGORY);
    kij_result result = find(till, 0, &control);
    if (result.code != KIJ_OK) return result;
    if (control != NULL) return deliver(control, NULL, event);
    clear(event, NULL);
    return result;
}

kij_result kij_next_event_replied(kij_control *control, kij_reply reply, kij_event *event) {
    return deliver(control, word_of(reply), event);
}

/* Gives up what a printer didn't print, though its control has nothing left to clear. */
static kij_result give_up(const kij_control *control) {
    int code = kij_internal_enter(control->till);
    if (code == KIJ_OK) {
        kij_internal_forget_orders(control->till, control);
        kij_internal_leave(control->till);
    }
    return kij_internal_result(code, 0, KIJ_NO_CATEGORY);
}

/* The default reply leaves what is held or waits where it is, at EL_OUTPUT and EL_INPUT_DATA. So ER_CLEAR is
   clearOutput or clearInput after it. A control that was closed or released meanwhile has nothing left to clear. */
kij_result kij_reply_to(const kij_event *event, kij_reply reply) {
    kij_result done = kij_internal_result(KIJ_OK, 0, KIJ_NO_CATEGORY);
    if (event == NULL) return kij_internal_result(KIJ_BAD_ARGUMENT, 0, KIJ_NO_CATEGORY);
    if (event->kind != KIJ_ERROR_EVENT || reply != KIJ_ER_CLEAR || event->locus == KIJ_EL_INPUT) return done;
    bool is_output = event->locus == KIJ_EL_OUTPUT;
    kij_result result = is_output ? kij_printer_clear_output(event->control) : kij_scanner_clear_input(event->control);
    bool is_gone = result.code == KIJ_E_CLOSED || result.code == KIJ_E_CLAIMED || result.code == KIJ_E_NOTCLAIMED;
    if (is_gone && is_output) return give_up(event->control);
    return is_gone ? done : result;
}

/* Delivers one event to a listener: whether there was one. A listener may give its control back. The till may have
   handed that out again, so it gets no reply. */
static kij_result pass(kij_control *control, kij_listener listen, void *with, bool *is_passed) {
    kij_event event;
    unsigned long turn = control->turn;
    kij_result result = kij_next_event(control, &event);
    if (result.code != KIJ_OK || event.kind == KIJ_NO_EVENT) return result;
    *is_passed = true;
    kij_reply reply = listen(&event, with);
    if (control->turn != turn) return kij_internal_result(KIJ_DISCARDED, 0, control->category);
    return kij_reply_to(&event, reply);
}

kij_result kij_pump(kij_control *control, kij_listener listen, void *with) {
    kij_result result;
    bool is_passed;
    if (control == NULL || listen == NULL) return kij_internal_result(KIJ_BAD_ARGUMENT, 0, KIJ_NO_CATEGORY);
    do {
        is_passed = false;
        result = pass(control, listen, with, &is_passed);
    } while (result.code == KIJ_OK && is_passed);
    return result;
}

/* One event of each control in turn, until a turn finds none. */
kij_result kij_pump_all(kij_till *till, kij_listener listen, void *with) {
    kij_control *control = NULL;
    size_t from = 0;
    bool is_passed = false;
    if (till == NULL || listen == NULL) return kij_internal_result(KIJ_BAD_ARGUMENT, 0, KIJ_NO_CATEGORY);
    kij_result result = find(till, from, &control);
    while (result.code == KIJ_OK && (control != NULL || from != 0)) {
        from = control == NULL ? 0 : control->number + 1;
        if (control != NULL) result = pass(control, listen, with, &is_passed);
        if (result.code == KIJ_OK || result.code == KIJ_DISCARDED) result = find(till, from, &control);
    }
    return result;
}
