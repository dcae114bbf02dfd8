/* Properties, and what results mean. */
#ifndef _GNU_SOURCE
#define _GNU_SOURCE
#endif
#include "kij_internal.h"
#include <errno.h>
#include <stdio.h>
#include <string.h>

/* The row of a property if it has this shape, or null. */
static inline const kij_property_row *row_of(kij_property property, kij_shape shape, int *code) {
    *code = KIJ_BAD_ARGUMENT;
    if (property < 1 || (size_t)property > kij_internal_property_count) return NULL;
    const kij_property_row *row = &kij_internal_properties[property - 1];
    *code = KIJ_WRONG_TYPE;
    return row->shape == shape ? row : NULL;
}

/* Reads a property of this shape. */
static inline kij_result get(kij_control *control, kij_property property, kij_shape shape, kij_value *value) {
    int code;
    const kij_property_row *row = row_of(property, shape, &code);
    if (row == NULL) return kij_internal_result(code, 0, control == NULL ? KIJ_NO_CATEGORY : control->category);
    value->shape = shape;
    return kij_internal_call(control, KIJ_VERB_GET, &row->word, NULL, 0, value);
}

kij_result kij_get_int(kij_control *control, kij_property property, int64_t *number) {
    kij_value value;
    if (number == NULL) return kij_internal_result(KIJ_BAD_ARGUMENT, 0, KIJ_NO_CATEGORY);
    kij_result result = get(control, property, KIJ_SHAPE_NUMBER, &value);
    if (result.code == KIJ_OK) *number = value.number;
    return result;
}

kij_result kij_get_bool(kij_control *control, kij_property property, bool *is_true) {
    kij_value value;
    if (is_true == NULL) return kij_internal_result(KIJ_BAD_ARGUMENT, 0, KIJ_NO_CATEGORY);
    kij_result result = get(control, property, KIJ_SHAPE_TRUTH, &value);
    if (result.code == KIJ_OK) *is_true = value.number != 0;
    return result;
}

kij_result kij_get_bytes(kij_control *control, kij_property property, const uint8_t **data, size_t *size) {
    kij_value value;
    if (data == NULL || size == NULL) return kij_internal_result(KIJ_BAD_ARGUMENT, 0, KIJ_NO_CATEGORY);
    kij_result result = get(control, property, KIJ_SHAPE_BYTES, &value);
    if (result.code == KIJ_OK) {
        *data = value.data;
        *size = value.size;
    }
    return result;
}

/* Sets a property to a value of any shape: whether it takes it is the control's to say. */
static inline kij_result set(kij_control *control, kij_property property, const kij_argument *value) {
    if (property < 1 || (size_t)property > kij_internal_property_count)
        return kij_internal_result(KIJ_BAD_ARGUMENT, 0, KIJ_NO_CATEGORY);
    return kij_internal_call(control, KIJ_VERB_SET, &kij_internal_properties[property - 1].word, value, 1, NULL);
}

kij_result kij_set_int(kij_control *control, kij_property property, int64_t number) {
    kij_argument value = kij_internal_number(number);
    return set(control, property, &value);
}

kij_result kij_set_bool(kij_control *control, kij_property property, bool is_true) {
    kij_argument value = kij_internal_truth(is_true);
    return set(control, property, &value);
}

const char *kij_property_name(kij_property property) {
    return property < 1 || (size_t)property > kij_internal_property_count
               ? ""
               : kij_internal_properties[property - 1].word.text + 1;
}

/* The codes that aren't the standard's. */
static const kij_number_row own_codes[] = {
    {KIJ_NO_CATEGORY, KIJ_NO_MEMORY, "KIJ_NO_MEMORY", "There was no memory, and nothing was done."},
    {KIJ_NO_CATEGORY, KIJ_BAD_PROFILE, "KIJ_BAD_PROFILE", "The profile is refused: kij_profile_mistake says why."},
    {KIJ_NO_CATEGORY, KIJ_NO_ANSWER, "KIJ_NO_ANSWER",
     "The call was carried out, but there was no memory for its answer."},
    {KIJ_NO_CATEGORY, KIJ_DISK_FAILED, "KIJ_DISK_FAILED",
     "The totals file failed: close the till; before you open the file again, read docs/reference/trouble.md, \"After "
     "a failed sync\"."},
    {KIJ_NO_CATEGORY, KIJ_TOO_SMALL, "KIJ_TOO_SMALL", "The file is shorter than a disk of totals."},
    {KIJ_NO_CATEGORY, KIJ_NO_DEVICE, "KIJ_NO_DEVICE",
     "The profile has no device of the name that has orders; or the device has no driver, or can't have one, as with "
     "`flaky` in the profile."},
    {KIJ_NO_CATEGORY, KIJ_UNFORMATTED, "KIJ_UNFORMATTED", "The file isn't formatted: it has no totals."},
    {KIJ_NO_CATEGORY, KIJ_DAMAGED, "KIJ_DAMAGED", "The totals in the file are damaged: keep it, and work on a copy."},
    {KIJ_NO_CATEGORY, KIJ_MOVED, "KIJ_MOVED", "The totals in the file have layout 2 already."},
    {KIJ_NO_CATEGORY, KIJ_WRONG_VERSION, "KIJ_WRONG_VERSION",
     "The library is of another version than the typed layer."},
    {KIJ_NO_CATEGORY, KIJ_SYSTEM, "KIJ_SYSTEM",
     "The system refused the file of the totals; the extended code is errno."},
    {KIJ_NO_CATEGORY, KIJ_BAD_ARGUMENT, "KIJ_BAD_ARGUMENT", "An argument can't be passed on to the library."},
    {KIJ_NO_CATEGORY, KIJ_WRONG_TYPE, "KIJ_WRONG_TYPE",
     "The property has another type, or the device another category."},
    {KIJ_NO_CATEGORY, KIJ_IN_CALL, "KIJ_IN_CALL",
     "Another call of the same till is under way: wait until it has returned. A driver can't call its till."},
    {KIJ_NO_CATEGORY, KIJ_BAD_ANSWER, "KIJ_BAD_ANSWER",
     "The library answered something that this version doesn't know."},
    {KIJ_NO_CATEGORY, KIJ_DISCARDED, "KIJ_DISCARDED", "The control was given back."},
    {KIJ_NO_CATEGORY, KIJ_NAME_IN_USE, "KIJ_NAME_IN_USE", "A control of the till has the name already."},
    {KIJ_NO_CATEGORY, KIJ_FULL, "KIJ_FULL", "The till has as many controls as it may have."},
    {KIJ_NO_CATEGORY, KIJ_BAD_DEVICE, "KIJ_BAD_DEVICE", "There is no device of the name, or it has no peripheral."},
    {KIJ_NO_CATEGORY, KIJ_BAD_INPUT, "KIJ_BAD_INPUT",
     "The device has no such input, or its number is out of range."},
    {KIJ_NO_CATEGORY, KIJ_BAD_SPARE, "KIJ_BAD_SPARE", "There is no spare of the number, or it serves a device."},
    {KIJ_NO_CATEGORY, KIJ_UNKNOWN, "KIJ_UNKNOWN", "There is no device of the name that may have a peripheral."},
    {KIJ_NO_CATEGORY, KIJ_IN_USE, "KIJ_IN_USE", "The device has its peripheral, or a control has it open."},
    {KIJ_NO_CATEGORY, KIJ_KIND_DIFFERS, "KIJ_KIND_DIFFERS",
     "The spare, or the driver, is of another kind than the device."},
    {KIJ_NO_CATEGORY, KIJ_VACANT, "KIJ_VACANT", "The device has no peripheral to detach."},
    {KIJ_NO_CATEGORY, KIJ_DRIVEN, "KIJ_DRIVEN", "The device has a driver already."},
    {KIJ_NO_CATEGORY, KIJ_BAD_SETTINGS, "KIJ_BAD_SETTINGS",
     "A setting of the hardware is out of its range, or no port can have the name."},
};

/* The row of a number in a table, of a category if it isn't KIJ_NO_CATEGORY there; or null. */
static const kij_number_row *found(const kij_number_row *rows, size_t count, int number, kij_category category) {
    for (size_t place = 0; place < count; place++)
        if (rows[place].number == number &&
            (rows[place].category == KIJ_NO_CATEGORY || rows[place].category == category))
            return &rows[place];
    return NULL;
}

static const kij_number_row *code_row(int code) {
    const kij_number_row *row = found(kij_internal_codes, kij_internal_code_count, code, KIJ_NO_CATEGORY);
    return row != NULL ? row : found(own_codes, sizeof own_codes / sizeof own_codes[0], code, KIJ_NO_CATEGORY);
}

static const kij_number_row *extended_row(kij_result result) {
    if (result.code != KIJ_E_EXTENDED) return NULL;
    return found(kij_internal_extended, kij_internal_extended_count, result.extended, result.category);
}

/* The system's own words for a number, which are static; or null if it has none, and would make some up. */
static const char *own_words(int why) {
    char made_up[100];
    const char *said = why == 0 ? made_up : strerror_r(why, made_up, sizeof made_up);
    return said == made_up ? NULL : said;
}

/* Why the system refused the file of the totals; or null. */
static const char *said_by_system(int why) {
    switch (why) {
    case EWOULDBLOCK: return "The file of the totals is in use: close the other program that has it open.";
    case ENOENT: return "The file of the totals isn't there. If it was to be created, its folder isn't, or /proc.";
    case EEXIST:
        return "The file of the totals is there already. Of a copy, this may be the file beside it with .part at its "
               "end: remove that if no other program makes the copy.";
    case EOPNOTSUPP:
        return "The file system can't do that: totals are created there by pos_console format --disk FILE.";
    default: return own_words(why);
    }
}

const char *kij_strerror(kij_result result) {
    const char *said = result.code == KIJ_SYSTEM ? said_by_system(result.extended) : NULL;
    if (said != NULL) return said;
    const kij_number_row *row = extended_row(result);
    if (row == NULL) row = code_row(result.code);
    return row == NULL ? "The code is unknown." : row->text;
}

/* Whether a row is of a call that was refused. */
static bool is_reason(const kij_reason_row *row, const kij_refusal *refusal) {
    kij_result result = refusal->result;
    return row->verb == refusal->verb && row->code == result.code && row->extended == result.extended &&
           (row->category == KIJ_NO_CATEGORY || row->category == result.category) &&
           (row->word == NULL || strcmp(row->word, refusal->method->text) == 0);
}

static bool are_same(kij_result one, kij_result other) {
    return one.code == other.code && one.extended == other.extended && one.category == other.category;
}

/* Why a call was refused, by what the code means of it. */
static const char *static_reason(const kij_refusal *refusal) {
    for (size_t place = 0; place < kij_internal_reason_count; place++)
        if (is_reason(&kij_internal_reasons[place], refusal)) return kij_internal_reasons[place].text;
    return kij_strerror(refusal->result);
}

void kij_internal_write_reason(kij_refusal *refusal, int why) {
    const char *said = static_reason(refusal), *words = own_words(why);
    size_t size = strlen(said);
    if (words == NULL) return;
    if (size > 0 && said[size - 1] == '.') size--;
    snprintf(refusal->text, sizeof refusal->text, "%.*s: %s.", (int)size, said, words);
}

const char *kij_reason(const kij_till *till, kij_result result) {
    if (till == NULL || !are_same(till->refusal.result, result)) return kij_strerror(result);
    /* That of an earlier call is there still behind one that wasn't refused. */
    bool has_text = result.code != KIJ_OK && till->refusal.text[0] != 0;
    return has_text ? till->refusal.text : static_reason(&till->refusal);
}

const char *kij_code_name(int code) {
    const kij_number_row *row = code_row(code);
    return row == NULL ? "" : row->name;
}

const char *kij_extended_name(kij_result result) {
    const kij_number_row *row = extended_row(result);
    return row == NULL ? "" : row->name;
}
