/* Lines for the library, and what their answers say. A line is short, and so is the library's work on it: words are
   copied by a fixed number of bytes, and hex digits sixteen at a time where the processor can. */
#include "kij_hardware.h"
#include <stdlib.h>
#include <string.h>
#ifdef __SSE2__
#include <emmintrin.h>
#endif

/* The longest line that the library takes, the greatest number in one, and the least room for a line and for an answer.
 */
static const size_t longest_line = 140000;
static const int64_t greatest_number = 999999999999999999;
static const size_t least_room = 256;

const kij_word kij_internal_verbs[] = {
    KIJ_WORD("call"),  KIJ_WORD("get"),   KIJ_WORD("set"),     KIJ_WORD("deliver"), KIJ_WORD("open"),
    KIJ_WORD("close"), KIJ_WORD("claim"), KIJ_WORD("release"), KIJ_WORD("new"),     KIJ_WORD("input"),
    KIJ_WORD("work"),  KIJ_WORD("show"),  KIJ_WORD("attach"),  KIJ_WORD("detach"),
};

/* Makes a buffer at least this long; its bytes aren't kept. */
static bool reserve(char **buffer, size_t *room, size_t size) {
    if (size <= *room) return true;
    size_t wanted = size < least_room ? least_room : size + size / 2;
    char *grown = (char *)malloc(wanted);
    if (grown == NULL) return false;
    free(*buffer);
    *buffer = grown;
    *room = wanted;
    return true;
}

bool kij_internal_rooms(kij_till *till) {
    return reserve(&till->line, &till->line_room, least_room) && reserve(&till->text, &till->text_room, least_room);
}

bool kij_internal_text(kij_till *till, size_t size) { return reserve(&till->text, &till->text_room, size); }

static char *put_long_number(char *at, int64_t number) {
    uint64_t left = number < 0 ? 0 - (uint64_t)number : (uint64_t)number;
    size_t count = 1;
    if (number < 0) *at++ = '-';
    for (uint64_t bound = 10; left >= bound; bound *= 10) count++;
    for (size_t place = count; place > 0; left /= 10) at[--place] = (char)('0' + left % 10);
    return at + count;
}

static inline char *put_number(char *at, int64_t number) {
    unsigned small = (unsigned)number;
    if (number < 0 || number > 999) return put_long_number(at, number);
    if (small > 99) *at++ = (char)('0' + small / 100);
    if (small > 9) *at++ = (char)('0' + small / 10 % 10);
    *at = (char)('0' + small % 10);
    return at + 1;
}

static char *put_bytes(char *at, const uint8_t *data, size_t size) {
    static const char digits[] = "0123456789abcdef";
    size_t place = 0;
    if (size == 0) *at++ = '-';
#ifdef __SSE2__
    const __m128i low_half = _mm_set1_epi8(15), nine = _mm_set1_epi8(9);
    const __m128i zero = _mm_set1_epi8('0'), letters = _mm_set1_epi8('a' - '0' - 10);
    for (; place + 16 <= size; place += 16, at += 32) {
        __m128i bytes = _mm_loadu_si128((const __m128i *)(const void *)(data + place));
        __m128i high = _mm_and_si128(_mm_srli_epi16(bytes, 4), low_half), low = _mm_and_si128(bytes, low_half);
        high = _mm_add_epi8(_mm_add_epi8(high, zero), _mm_and_si128(_mm_cmpgt_epi8(high, nine), letters));
        low = _mm_add_epi8(_mm_add_epi8(low, zero), _mm_and_si128(_mm_cmpgt_epi8(low, nine), letters));
        _mm_storeu_si128((__m128i *)(void *)at, _mm_unpacklo_epi8(high, low));
        _mm_storeu_si128((__m128i *)(void *)(at + 16), _mm_unpackhi_epi8(high, low));
    }
#endif
    for (; place < size; place++, at += 2) {
        at[0] = digits[data[place] >> 4];
        at[1] = digits[data[place] & 15];
    }
    return at;
}

static bool is_name_byte(char byte) {
    return (byte >= 'a' && byte <= 'z') || (byte >= 'A' && byte <= 'Z') || (byte >= '0' && byte <= '9') || byte == '-';
}

bool kij_internal_is_name(const char *name, kij_word *word) {
    size_t size = 0;
    if (name == NULL) return false;
    memset(word->text, 0, KIJ_WORD_ROOM);
    word->text[0] = ' ';
    for (; size <= 16 && is_name_byte(name[size]); size++) word->text[size + 1] = name[size];
    word->size = size + 1;
    return size >= 1 && size <= 16 && name[size] == 0;
}

int kij_internal_settled(kij_till *till, uint32_t code, size_t *needed) {
    if (till->drives != NULL) return kij_internal_served(till, code, needed);
    if (code == KIJOLVAR_ERRANDS && (code = kij_internal_settle(till)) == KIJOLVAR_OK)
        code = kijolvar_answer(till->inner, &till->inner.at, (uint8_t *)till->text, till->text_room - 1, needed);
    if (*needed >= till->text_room) {
        size_t wanted = *needed;
        /* The front that was written stays. */
        *needed = till->text_room - 1;
        if (!kij_internal_text(till, wanted + 1)) return KIJ_NO_ANSWER;
        code = kijolvar_answer(till->inner, &till->inner.at, (uint8_t *)till->text, wanted, needed);
    }
    switch (code) {
    case KIJOLVAR_OK: return KIJ_OK;
    case KIJOLVAR_CUT: return KIJ_NO_ANSWER;
    case KIJOLVAR_DISK_FAILED: return kij_internal_disk_failed(till);
    default: return KIJ_BAD_ANSWER;
    }
}

bool kij_internal_read_number(char **at, int64_t *number) {
    char *place = *at;
    bool is_negative = *place == '-';
    uint64_t value = 0;
    if (is_negative) place++;
    if (*place < '0' || *place > '9') return false;
    for (; *place >= '0' && *place <= '9'; place++) {
        if (value > (uint64_t)INT64_MAX / 10) return false;
        value = 10 * value + (uint64_t)(*place - '0');
    }
    if (value > (uint64_t)INT64_MAX) return false;
    *number = is_negative ? -(int64_t)value : (int64_t)value;
    *at = *place == ' ' ? place + 1 : place;
    return true;
}

/* The value of each byte as a hex digit with small letters; 16 if it is none. */
#define NO_DIGITS 16, 16, 16, 16, 16, 16, 16, 16, 16, 16, 16, 16, 16, 16, 16, 16
static const uint8_t digit_values[256] = {
    NO_DIGITS, NO_DIGITS, NO_DIGITS, 0,         1,         2,         3,  4,         5,         6,
    7,         8,         9,         16,        16,        16,        16, 16,        16,        NO_DIGITS,
    NO_DIGITS, 16,        10,        11,        12,        13,        14, 15,        16,        16,
    16,        16,        16,        16,        16,        16,        16, NO_DIGITS, NO_DIGITS, NO_DIGITS,
    NO_DIGITS, NO_DIGITS, NO_DIGITS, NO_DIGITS, NO_DIGITS, NO_DIGITS,
};

#ifdef __SSE2__
/* Eight bytes, each in two, out of sixteen hex digits. The greatest value at each place is kept. */
static inline __m128i values_of(__m128i found, __m128i *most) {
    const __m128i zero = _mm_set1_epi8('0'), nine = _mm_set1_epi8('9'), letters = _mm_set1_epi8('a' - '0' - 10);
    __m128i values = _mm_sub_epi8(_mm_sub_epi8(found, zero), _mm_and_si128(_mm_cmpgt_epi8(found, nine), letters));
    *most = _mm_max_epu8(*most, values);
    values = _mm_or_si128(_mm_slli_epi16(values, 4), _mm_srli_epi16(values, 8));
    return _mm_and_si128(values, _mm_set1_epi16(255));
}

static inline __m128i digits_at(const uint8_t *digits) {
    return _mm_loadu_si128((const __m128i *)(const void *)digits);
}
#endif

bool kij_internal_read_bytes(char *digits, size_t length, size_t *size) {
    uint8_t *bytes = (uint8_t *)digits;
    size_t count = length / 2, place = 0;
    unsigned any = 0;
    *size = 0;
    if (digits[0] == '-') return length == 1;
    if (length % 2 != 0) return false;
#ifdef __SSE2__
    __m128i most = _mm_setzero_si128();
    for (; place + 16 <= count; place += 16) {
        __m128i first = values_of(digits_at(bytes + 2 * place), &most);
        __m128i second = values_of(digits_at(bytes + 2 * place + 16), &most);
        _mm_storeu_si128((__m128i *)(void *)(bytes + place), _mm_packus_epi16(first, second));
    }
    for (; place + 4 <= count; place += 4) {
        /* The digits that aren't there are zeros. */
        __m128i found = _mm_loadl_epi64((const __m128i *)(const void *)(bytes + 2 * place));
        __m128i values = values_of(_mm_unpacklo_epi64(found, _mm_set1_epi8('0')), &most);
        int four = _mm_cvtsi128_si32(_mm_packus_epi16(values, values));
        memcpy(bytes + place, &four, 4);
    }
    /* A byte that is no hex digit has a value above 15, taken without its sign. */
    if (_mm_movemask_epi8(_mm_cmpeq_epi8(_mm_max_epu8(most, _mm_set1_epi8(15)), _mm_set1_epi8(15))) != 0xffff) any = 16;
#endif
    for (; place < count; place++) {
        unsigned high = digit_values[bytes[2 * place]], low = digit_values[bytes[2 * place + 1]];
        any |= high | low;
        bytes[place] = (uint8_t)(16 * high + low);
    }
    *size = count;
    return any < 16;
}

/* The answers that refuse a line, and their codes. `bad control` comes to a `new` line alone: the layer knows its
 * controls. */
static int refusal_of(const char *answer) {
    static const struct {
        const char *words;
        int code;
    } refusals[] = {
        {"memory", KIJ_NO_MEMORY},
        {"bad line", KIJ_BAD_ARGUMENT},
        {"bad control", KIJ_NAME_IN_USE},
        {"bad device", KIJ_BAD_DEVICE},
        {"bad input", KIJ_BAD_INPUT},
        {"bad spare", KIJ_BAD_SPARE},
        {"refused Full", KIJ_FULL},
        {"refused Unknown", KIJ_UNKNOWN},
        {"refused InUse", KIJ_IN_USE},
        {"refused Vacant", KIJ_VACANT},
        {"refused KindDiffers", KIJ_KIND_DIFFERS},
    };
    if (answer[0] != 'm' && answer[0] != 'b' && answer[0] != 'r') return KIJ_BAD_ANSWER;
    for (size_t place = 0; place < sizeof refusals / sizeof refusals[0]; place++)
        if (strcmp(answer, refusals[place].words) == 0) return refusals[place].code;
    return KIJ_BAD_ANSWER;
}

/* `err CODE` and `err CODE EXTENDED`. */
static kij_result error_of(char *numbers, kij_category category) {
    int64_t code = 0, extended = 0;
    if (!kij_internal_read_number(&numbers, &code) || (*numbers != 0 && !kij_internal_read_number(&numbers, &extended)))
        return kij_internal_result(KIJ_BAD_ANSWER, 0, category);
    return kij_internal_result((int)code, (int)extended, category);
}

kij_result kij_internal_answer(kij_till *till, kij_category category, char **value) {
    char *text = till->text;
    *value = text;
    if (memcmp(text, "ok", 2) == 0) {
        *value = text[2] == ' ' ? text + 3 : text + 2;
        return kij_internal_result(KIJ_OK, 0, category);
    }
    if (memcmp(text, "err ", 4) == 0) return error_of(text + 4, category);
    return kij_internal_result(refusal_of(text), 0, category);
}

/* Makes room for so many bytes more behind the line's end, which may move. */
static char *more_room(kij_till *till, char *at, size_t more) {
    size_t size = (size_t)(at - till->line);
    if (size + more <= till->line_room) return at;
    char *grown = (char *)realloc(till->line, size + more);
    if (grown == NULL) return NULL;
    till->line = grown;
    till->line_room = size + more;
    return grown + size;
}

/* Adds bytes to the line: its end, or null, and the code says why. */
static char *add_bytes(kij_till *till, char *at, const kij_argument *argument, int *code) {
    size_t size = (size_t)argument->number;
    *code = KIJ_BAD_ARGUMENT;
    if (argument->data == NULL && size != 0) return NULL;
    if (size == KIJ_ZERO_ENDED) size = strlen((const char *)argument->data);
    if (size > longest_line / 2) return NULL;
    /* The arguments behind it have room in what is left. */
    at = more_room(till, at, 2 * size + least_room);
    *code = at == NULL ? KIJ_NO_MEMORY : KIJ_OK;
    return at == NULL ? NULL : put_bytes(at, argument->data, size);
}

int kij_internal_add_arguments(kij_till *till, char **at, const kij_argument *arguments, size_t count) {
    char *end = *at;
    int code = KIJ_OK;
    for (const kij_argument *argument = arguments; argument < arguments + count; argument++) {
        int64_t number = argument->number;
        *end++ = ' ';
        if (argument->shape == KIJ_SHAPE_NUMBER) {
            if (number < -greatest_number || number > greatest_number) return KIJ_BAD_ARGUMENT;
            end = put_number(end, number);
        } else if (argument->shape == KIJ_SHAPE_BYTES) {
            end = add_bytes(till, end, argument, &code);
            if (end == NULL) return code;
        } else {
            memcpy(end, number ? "true " : "false", 5);
            end += number ? 4 : 5;
        }
    }
    *at = end;
    return (size_t)(end - till->line) > longest_line ? KIJ_BAD_ARGUMENT : KIJ_OK;
}

/* Reads what a call returns, of so many bytes. */
static bool is_read(char *text, size_t size, kij_value *value) {
    switch (value->shape) {
    case KIJ_SHAPE_NUMBER:
        if (size == 1 && text[0] >= '0' && text[0] <= '9') return value->number = text[0] - '0', true;
        return kij_internal_read_number(&text, &value->number) && *text == 0;
    case KIJ_SHAPE_PAIR:
        return kij_internal_read_number(&text, &value->number) && kij_internal_read_number(&text, &value->second) &&
               *text == 0;
    case KIJ_SHAPE_BYTES: value->data = (const uint8_t *)text; return kij_internal_read_bytes(text, size, &value->size);
    case KIJ_SHAPE_TRUTH:
        value->number = memcmp(text, "true", 5) == 0;
        return value->number || memcmp(text, "false", 6) == 0;
    default: return *text == 0;
    }
}

/* Whether a call gives up what a printer's control has ordered. */
static bool gives_up(const kij_control *control, kij_verb verb, const kij_word *method) {
    static const char clear[] = " clearOutput";
    return control->category == KIJ_POS_PRINTER && verb == KIJ_VERB_CALL && method != NULL &&
           strcmp(method->text, clear) == 0;
}

/* Keeps what a control refused. The device behind `open` is the caller's. */
static void note_refusal(const kij_control *control, kij_verb verb, const kij_word *method, kij_result result) {
    kij_refusal *refusal = &control->till->refusal;
    refusal->verb = verb;
    refusal->method = verb == KIJ_VERB_OPEN ? NULL : method;
    refusal->result = result;
    refusal->text[0] = 0;
    int why = result.code == KIJ_E_OFFLINE ? kij_internal_port_error(control->till, control) : 0;
    if (why != 0) kij_internal_write_reason(refusal, why);
}

kij_result kij_internal_call(kij_control *control, kij_verb verb, const kij_word *method, const kij_argument *arguments,
                             size_t count, kij_value *value) {
    if (control == NULL) return kij_internal_result(KIJ_BAD_ARGUMENT, 0, KIJ_NO_CATEGORY);
    kij_till *till = control->till;
    kij_result result = kij_internal_result(kij_internal_enter(till), 0, control->category);
    if (result.code != KIJ_OK) return result;
    if (till->has_unclosed) kij_internal_close_given_back(till);
    result.code = kij_internal_run(till, verb, &control->name, method, arguments, count);
    if (result.code == KIJ_OK) {
        char *text = till->text;
        bool is_done = value == NULL ? memcmp(text, "ok", 3) == 0
                                     : memcmp(text, "ok ", 3) == 0 && is_read(text + 3, till->text_size - 3, value);
        if (!is_done) {
            result = kij_internal_answer(till, control->category, &text);
            if (result.code == KIJ_OK) result.code = KIJ_BAD_ANSWER;
        }
    }
    /* What has no answer was done. */
    bool is_done = result.code == KIJ_OK || result.code == KIJ_NO_ANSWER;
    if (is_done && verb == KIJ_VERB_OPEN) {
        control->device = *method;
        control->is_open = true;
    }
    if (verb == KIJ_VERB_CLOSE && kij_internal_is_closed(result.code)) control->is_open = false;
    if (result.code >= KIJ_E_CLOSED) note_refusal(control, verb, method, result);
    if (till->drives != NULL && is_done && gives_up(control, verb, method)) kij_internal_forget_orders(till, control);
    kij_internal_leave(till);
    return result;
}
