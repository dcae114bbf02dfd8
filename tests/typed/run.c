/* Runs a script by the typed calls, and prints the answers in the script's form, each from what its call returned. A
   line that has no typed call, as one of a wrong shape or with an unknown name, is carried out by the text interface;
   it is listed on standard error, and how many lines there were of both. Usage: run PROFILE|- FILE|- < SCRIPT. It is
   C99 and C++17. */
#include "kij.h"
#include <stdio.h>
#include <stdlib.h>
#include <string.h>

/* A word of a line: its text, and its number, truth value or bytes. */
typedef struct run_word {
    char *text;
    int64_t number;
    const uint8_t *data;
    size_t size;
} run_word;

/* What a call returned. */
typedef struct run_answer {
    int64_t number;
    int64_t second;
    const uint8_t *data;
    size_t size;
} run_answer;

typedef struct run_method {
    const char *verb;
    const char *word;
    const char *types;
    char returns;
    kij_result (*call)(kij_control *, const run_word *, run_answer *);
} run_method;

typedef struct run_property {
    const char *word;
    char type;
    kij_property property;
} run_property;

#include "run_calls.h"

enum { MOST_WORDS = 8 };

static kij_till *till;
static kij_control *controls[4096];
static size_t control_count;
static unsigned long typed, by_text;

static void fail(const char *what) {
    fprintf(stderr, "run: %s\n", what);
    exit(2);
}

static kij_control *control_named(const char *name) {
    for (size_t place = 0; place < control_count; place++)
        if (strcmp(kij_name(controls[place]), name) == 0) return controls[place];
    return NULL;
}

static bool is_number(run_word *word) {
    const char *digits = word->text + (word->text[0] == '-');
    size_t count = strspn(digits, "0123456789");
    if (count < 1 || count > 18 || digits[count] != 0) return false;
    word->number = strtoll(word->text, NULL, 10);
    return true;
}

static int digit_of(char digit) {
    if (digit >= '0' && digit <= '9') return digit - '0';
    if (digit >= 'a' && digit <= 'f') return digit - 'a' + 10;
    return digit >= 'A' && digit <= 'F' ? digit - 'A' + 10 : -1;
}

/* The bytes of a word, which take the place of its digits. */
static bool is_bytes(run_word *word) {
    size_t count = strlen(word->text);
    uint8_t *bytes = (uint8_t *)word->text;
    word->size = 0;
    word->data = bytes;
    if (strcmp(word->text, "-") == 0) return true;
    for (size_t place = 0; place < count; place += 2) {
        int high = digit_of(word->text[place]), low = digit_of(word->text[place + 1]);
        if (high < 0 || low < 0) return false;
        bytes[word->size++] = (uint8_t)(16 * high + low);
    }
    return true;
}

static bool is_truth(run_word *word) {
    word->number = strcmp(word->text, "true") == 0;
    return word->number || strcmp(word->text, "false") == 0;
}

static bool is_device(const run_word *word) {
    size_t count = strlen(word->text);
    return count <= 16 &&
           count == strspn(word->text, "-0123456789ABCDEFGHIJKLMNOPQRSTUVWXYZabcdefghijklmnopqrstuvwxyz");
}

static void print_bytes(const uint8_t *data, size_t size) {
    if (size == 0) printf("-");
    for (size_t place = 0; place < size; place++) printf("%02x", data[place]);
}

/* Prints what a call returned, by the type of its value: n, b, t, p (a pair), s (a text) or - (nothing). */
static bool print_answer(kij_result result, char type, const run_answer *answer) {
    static const struct {
        int code;
        const char *words;
    } refusals[] = {
        {KIJ_NO_MEMORY, "memory"},
        {KIJ_BAD_ARGUMENT, "bad line"},
        {KIJ_NAME_IN_USE, "bad control"},
        {KIJ_BAD_DEVICE, "bad device"},
        {KIJ_BAD_INPUT, "bad input"},
        {KIJ_BAD_SPARE, "bad spare"},
        {KIJ_FULL, "refused Full"},
        {KIJ_UNKNOWN, "refused Unknown"},
        {KIJ_IN_USE, "refused InUse"},
        {KIJ_VACANT, "refused Vacant"},
        {KIJ_KIND_DIFFERS, "refused KindDiffers"},
    };
    typed++;
    if (result.code >= KIJ_E_CLOSED && result.code < KIJ_E_EXTENDED) return printf("err %d\n", result.code), true;
    if (result.code == KIJ_E_EXTENDED) return printf("err %d %d\n", result.code, result.extended), true;
    for (size_t place = 0; place < sizeof refusals / sizeof refusals[0]; place++)
        if (result.code == refusals[place].code) return printf("%s\n", refusals[place].words), true;
    if (result.code != KIJ_OK) fail(kij_strerror(result));
    printf("ok");
    if (type == 'n' || type == 'p') printf(" %lld", (long long)answer->number);
    if (type == 'p') printf(" %lld", (long long)answer->second);
    if (type == 't') printf(" %s", answer->number ? "true" : "false");
    if (type == 'b') printf(" "), print_bytes(answer->data, answer->size);
    printf("\n");
    return true;
}

static bool print_done(kij_result result) { return print_answer(result, '-', NULL); }

/* Runs a method, by the line's verb, its word and the words behind it: false where the line has none. */
static bool run_a_method(const char *verb, kij_control *control, run_word *words, size_t count) {
    const bool is_call = strcmp(verb, "call") == 0;
    if (is_call && count == 0) return false;
    const char *word = is_call ? words[0].text : verb;
    for (size_t place = 0; place < sizeof run_methods / sizeof run_methods[0]; place++) {
        const run_method *method = &run_methods[place];
        if (strcmp(method->verb, verb) != 0 || strcmp(method->word, word) != 0) continue;
        run_word *given = words + is_call;
        if (strlen(method->types) != count - is_call) return false;
        for (size_t at = 0; method->types[at] != 0; at++)
            if (!(method->types[at] == 'n'   ? is_number(&given[at])
                  : method->types[at] == 'b' ? is_bytes(&given[at])
                  : method->types[at] == 't' ? is_truth(&given[at])
                                             : is_device(&given[at])))
                return false;
        run_answer answer = {0, 0, NULL, 0};
        kij_result result = method->call(control, given, &answer);
        return print_answer(result, method->returns, &answer);
    }
    return false;
}

static const run_property *property_of(const char *word) {
    for (size_t place = 0; place < sizeof run_properties / sizeof run_properties[0]; place++)
        if (strcmp(run_properties[place].word, word) == 0) return &run_properties[place];
    return NULL;
}

static bool run_get(kij_control *control, const run_word *words, size_t count) {
    const run_property *about = count == 1 ? property_of(words[0].text) : NULL;
    run_answer answer = {0, 0, NULL, 0};
    bool is_true = false;
    if (about == NULL) return false;
    kij_result result = about->type == 'n'   ? kij_get_int(control, about->property, &answer.number)
                        : about->type == 't' ? kij_get_bool(control, about->property, &is_true)
                                             : kij_get_bytes(control, about->property, &answer.data, &answer.size);
    if (about->type == 't') answer.number = is_true;
    return print_answer(result, about->type, &answer);
}

static bool run_set(kij_control *control, run_word *words, size_t count) {
    const run_property *about = count == 2 ? property_of(words[0].text) : NULL;
    if (about == NULL) return false;
    if (is_truth(&words[1])) return print_done(kij_set_bool(control, about->property, words[1].number != 0));
    return is_number(&words[1]) && print_done(kij_set_int(control, about->property, words[1].number));
}

static bool run_deliver(kij_control *control, const run_word *words, size_t count) {
    static const char *const replies[] = {"retry", "clear", "continue"};
    static const kij_reply codes[] = {KIJ_ER_RETRY, KIJ_ER_CLEAR, KIJ_ER_CONTINUEINPUT};
    kij_reply reply = KIJ_ER_DEFAULT;
    kij_event event;
    for (size_t place = 0; place < 3 && count == 1; place++)
        if (strcmp(words[0].text, replies[place]) == 0) reply = codes[place];
    if (count > 1 || (count == 1 && reply == KIJ_ER_DEFAULT)) return false;
    kij_result result = kij_next_event_replied(control, reply, &event);
    if (result.code != KIJ_OK) return print_done(result);
    typed++;
    switch (event.kind) {
    case KIJ_NO_EVENT: printf("none\n"); break;
    case KIJ_STATUS_UPDATE_EVENT: printf("event StatusUpdateEvent %d\n", event.status); break;
    case KIJ_DATA_EVENT: printf("event DataEvent 0\n"); break;
    case KIJ_ERROR_EVENT:
        printf("event ErrorEvent %d %d %d\n", event.error.code, event.error.extended, event.locus);
        break;
    case KIJ_OUTPUT_COMPLETE_EVENT: printf("event OutputCompleteEvent %lld\n", (long long)event.output_id); break;
    }
    return true;
}

static bool run_new(run_word *name, const run_word *words, size_t count) {
    static const char *const categories[] = {"CashDrawer", "Scanner", "LineDisplay", "POSPrinter", "HardTotals"};
    if (count != 1 || !is_device(name)) return false;
    for (int place = 0; place < 5; place++) {
        if (strcmp(words[0].text, categories[place]) != 0) continue;
        kij_result result = kij_new(till, (kij_category)(place + 1), name->text, &controls[control_count]);
        if (result.code == KIJ_OK) control_count++;
        return print_done(result);
    }
    return false;
}

static bool run_input(const char *device, run_word *words, size_t count) {
    const char *word = count == 0 ? "" : words[0].text, *second = count == 2 ? words[1].text : "";
    if (count == 1 && strcmp(word, "open") == 0) return print_done(kij_input_drawer(till, device, true));
    if (count == 1 && strcmp(word, "closed") == 0) return print_done(kij_input_drawer(till, device, false));
    if (count == 1 && strcmp(word, "fault") == 0) return print_done(kij_input_scan_fault(till, device));
    if (strcmp(word, "cover") == 0 && strcmp(second, "open") == 0)
        return print_done(kij_input_cover(till, device, true));
    if (strcmp(word, "cover") == 0 && strcmp(second, "closed") == 0)
        return print_done(kij_input_cover(till, device, false));
    if (strcmp(word, "power") == 0 && strcmp(second, "on") == 0) return print_done(kij_input_power(till, device, true));
    if (strcmp(word, "power") == 0 && strcmp(second, "off") == 0)
        return print_done(kij_input_power(till, device, false));
    if (count == 2 && strcmp(word, "paper") == 0 && is_number(&words[1]))
        return print_done(kij_input_paper(till, device, words[1].number));
    if (count != 4 || strcmp(word, "scan") != 0 || !is_number(&words[1]) || !is_bytes(&words[2]) ||
        !is_bytes(&words[3]))
        return false;
    return print_done(
        kij_input_scan(till, device, words[1].number, words[2].data, words[2].size, words[3].data, words[3].size));
}

static bool run_work(const char *device) {
    kij_work_report report;
    kij_result result = kij_work(till, device, &report);
    if (result.code != KIJ_OK) return print_done(result);
    typed++;
    if (report.kind == KIJ_IDLE) printf("idle\n");
    else if (report.kind == KIJ_WORK_DONE) printf("done %lld\n", (long long)report.output_id);
    else printf("failed %d %d\n", report.error.code, report.error.extended);
    return true;
}

static bool run_show(const char *device) {
    const char *text = "";
    kij_result result = kij_show(till, device, &text);
    if (result.code != KIJ_OK) return print_done(result);
    typed++;
    printf(text[0] == 0 ? "ok\n" : "ok %s\n", text);
    return true;
}

/* Runs a line by a typed call: false where it has none. */
static bool run_words(run_word *words, size_t count) {
    if (count < 2) return false;
    const char *verb = words[0].text, *name = words[1].text;
    run_word *rest = words + 2;
    if (strcmp(verb, "new") == 0) return run_new(&words[1], rest, count - 2);
    if (strcmp(verb, "input") == 0) return run_input(name, rest, count - 2);
    if (strcmp(verb, "work") == 0 && count == 2) return run_work(name);
    if (strcmp(verb, "show") == 0 && count == 2) return run_show(name);
    if (strcmp(verb, "detach") == 0 && count == 2) return print_done(kij_detach(till, name));
    if (strcmp(verb, "attach") == 0)
        return count == 3 && is_number(rest) && print_done(kij_attach(till, name, rest[0].number));
    kij_control *control = control_named(name);
    if (control == NULL) return false;
    if (strcmp(verb, "get") == 0) return run_get(control, rest, count - 2);
    if (strcmp(verb, "set") == 0) return run_set(control, rest, count - 2);
    if (strcmp(verb, "deliver") == 0) return run_deliver(control, rest, count - 2);
    return run_a_method(verb, control, rest, count - 2);
}

static bool is_quiet(const char *line, size_t size) {
    size_t spaces = 0;
    while (spaces < size && line[spaces] == ' ') spaces++;
    return spaces == size || line[0] == '#';
}

/* Whether a line is one of words alone, few enough; they are cut off one another. */
static bool is_cut(char *line, size_t size, run_word *words, size_t *count) {
    *count = 0;
    for (size_t place = 0; place < size; place++)
        if (line[place] < 0x20 || line[place] > 0x7e) return false;
    for (char *at = strtok(line, " "); at != NULL; at = strtok(NULL, " ")) {
        if (*count == MOST_WORDS) return false;
        run_word word = {at, 0, NULL, 0};
        words[(*count)++] = word;
    }
    return true;
}

static void run_line(const char *line, size_t size) {
    run_word words[MOST_WORDS];
    size_t count;
    const char *answer;
    char *copy = (char *)malloc(size + 1);
    if (copy == NULL) fail("no memory");
    memcpy(copy, line, size);
    copy[size] = 0;
    if (!is_quiet(line, size) && !(size <= 140000 && is_cut(copy, size, words, &count) && run_words(words, count))) {
        by_text++;
        fprintf(stderr, "text: %.*s\n", size > 100 ? 100 : (int)size, line);
        kij_result result = kij_carry_out(till, line, size, &answer);
        if (result.code != KIJ_OK) fail(kij_strerror(result));
        printf("%s", answer);
    }
    free(copy);
}

/* Reads a file to its end, or standard input. */
static char *read_all(FILE *from, size_t *size) {
    size_t room = 1 << 16;
    char *text = (char *)malloc(room);
    *size = 0;
    while (text != NULL && from != NULL) {
        size_t found = fread(text + *size, 1, room - *size - 1, from);
        if (found == 0) break;
        *size += found;
        if (*size + 1 == room) text = (char *)realloc(text, room *= 2);
    }
    if (text == NULL || from == NULL) fail("nothing to read");
    text[*size] = 0;
    return text;
}

int main(int count, char **words) {
    size_t size;
    char *profile = NULL;
    if (count != 3) return fprintf(stderr, "usage: run PROFILE|- FILE|- < SCRIPT\n"), 2;
    if (strcmp(words[1], "-") != 0) {
        FILE *file = fopen(words[1], "rb");
        profile = read_all(file, &size);
        fclose(file);
    }
    kij_result result = kij_open(profile, strcmp(words[2], "-") == 0 ? NULL : words[2], KIJ_EXISTING, &till);
    free(profile);
    if (result.code != KIJ_OK) fail(kij_strerror(result));
    char *script = read_all(stdin, &size);
    for (size_t at = 0; at < size;) {
        char *end = (char *)memchr(script + at, '\n', size - at);
        size_t length = end == NULL ? size - at : (size_t)(end - script) - at;
        run_line(script + at, length > 0 && end != NULL && script[at + length - 1] == '\r' ? length - 1 : length);
        at += length + 1;
    }
    free(script);
    kij_close(till);
    fprintf(stderr, "%lu typed, %lu by text\n", typed, by_text);
    return 0;
}
