/* What the parts of the typed layer share, and no caller needs. It is C99 and C++17, like the parts. */
#ifndef KIJ_INTERNAL_H
#define KIJ_INTERNAL_H

#include "kij.h"
#include "kijolvar.h"
#include <string.h>
#include <sys/types.h>

/* A word of a line. All but verbs begin with the space before them. There is room behind it, so that a fixed number of
   bytes is copied, and the line goes on behind `size` of them. */
enum { KIJ_WORD_ROOM = 24 };

typedef struct kij_word {
    char text[KIJ_WORD_ROOM];
    size_t size;
} kij_word;

/* A word by its text. */
#define KIJ_WORD(text)                                                                                                 \
    { text, sizeof text - 1 }

/* The verbs, in the order of kij_internal_verbs. */
typedef enum kij_verb {
    KIJ_VERB_CALL,
    KIJ_VERB_GET,
    KIJ_VERB_SET,
    KIJ_VERB_DELIVER,
    KIJ_VERB_OPEN,
    KIJ_VERB_CLOSE,
    KIJ_VERB_CLAIM,
    KIJ_VERB_RELEASE,
    KIJ_VERB_NEW,
    KIJ_VERB_INPUT,
    KIJ_VERB_WORK,
    KIJ_VERB_SHOW,
    KIJ_VERB_ATTACH,
    KIJ_VERB_DETACH
} kij_verb;

/* A call that a control refused: its line, but for the name and the arguments, and what came of it. The method is that
   of a call, or the property; or null. The text says why, if it isn't static; else it is empty. */
typedef struct kij_refusal {
    kij_verb verb;
    const kij_word *method;
    kij_result result;
    char text[200];
} kij_refusal;

/* A till: the library's, the file of its totals, the line that is written, and the answer that is read. */
struct kij_till {
    kijolvar_till inner;
    /* The file of the totals, or -1, and the process that opened it; and room for what is written to it. */
    int file;
    pid_t process;
    uint8_t *errand;
    /* Why the file failed: errno, or 0 if it hasn't. */
    int disk_error;
    char *line;
    size_t line_room;
    /* The answer ends in a 0 byte, which isn't counted. */
    char *text;
    size_t text_room;
    size_t text_size;
    /* The controls, the oldest first. */
    kij_control *first;
    kij_control *last;
    /* How many names were made up. */
    unsigned long names;
    /* Whether a call is under way; it is changed atomically. */
    int busy;
    /* The devices that are driven (kij_hardware.h); null while none ever was. */
    struct kij_drives *drives;
    /* Whether lines of an earlier call are held, since there was no memory to go on with them. */
    bool is_holding;
    /* Whether orders are of output that waits: the line is a `work` line. */
    bool is_working;
    /* Whether lines may have opened a control: on which device it is isn't known then. */
    bool has_opened;
    /* Whether a control was given back that couldn't be closed. */
    bool has_unclosed;
    /* What a control refused in the last call; of the code KIJ_OK if none did. */
    kij_refusal refusal;
};

struct kij_control {
    kij_till *till;
    kij_control *next;
    kij_category category;
    /* The library's number of it. */
    size_t number;
    /* Whether it was given back and may be handed out again, or has to be closed first; whether its name was chosen. */
    bool is_free;
    bool is_unclosed;
    bool is_named;
    /* How often it was given back. */
    unsigned long turn;
    kij_word name;
    /* The device on which it was opened last, but for lines; without a size there is none. Whether it is open there. */
    kij_word device;
    bool is_open;
};

/* What a call is given, and what it returns. */
typedef enum kij_shape { KIJ_SHAPE_NONE, KIJ_SHAPE_NUMBER, KIJ_SHAPE_PAIR, KIJ_SHAPE_BYTES, KIJ_SHAPE_TRUTH } kij_shape;

/* An argument: a number, a truth value, or bytes, of which the number says how many. */
typedef struct kij_argument {
    kij_shape shape;
    int64_t number;
    const uint8_t *data;
} kij_argument;

/* What a call returns: the caller says which shape it has. */
typedef struct kij_value {
    kij_shape shape;
    int64_t number;
    int64_t second;
    const uint8_t *data;
    size_t size;
} kij_value;

/* A property of the table in kij_controls.c. */
typedef struct kij_property_row {
    kij_word word;
    kij_shape shape;
} kij_property_row;

/* A number and its name. */
typedef struct kij_number_row {
    kij_category category;
    int number;
    const char *name;
    const char *text;
} kij_number_row;

/* What a code means of one call of a category, or of all; its word is null if the verb says which it is. */
typedef struct kij_reason_row {
    kij_category category;
    kij_verb verb;
    const char *word;
    int code;
    int extended;
    const char *text;
} kij_reason_row;

#ifdef __GNUC__
#pragma GCC visibility push(hidden)
#endif

extern const kij_property_row kij_internal_properties[];
extern const size_t kij_internal_property_count;
extern const kij_number_row kij_internal_codes[];
extern const size_t kij_internal_code_count;
extern const kij_number_row kij_internal_extended[];
extern const size_t kij_internal_extended_count;
extern const kij_reason_row kij_internal_reasons[];
extern const size_t kij_internal_reason_count;

/* kij_line.c: lines and their answers. */

/* In the order of kij_verb. */
extern const kij_word kij_internal_verbs[];

/* A result of the layer's own. */
static inline kij_result kij_internal_result(int code, int extended, kij_category category) {
    kij_result result = {code, extended, category};
    return result;
}

/* Begins a call: KIJ_IN_CALL where another one is under way. Each call that begins with KIJ_OK ends with leave. */
static inline int kij_internal_enter(kij_till *till) {
    if (till == NULL) return KIJ_BAD_ARGUMENT;
    if (__atomic_exchange_n(&till->busy, 1, __ATOMIC_ACQUIRE) != 0) return KIJ_IN_CALL;
    till->refusal.result.code = KIJ_OK;
    return KIJ_OK;
}

static inline void kij_internal_leave(kij_till *till) { __atomic_store_n(&till->busy, 0, __ATOMIC_RELEASE); }

/* Makes the rooms of a new till for lines and answers: whether there is memory. */
bool kij_internal_rooms(kij_till *till);

/* Makes room for an answer of so many bytes, of which none is kept: whether there is memory. */
bool kij_internal_text(kij_till *till, size_t size);

/* Whether a text may be the name of a control or a device, which is written as a word. */
bool kij_internal_is_name(const char *name, kij_word *word);

/* Carries out `VERB NAME METHOD ARGUMENT ..`, where method may be null, and reads what it returns, if value isn't null.
 */
kij_result kij_internal_call(kij_control *control, kij_verb verb, const kij_word *method, const kij_argument *arguments,
                             size_t count, kij_value *value);

/* What is left to do where the library's answer isn't there yet, the errands and a longer room: a code of enum
 * kij_code. */
int kij_internal_settled(kij_till *till, uint32_t code, size_t *needed);

/* Ends lines of an earlier call that are held: their orders failed, and nobody wants the answer. Without memory some
   are held still. */
void kij_internal_give_up(kij_till *till);

/* Whether a control is closed, by what closing it came to. */
static inline bool kij_internal_is_closed(int code) {
    return code == KIJ_OK || code == KIJ_E_CLOSED || code == KIJ_NO_ANSWER;
}

/* Closes the controls that were given back and couldn't be closed, in a call that has begun. */
void kij_internal_close_given_back(kij_till *till);

/* Adds arguments to the line, which goes to `*at`: a code. Four that aren't bytes have room behind the words. */
int kij_internal_add_arguments(kij_till *till, char **at, const kij_argument *arguments, size_t count);

/* Carries out lines: a code of enum kij_code, and the answer is in the till, without its last line feed where `is_one`
   and the code is KIJ_OK. */
static inline int kij_internal_carry(kij_till *till, const char *lines, size_t size, bool is_one) {
    size_t needed = 0;
    int found = KIJ_OK;
    if (till->is_holding) kij_internal_give_up(till);
    if (till->is_holding) {
        /* The library would go on with those in place of these. */
        till->text_size = 0;
        till->text[0] = 0;
        return KIJ_NO_MEMORY;
    }
    uint32_t code = kijolvar_carry_out(till->inner, &till->inner.at, (const uint8_t *)lines, size,
                                       (uint8_t *)till->text, till->text_room - 1, &needed);
    if (code != KIJOLVAR_OK) found = kij_internal_settled(till, code, &needed);
    if (is_one && found == KIJ_OK && needed > 0) needed--;
    till->text_size = needed;
    till->text[needed] = 0;
    return found;
}

/* Carries out lines: a code of enum kij_code, and the answer is in the till. */
static inline int kij_internal_carry_out(kij_till *till, const char *lines, size_t size) {
    return kij_internal_carry(till, lines, size, false);
}

static inline char *kij_internal_put(char *at, const kij_word *word) {
    memcpy(at, word->text, KIJ_WORD_ROOM);
    return at + word->size;
}

/* Carries out `VERB NAME WORD ARGUMENT ..`, where word may be null, in a call that has begun: a code, and the answer is
   in the till, without its line feed. The words have at most 76 bytes together, for which there is always room. */
static inline int kij_internal_run(kij_till *till, kij_verb verb, const kij_word *name, const kij_word *word,
                                   const kij_argument *arguments, size_t count) {
    char *at = kij_internal_put(kij_internal_put(till->line, &kij_internal_verbs[verb]), name);
    if (word != NULL) at = kij_internal_put(at, word);
    if (count > 0) {
        int code = kij_internal_add_arguments(till, &at, arguments, count);
        if (code != KIJ_OK) return code;
    }
    till->is_working = verb == KIJ_VERB_WORK;
    return kij_internal_carry(till, till->line, (size_t)(at - till->line), true);
}

/* What the answer in the till says: what is behind `ok` is written to value. */
kij_result kij_internal_answer(kij_till *till, kij_category category, char **value);

/* Whether the answer in the till, to a line that delivers an event, is one that output failed. */
static inline bool kij_internal_is_output_error(const char *text) {
    static const char front[] = "event ErrorEvent ";
    size_t size = strcspn(text, "\n");
    return strncmp(text, front, sizeof front - 1) == 0 && memcmp(text + size - 2, " 1", 2) == 0;
}

/* The application has given up what the control's printer didn't print, or any printer if that isn't known: the same
   order is a new one from now on. The control may be null. */
void kij_internal_forget_orders(kij_till *till, const kij_control *control);

/* Reads a number, and what stands behind it. */
bool kij_internal_read_number(char **at, int64_t *number);

/* Turns so many hex digits into bytes where they stand; `-` is none. */
bool kij_internal_read_bytes(char *digits, size_t length, size_t *size);

/* kij_properties.c: writes why the control refused the call that is noted, whose device has no open port for this
   reason (errno). */
void kij_internal_write_reason(kij_refusal *refusal, int why);

/* Arguments. */
static inline kij_argument kij_internal_number(int64_t number) {
    kij_argument argument = {KIJ_SHAPE_NUMBER, number, NULL};
    return argument;
}

static inline kij_argument kij_internal_truth(bool is_true) {
    kij_argument argument = {KIJ_SHAPE_TRUTH, is_true, NULL};
    return argument;
}

static inline kij_argument kij_internal_bytes(const void *data, size_t size) {
    kij_argument argument = {KIJ_SHAPE_BYTES, (int64_t)size, (const uint8_t *)data};
    return argument;
}

/* The text by which the library gets a profile: to it an empty one is the built-in profile, as null is. */
static inline const char *kij_internal_profile(const char *profile) {
    return profile != NULL && *profile == 0 ? "\n" : profile;
}

/* kij_totals_file.c: the file of the totals. Its profiles are texts for the library. */

/* Opens or creates the file for a till over the profile, and locks it: 0, or errno, or a code of enum kij_code with a
 * minus. */
int kij_internal_open_file(const char *path, int flags, const char *profile, int *file);

/* Opens the library's till, over the file if there is one: 0, or errno, or a code of enum kij_code with a minus. */
int kij_internal_open_till(kij_till *till, const char *profile);

/* Moves the totals in a file to layout 2: 0, or errno, or a code of enum kij_code with a minus. */
int kij_internal_move_file(const char *path);

/* Gives an open file a number behind those of the standard streams. A program that has closed one of these, and writes
   to it all the same, would write into the file. The number, or -1 and errno says why; it may be given -1. */
int kij_internal_off_streams(int file);

/* Whether a file or a folder is synced, whatever signals come; else errno says why. */
bool kij_internal_is_synced(int file);

/* Syncs a file before it is read: what a till has written last before it was killed may be in memory alone, and not
   stay. A file system that can't sync can't be written. 0, or errno. */
int kij_internal_sync_first(int file);

/* Reads a file, as many bytes as totals have: 0 or errno. */
int kij_internal_read_file(int file, uint8_t *bytes, size_t *size);

/* Makes a file with these bytes, for its owner alone, at a path where nothing is: 0, or errno, or a code of enum
   kij_code with a minus. It appears whole or not at all; where a file has one name, a crash may leave an empty one. */
int kij_internal_put_file(const char *path, const uint8_t *bytes, size_t size);

/* What the library's code means to who opens a file or a till. */
int kij_internal_code_of(uint32_t code);

/* Notes that there was no memory for what is to be done in the file, unless it failed before: KIJ_DISK_FAILED. */
int kij_internal_disk_failed(kij_till *till);

/* Does in the file what the till's disk did: KIJOLVAR_OK once all of it is there, or KIJOLVAR_DISK_FAILED and errno. */
uint32_t kij_internal_settle(kij_till *till);

#ifdef __GNUC__
#pragma GCC visibility pop
#endif

#endif
