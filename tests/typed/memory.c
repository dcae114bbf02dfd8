/* Refuses each allocation in turn, of the typed layer and of the library, over a small day with totals in memory and
   one with totals in a file. Each call answers KIJ_OK, KIJ_NO_MEMORY or KIJ_NO_ANSWER, or KIJ_DISK_FAILED where the
   totals are in a file; no call writes through a pointer of its caller's where it fails; and nothing is left. Link it
   with --wrap=malloc,calloc,realloc,strdup, strndup. Usage: memory FILE */
#include "kij.h"
#include <stdio.h>
#include <stdlib.h>
#include <string.h>
#include <unistd.h>

#ifdef __cplusplus
extern "C" {
#endif
void *__real_malloc(size_t size);
void *__real_calloc(size_t count, size_t size);
void *__real_realloc(void *at, size_t size);
void __real_free(void *at);
void *__wrap_malloc(size_t size);
void *__wrap_calloc(size_t count, size_t size);
void *__wrap_realloc(void *at, size_t size);
void __wrap_free(void *at);
#ifdef __cplusplus
}
#endif

/* How many allocations may come, and how many are there. */
static long may_come, live;

static bool comes(void) { return may_come-- > 0; }

void *__wrap_malloc(size_t size) {
    void *at = comes() ? __real_malloc(size) : NULL;
    live += at != NULL;
    return at;
}

void *__wrap_calloc(size_t count, size_t size) {
    void *at = comes() ? __real_calloc(count, size) : NULL;
    live += at != NULL;
    return at;
}

void *__wrap_realloc(void *at, size_t size) {
    void *found = comes() ? __real_realloc(at, size) : NULL;
    live += found != NULL && at == NULL;
    return found;
}

void __wrap_free(void *at) {
    live -= at != NULL;
    __real_free(at);
}

/* A day: what its calls did. */
typedef struct day {
    const char *file;
    long count;
    bool is_whole;
} day;

/* Whether a call succeeded; the program ends where it answered something else than want of memory. */
static bool done(day *self, const char *what, kij_result result) {
    if (result.code == KIJ_OK) return true;
    bool is_want = result.code == KIJ_NO_MEMORY || result.code == KIJ_NO_ANSWER ||
                   (self->file != NULL && result.code == KIJ_DISK_FAILED);
    if (!is_want) exit(printf("%s: %s where %ld came\n", what, kij_code_name(result.code), self->count));
    self->is_whole = false;
    return false;
}

static kij_reply heard(const kij_event *event, void *with) {
    (*(int *)with)++;
    return event->kind == KIJ_ERROR_EVENT ? KIJ_ER_CLEAR : KIJ_ER_DEFAULT;
}

static void print(day *self, kij_till *till) {
    static char receipt[4096];
    kij_control *printer = (kij_control *)till;
    kij_work_report report;
    int events = 0;
    if (!done(self, "printer", kij_start(till, KIJ_POS_PRINTER, "r1", KIJ_CLAIMED, &printer))) {
        if (printer != (kij_control *)till) exit(printf("a control was written\n"));
        return;
    }
    memset(receipt, 'a', sizeof receipt);
    done(self, "async", kij_set_bool(printer, KIJ_PROP_ASYNC_MODE, true));
    done(self, "print", kij_printer_print(printer, KIJ_PTR_S_RECEIPT, receipt, 20));
    done(self, "cover", kij_input_cover(till, "r1", true));
    done(self, "work", kij_work(till, "r1", &report));
    done(self, "pump", kij_pump_all(till, heard, &events));
    kij_discard(printer);
}

static void store(day *self, kij_till *till) {
    static uint8_t bytes[3000];
    kij_control *totals;
    const uint8_t *data = NULL;
    const char *answer = "";
    size_t size = 77;
    int64_t handle = 77;
    if (!done(self, "totals", kij_start(till, KIJ_HARD_TOTALS, "t1", KIJ_UNCLAIMED, &totals))) return;
    if (!done(self, "create", kij_totals_create(totals, "A", 1, sizeof bytes, false, &handle))) {
        if (handle != 77) exit(printf("a handle was written\n"));
        return;
    }
    done(self, "write", kij_totals_write(totals, handle, 0, bytes, sizeof bytes));
    if (!done(self, "read", kij_totals_read(totals, handle, 0, sizeof bytes, &data, &size)) &&
        (data != NULL || size != 77))
        exit(printf("bytes were written\n"));
    done(self, "text", kij_carry_out(till, "get k1 State\nshow p1", KIJ_ZERO_ENDED, &answer));
}

/* Questions without a till, and a copy. */
static void ask(day *self) {
    kij_mistake mistake;
    char text[8] = "before", copy[4200];
    size_t devices = 77, needed = 77;
    uint64_t place = 77;
    mistake.line = 77;
    if (!done(self, "mistake", kij_profile_mistake(NULL, &mistake)) && mistake.line != 77)
        exit(printf("a mistake was written\n"));
    if (!done(self, "devices", kij_devices(NULL, NULL, 0, &devices)) && devices != 77)
        exit(printf("a count of devices was written\n"));
    if (self->file == NULL) return;
    if (!done(self, "files", kij_files(self->file, text, sizeof text, &needed, &place)) &&
        (needed != 77 || strcmp(text, "before") != 0))
        exit(printf("what a file holds was written\n"));
    snprintf(copy, sizeof copy, "%s.copy", self->file);
    bool is_copied = done(self, "backup", kij_backup(self->file, copy));
    if (is_copied != (unlink(copy) == 0)) exit(printf("a copy is there, or isn't\n"));
}

static bool is_whole(const char *file, long count) {
    day self = {file, count, true};
    kij_till *till = NULL;
    kij_order order;
    if (file != NULL) unlink(file);
    live = 0;
    may_come = count;
    kij_result result = kij_open(NULL, file, file == NULL ? KIJ_EXISTING : KIJ_CREATE, &till);
    if (result.code == KIJ_OK) {
        done(&self, "host", kij_host(till, "r1"));
        print(&self, till);
        store(&self, till);
        done(&self, "order", kij_next_order(till, &order));
        kij_close(till);
        ask(&self);
    } else {
        if (till != NULL) exit(printf("a till was written\n"));
        if (result.code == KIJ_SYSTEM) self.is_whole = false;
        else done(&self, "open", result);
    }
    if (live != 0) exit(printf("%ld allocations are left where %ld came\n", live, count));
    return self.is_whole;
}

/* How many allocations a whole day takes. */
static long whole(const char *file) {
    long count = 0;
    while (!is_whole(file, count))
        if (++count == 10000) exit(printf("never whole\n"));
    return count;
}

int main(int count, char **words) {
    if (count != 2) return fprintf(stderr, "usage: memory FILE\n"), 2;
    long in_memory = whole(NULL);
    printf("%ld and %ld allocations\n", in_memory, whole(words[1]));
    printf("whole in the end, and nothing is left\n");
    return 0;
}
