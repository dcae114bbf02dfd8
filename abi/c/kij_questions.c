/* What the library says of a profile and of a file of totals, without a till. */
#ifndef _GNU_SOURCE
#define _GNU_SOURCE
#endif
#include "kij_internal.h"
#include <errno.h>
#include <fcntl.h>
#include <stdlib.h>
#include <string.h>
#include <sys/file.h>
#include <unistd.h>

/* How often a file is read again that changes from one reading to the next. */
enum { MOST_READINGS = 1000 };

static kij_result plain(int code) { return kij_internal_result(code, 0, KIJ_NO_CATEGORY); }

/* Whether the library is of this version: the answers of another one may mean something else. */
static bool is_of_version(void) { return kijolvar_version() == KIJOLVAR_VERSION; }

static size_t size_of(const char *profile) { return profile == NULL ? 0 : strlen(profile); }

/* Writes the line and the column of a place in a text, which count from 1. */
static void place_in(const char *text, size_t at, kij_mistake *mistake) {
    mistake->line = mistake->column = 1;
    for (size_t place = 0; place < at; place++) {
        unsigned char byte = (unsigned char)text[place];
        if (byte == '\n') {
            mistake->line++;
            mistake->column = 1;
        } else if ((byte & 0xc0) != 0x80) mistake->column++;
    }
}

kij_result kij_profile_mistake(const char *profile, kij_mistake *mistake) {
    /* No place: the library writes one where the text stops being TOML. */
    uint64_t at = UINT64_MAX;
    size_t needed = 0;
    kij_mistake found;
    if (mistake == NULL) return plain(KIJ_BAD_ARGUMENT);
    if (!is_of_version()) return plain(KIJ_WRONG_VERSION);
    profile = kij_internal_profile(profile);
    memset(&found, 0, sizeof found);
    uint32_t code = kijolvar_profile_mistake((const uint8_t *)profile, size_of(profile), &at, (uint8_t *)found.reason,
                                             sizeof found.reason - 1, &needed);
    if (code == KIJOLVAR_NO_MEMORY) return plain(KIJ_NO_MEMORY);
    if (at != UINT64_MAX) place_in(profile, (size_t)at, &found);
    *mistake = found;
    return plain(code == KIJOLVAR_OK ? KIJ_OK : KIJ_BAD_PROFILE);
}

/* The category of a word. */
static kij_category category_of(const char *word, size_t size) {
    static const char *const words[] = {"CashDrawer", "Scanner", "LineDisplay", "POSPrinter", "HardTotals"};
    for (size_t place = 0; place < sizeof words / sizeof words[0]; place++)
        if (strlen(words[place]) == size && memcmp(words[place], word, size) == 0) return (kij_category)(place + 1);
    return KIJ_NO_CATEGORY;
}

/* Takes the number after a key in a line, or 0 if the key isn't there. */
static int number_at(const char *line, const char *key) {
    const char *found = strstr(line, key);
    return found == NULL ? 0 : (int)strtol(found + strlen(key), NULL, 10);
}

/* Reads `NAME CATEGORY KEY NUMBER ..`. */
static void read_device(const char *line, kij_device *device) {
    size_t name = strcspn(line, " ");
    const char *word = line + name + 1;
    memset(device, 0, sizeof *device);
    memcpy(device->name, line, name < sizeof device->name ? name : sizeof device->name - 1);
    device->category = category_of(word, strcspn(word, " "));
    device->rows = number_at(line, " rows ");
    device->columns = number_at(line, " columns ");
    device->chars = number_at(line, " chars ");
    device->near_end = number_at(line, " near ");
}

/* Reads the lines of devices, as many as there is room for, and counts all. */
static size_t read_devices(char *text, kij_device *devices, size_t room) {
    size_t count = 0;
    for (char *line = text, *end; (end = strchr(line, '\n')) != NULL; line = end + 1, count++) {
        *end = 0;
        if (count < room) read_device(line, &devices[count]);
    }
    return count;
}

kij_result kij_devices(const char *profile, kij_device *devices, size_t room, size_t *count) {
    size_t size = 4096, needed = 0;
    if (count == NULL || (devices == NULL && room != 0)) return plain(KIJ_BAD_ARGUMENT);
    if (!is_of_version()) return plain(KIJ_WRONG_VERSION);
    profile = kij_internal_profile(profile);
    for (;;) {
        char *text = (char *)malloc(size);
        if (text == NULL) return plain(KIJ_NO_MEMORY);
        uint32_t code =
            kijolvar_devices((const uint8_t *)profile, size_of(profile), (uint8_t *)text, size - 1, &needed);
        if (code == KIJOLVAR_OK) {
            text[needed] = 0;
            *count = read_devices(text, devices, room);
        }
        free(text);
        if (code != KIJOLVAR_SHORT) return plain(code == KIJOLVAR_BAD_PROFILE ? KIJ_BAD_PROFILE : (int)code);
        size = needed + 1;
    }
}

/* Reads a file that no till has open, as many bytes as totals have: 0, or errno, or KIJ_NO_MEMORY with a minus. */
static int read_file(int file, uint8_t **bytes, size_t *size) {
    if (flock(file, LOCK_SH | LOCK_NB) != 0) return errno;
    int why = kij_internal_sync_first(file);
    if (why != 0) return why;
    *bytes = (uint8_t *)malloc(KIJOLVAR_DISK_LENGTH);
    if (*bytes == NULL) return -KIJ_NO_MEMORY;
    why = kij_internal_read_file(file, *bytes, size);
    if (why != 0) free(*bytes);
    return why;
}

/* What the library says of the bytes of a file. */
static kij_result survey(const uint8_t *bytes, size_t size, char *text, size_t room, size_t *needed, uint64_t *place) {
    uint64_t at = UINT64_MAX;
    size_t count = 0;
    uint32_t code = kijolvar_survey(bytes, size, &at, (uint8_t *)text, room > 0 ? room - 1 : 0, &count);
    if (code == KIJOLVAR_NO_MEMORY) return plain(KIJ_NO_MEMORY);
    *needed = count;
    if (room > 0) text[count < room ? count : room - 1] = 0;
    if (at == UINT64_MAX) return plain(code == KIJOLVAR_SHORT ? KIJ_OK : kij_internal_code_of(code));
    *place = at;
    return plain(KIJ_DAMAGED);
}

kij_result kij_files(const char *path, char *text, size_t room, size_t *needed, uint64_t *place) {
    uint8_t *bytes = NULL;
    size_t size = 0;
    if (path == NULL || needed == NULL || place == NULL || (text == NULL && room != 0)) return plain(KIJ_BAD_ARGUMENT);
    if (!is_of_version()) return plain(KIJ_WRONG_VERSION);
    int file = open(path, O_RDONLY | O_NONBLOCK | O_CLOEXEC);
    int why = file < 0 ? errno : read_file(file, &bytes, &size);
    if (file >= 0) {
        /* A process that was forked meanwhile would keep it locked. */
        (void)flock(file, LOCK_UN);
        close(file);
    }
    if (why != 0) return why < 0 ? plain(-why) : kij_internal_result(KIJ_SYSTEM, why, KIJ_NO_CATEGORY);
    kij_result result = survey(bytes, size, text, room, needed, place);
    free(bytes);
    return result;
}

/* Reads a file that a till may be writing: 0, or errno. It has had these bytes at a moment, since two readings gave
   them, one right after the other. There is room for both. EWOULDBLOCK if it changes each time. */
static int read_steady(int file, uint8_t *bytes, size_t *size) {
    uint8_t *before = bytes + KIJOLVAR_DISK_LENGTH;
    size_t count = 0;
    int why = kij_internal_read_file(file, before, &count);
    for (int turn = 0; why == 0 && turn < MOST_READINGS; turn++) {
        why = kij_internal_read_file(file, bytes, size);
        if (why == 0 && *size == count && memcmp(bytes, before, count) == 0) return 0;
        count = *size;
        memcpy(before, bytes, count);
    }
    return why == 0 ? EWOULDBLOCK : why;
}

kij_result kij_backup(const char *path, const char *to) {
    size_t size = 0, needed = 0;
    uint64_t place = 0;
    if (path == NULL || to == NULL) return plain(KIJ_BAD_ARGUMENT);
    if (!is_of_version()) return plain(KIJ_WRONG_VERSION);
    uint8_t *bytes = (uint8_t *)malloc(2 * (size_t)KIJOLVAR_DISK_LENGTH);
    if (bytes == NULL) return plain(KIJ_NO_MEMORY);
    int file = open(path, O_RDONLY | O_NONBLOCK | O_CLOEXEC);
    int why = file < 0 ? errno : read_steady(file, bytes, &size);
    if (file >= 0) close(file);
    kij_result result = plain(KIJ_OK);
    if (why == 0) result = survey(bytes, size, NULL, 0, &needed, &place);
    if (why == 0 && result.code == KIJ_OK) why = kij_internal_put_file(to, bytes, size);
    free(bytes);
    if (why == 0) return result;
    return why < 0 ? plain(-why) : kij_internal_result(KIJ_SYSTEM, why, KIJ_NO_CATEGORY);
}

kij_result kij_migrate(const char *path) {
    if (path == NULL) return plain(KIJ_BAD_ARGUMENT);
    if (!is_of_version()) return plain(KIJ_WRONG_VERSION);
    int why = kij_internal_move_file(path);
    return why <= 0 ? plain(-why) : kij_internal_result(KIJ_SYSTEM, why, KIJ_NO_CATEGORY);
}
