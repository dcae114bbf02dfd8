/* The file of a till's totals: it is opened or created and locked, and what the till's disk does is done in it. And
   copies of such files. */
#ifndef _GNU_SOURCE
#define _GNU_SOURCE
#endif
#include "kij_internal.h"
#include <errno.h>
#include <fcntl.h>
#include <limits.h>
#include <stdio.h>
#include <stdlib.h>
#include <string.h>
#include <sys/file.h>
#include <sys/stat.h>
#include <unistd.h>

/* How often a file is opened in whose place a program puts another one before it is locked. */
enum { MOST_TURNS = 10 };

int kij_internal_off_streams(int file) {
    if (file < 0 || file > STDERR_FILENO) return file;
    int moved = fcntl(file, F_DUPFD_CLOEXEC, STDERR_FILENO + 1);
    int why = errno;
    close(file);
    errno = why;
    return moved;
}

/* Whether all of the bytes are written to a place of a file; else errno says why. */
static bool is_written(int file, const uint8_t *bytes, size_t size, uint64_t at) {
    size_t done = 0;
    while (done < size) {
        ssize_t count = pwrite(file, bytes + done, size - done, (off_t)(at + done));
        if (count > 0) done += (size_t)count;
        else if (count == 0) return errno = EIO, false;
        else if (errno != EINTR) return false;
    }
    return true;
}

bool kij_internal_is_synced(int file) {
    int found;
    do found = fsync(file);
    while (found != 0 && errno == EINTR);
    return found == 0;
}

int kij_internal_sync_first(int file) {
    return kij_internal_is_synced(file) || errno == EINVAL || errno == EROFS ? 0 : errno;
}

int kij_internal_read_file(int file, uint8_t *bytes, size_t *size) {
    ssize_t found = 1;
    *size = 0;
    while (found != 0 && *size < KIJOLVAR_DISK_LENGTH) {
        found = pread(file, bytes + *size, KIJOLVAR_DISK_LENGTH - *size, (off_t)*size);
        if (found > 0) *size += (size_t)found;
        else if (found < 0 && errno != EINTR) return errno;
    }
    return 0;
}

int kij_internal_disk_failed(kij_till *till) {
    if (till->disk_error == 0) till->disk_error = ENOMEM;
    return KIJ_DISK_FAILED;
}

uint32_t kij_internal_settle(kij_till *till) {
    for (;;) {
        uint64_t at = 0;
        size_t count = 0;
        uint32_t code =
            kijolvar_next_errand(till->inner, &till->inner.at, &at, till->errand, KIJOLVAR_DISK_LENGTH, &count);
        if (code == KIJOLVAR_OK) return code;
        /* Unless the file says why. */
        errno = EIO;
        /* A process that was forked has a copy of the till, and would write over what the till itself has written. */
        if (till->process != getpid()) errno = EPERM;
        else if (code == KIJOLVAR_WRITE && is_written(till->file, till->errand, count, at)) continue;
        else if (code == KIJOLVAR_SYNC && kij_internal_is_synced(till->file)) continue;
        int why = errno;
        if (till->disk_error == 0) till->disk_error = why;
        kijolvar_errand_failed(till->inner, &till->inner.at);
        errno = why;
        return KIJOLVAR_DISK_FAILED;
    }
}

/* A call of the library that makes a till over a file's bytes. */
typedef uint32_t (*begins)(const uint8_t *profile, size_t size, const uint8_t *bytes, size_t length, void **till);

/* Opens the till over the file's bytes: 0, or errno, or a code of enum kij_code with a minus. */
static int open_over_file(kij_till *till, const uint8_t *profile, size_t size, begins begin) {
    size_t length = 0;
    till->errand = (uint8_t *)malloc(KIJOLVAR_DISK_LENGTH);
    if (till->errand == NULL) return -KIJ_NO_MEMORY;
    int why = kij_internal_read_file(till->file, till->errand, &length);
    if (why != 0) return why;
    uint32_t code = begin(profile, size, till->errand, length, &till->inner.at);
    if (code != KIJOLVAR_OK || kij_internal_settle(till) == KIJOLVAR_OK) return -kij_internal_code_of(code);
    /* There is no till that could be asked why. */
    why = errno;
    kijolvar_close(till->inner);
    till->inner.at = NULL;
    return why;
}

/* What the library's code means to who opens a till. */
int kij_internal_code_of(uint32_t code) {
    switch (code) {
    case KIJOLVAR_OK: return KIJ_OK;
    case KIJOLVAR_NO_MEMORY: return KIJ_NO_MEMORY;
    case KIJOLVAR_BAD_PROFILE: return KIJ_BAD_PROFILE;
    case KIJOLVAR_TOO_SMALL: return KIJ_TOO_SMALL;
    case KIJOLVAR_UNFORMATTED: return KIJ_UNFORMATTED;
    case KIJOLVAR_DAMAGED: return KIJ_DAMAGED;
    case KIJOLVAR_MOVED: return KIJ_MOVED;
    default: return KIJ_DISK_FAILED;
    }
}

int kij_internal_open_till(kij_till *till, const char *profile) {
    const uint8_t *text = (const uint8_t *)profile;
    size_t size = profile == NULL ? 0 : strlen(profile);
    if (till->file < 0) return -kij_internal_code_of(kijolvar_open(text, size, &till->inner.at));
    return open_over_file(till, text, size, kijolvar_open_file);
}

/* Unlocks a file and closes it, and returns an error. A process that was forked meanwhile would keep it locked. */
static int dropped(int file, int why) {
    (void)flock(file, LOCK_UN);
    close(file);
    return why;
}

/* Opens the folder that a path is in, and says by which name it has the path's file.

   This and each function below returns 0, or errno, or a code of the layer below 0. */
static int open_folder(const char *path, const char **name, int *folder) {
    const char *slash = strrchr(path, '/');
    size_t size = slash == NULL ? 1 : (size_t)(slash + 1 - path);
    char *text = (char *)malloc(size + 1);
    *name = slash == NULL ? path : slash + 1;
    if (text == NULL) return -KIJ_NO_MEMORY;
    memcpy(text, slash == NULL ? "." : path, size);
    text[size] = 0;
    *folder = open(text, O_RDONLY | O_DIRECTORY | O_CLOEXEC);
    int why = *folder < 0 ? errno : 0;
    free(text);
    return why;
}

/* Checks that a path still names an open file. EWOULDBLOCK if it names another one. */
static int check_name(int file, const char *path) {
    /* fstat would need glibc 2.33. */
    struct statx opened, named;
    if (statx(file, "", AT_EMPTY_PATH, STATX_INO, &opened) != 0) return errno;
    if (statx(AT_FDCWD, path, 0, STATX_INO, &named) != 0) return errno;
    bool is_same = opened.stx_ino == named.stx_ino && opened.stx_dev_major == named.stx_dev_major &&
                   opened.stx_dev_minor == named.stx_dev_minor;
    return is_same ? 0 : EWOULDBLOCK;
}

/* Opens a file that is there, and locks it. A program may have put another file in its place before it was locked, as
   `kijolvar restore --replace` does: then that one is opened. A path that leads to a serial line isn't waited for, and
   that isn't this process's terminal from then on. */
static int open_locked(const char *path, int *file) {
    int why = 0;
    for (int turn = 0; turn < MOST_TURNS; turn++) {
        *file = kij_internal_off_streams(open(path, O_RDWR | O_NONBLOCK | O_NOCTTY | O_CLOEXEC));
        if (*file < 0) return errno;
        if (flock(*file, LOCK_EX | LOCK_NB) != 0) return dropped(*file, errno);
        why = check_name(*file, path);
        if (why == 0) return 0;
        (void)dropped(*file, why);
    }
    return why;
}

/* Opens the folder that a path's file is in: where the path is a link, that of the file to which it leads. */
static int open_folder_of_file(const char *path, int *folder) {
    const char *name, *from = path;
    char found[PATH_MAX];
    if (readlink(path, found, 1) > 0) from = realpath(path, found);
    return from == NULL ? errno : open_folder(from, &name, folder);
}

/* Opens a file that is there, locks it, and syncs it. Its folder is synced too, since a creation that was killed may
   have named the file and not synced its name. */
static int open_existing(const char *path, int *file) {
    int folder;
    int why = open_locked(path, file);
    if (why != 0) return why;
    why = kij_internal_sync_first(*file);
    if (why == 0) why = open_folder_of_file(path, &folder);
    if (why != 0) return dropped(*file, why);
    if (!kij_internal_is_synced(folder)) why = errno;
    close(folder);
    return why == 0 ? 0 : dropped(*file, why);
}

/* Makes a file of no bytes one of totals without files. The profile is that of the till which is to be opened over it,
   so that a refused one creates nothing. */
static int format(int file, const char *profile) {
    kij_till till;
    memset(&till, 0, sizeof till);
    till.file = file;
    till.process = getpid();
    till.errand = (uint8_t *)calloc(1, KIJOLVAR_DISK_LENGTH);
    if (till.errand == NULL) return -KIJ_NO_MEMORY;
    uint32_t code = kijolvar_format_file((const uint8_t *)profile, profile == NULL ? 0 : strlen(profile), till.errand,
                                         KIJOLVAR_DISK_LENGTH, &till.inner.at);
    int why = code == KIJOLVAR_OK ? 0 : -kij_internal_code_of(code);
    if (code == KIJOLVAR_OK) {
        /* All of it has its place on the disk from now on, but on Btrfs, which puts each change in a new one. */
        if (!is_written(file, till.errand, KIJOLVAR_DISK_LENGTH, 0)) why = errno;
        else if (kij_internal_settle(&till) != KIJOLVAR_OK) why = errno;
        kijolvar_close(till.inner);
    }
    free(till.errand);
    return why;
}

/* Gives the file without a name, which is whole and synced, its name. */
static int name_file(int file, int folder, const char *name) {
    char unnamed[32];
    snprintf(unnamed, sizeof unnamed, "/proc/self/fd/%d", file);
    if (linkat(AT_FDCWD, unnamed, folder, name, AT_SYMLINK_FOLLOW) != 0) return errno;
    return kij_internal_is_synced(folder) ? 0 : errno;
}

/* Creates a file of totals without files, and locks it. It gets its name when it is whole, so a crash leaves nothing or
 * all. */
static int create_new(const char *path, const char *profile, int *file) {
    const char *name;
    int folder;
    int why = open_folder(path, &name, &folder);
    if (why != 0) return why;
    *file = kij_internal_off_streams(openat(folder, ".", O_RDWR | O_TMPFILE | O_CLOEXEC, 0600));
    if (*file < 0) return dropped(folder, errno);
    if (flock(*file, LOCK_EX | LOCK_NB) != 0) why = errno;
    if (why == 0) why = format(*file, profile);
    if (why == 0) why = name_file(*file, folder, name);
    close(folder);
    return why == 0 ? 0 : dropped(*file, why);
}

int kij_internal_open_file(const char *path, int flags, const char *profile, int *file) {
    if (flags == KIJ_CREATE_NEW) return create_new(path, profile, file);
    int why = open_existing(path, file);
    if (why == ENOENT && flags == KIJ_CREATE) why = create_new(path, profile, file);
    /* Another till created it in between. */
    if (why == EEXIST && flags == KIJ_CREATE) why = open_existing(path, file);
    return why;
}

/* Makes a file of a name in a folder, synced. If that fails after it was made, it is removed again. */
static int write_part(int folder, const char *part, const uint8_t *bytes, size_t size) {
    int file = openat(folder, part, O_WRONLY | O_CREAT | O_EXCL | O_CLOEXEC, 0600);
    if (file < 0) return errno;
    file = kij_internal_off_streams(file);
    int why = file >= 0 && is_written(file, bytes, size, 0) && kij_internal_is_synced(file) ? 0 : errno;
    if (file >= 0) close(file);
    if (why != 0) (void)unlinkat(folder, part, 0);
    return why;
}

/* Whether a second name was refused as it is where a file has one name, such as on a FAT stick. */
static bool has_one_name(int why) { return why == EPERM || why == EACCES || why == EOPNOTSUPP || why == ENOSYS; }

/* Gives the file of a name in a folder another name there, in place of its own. An empty file takes that first, so that
   nothing which has it is replaced; it is removed again if the renaming fails. */
static int take_name(int folder, const char *part, const char *name) {
    int file = openat(folder, name, O_WRONLY | O_CREAT | O_EXCL | O_CLOEXEC, 0600);
    if (file < 0) return errno;
    close(file);
    if (renameat(folder, part, folder, name) == 0) return 0;
    int why = errno;
    (void)unlinkat(folder, name, 0);
    return why;
}

/* Gives the file of a name in a folder another name there, which nothing has, and takes its own away. Where a file has
   one name, it gets the new one in place of that. */
static int link_part(int folder, const char *part, const char *name) {
    int why = linkat(folder, part, folder, name, 0) == 0 ? 0 : errno;
    bool is_renamed = false;
    if (has_one_name(why)) {
        why = take_name(folder, part, name);
        is_renamed = why == 0;
    }
    if (!is_renamed && unlinkat(folder, part, 0) != 0 && why == 0) why = errno;
    return why == 0 && !kij_internal_is_synced(folder) ? errno : why;
}

int kij_internal_put_file(const char *path, const uint8_t *bytes, size_t size) {
    static const char end[] = ".part";
    const char *name;
    int folder;
    int why = open_folder(path, &name, &folder);
    if (why != 0) return why;
    size_t length = strlen(name);
    char *part = (char *)malloc(length + sizeof end);
    if (part == NULL) why = -KIJ_NO_MEMORY;
    else {
        memcpy(part, name, length);
        memcpy(part + length, end, sizeof end);
        why = write_part(folder, part, bytes, size);
        if (why == 0) why = link_part(folder, part, name);
    }
    free(part);
    close(folder);
    return why;
}

int kij_internal_move_file(const char *path) {
    kij_till till;
    memset(&till, 0, sizeof till);
    till.process = getpid();
    int why = open_existing(path, &till.file);
    if (why != 0) return why;
    why = open_over_file(&till, NULL, 0, kijolvar_migrate_file);
    if (why == 0) kijolvar_close(till.inner);
    free(till.errand);
    return dropped(till.file, why);
}
