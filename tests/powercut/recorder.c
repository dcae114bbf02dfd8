/* Records what a program does to one file, in order. These are its creation, also without a name at first, its lengths,
   its writes and its syncs. The syncs of its folder are recorded too, and what the program writes to standard output.
   The loader puts it before the C library.
   POWERCUT_FILE is the path of the file, POWERCUT_LOG that of the record, which is appended to. With POWERCUT_STOP the
   program is killed after the write to the file with this number, or, if it is -1, once the file has its name. With
   POWERCUT_FAIL, two numbers, so many writes and syncs of the file fail from the one with the first number on, all if
   the second is -1: of a write half is done, of a sync nothing.
   An entry is a kind, a place and a count, and for a write or an output so many bytes. An act enters the record once it
   is done, but an output before it is made: only what was synced by then makes it true. */
#define _GNU_SOURCE
#include <dlfcn.h>
#include <errno.h>
#include <fcntl.h>
#include <signal.h>
#include <stdarg.h>
#include <stdint.h>
#include <stdio.h>
#include <stdlib.h>
#include <string.h>
#include <sys/stat.h>
#include <sys/syscall.h>
#include <sys/uio.h>
#include <unistd.h>

/* The C library's headers may name one of each two as the other, so these are declared by their symbols. */
#define REAL(kind, name, ...) ((kind(*)(__VA_ARGS__))dlsym(RTLD_NEXT, name))

static int record = -1;
static const char *path;
static char folder[4096];
static long stop;
/* How many writes and syncs the file has had, which of them is the first that fails, and how many fail. */
static long acts, first_failed, failed;
/* A file that has no name yet. */
static dev_t device;
static ino_t nameless;

__attribute__((constructor)) static void begin(void) {
    const char *log = getenv("POWERCUT_LOG"), *last;
    path = getenv("POWERCUT_FILE");
    if (!log || !path || strlen(path) >= sizeof folder) return;
    stop = getenv("POWERCUT_STOP") ? atol(getenv("POWERCUT_STOP")) : 0;
    if (getenv("POWERCUT_FAIL")) sscanf(getenv("POWERCUT_FAIL"), "%ld %ld", &first_failed, &failed);
    last = strrchr(path, '/');
    snprintf(folder, sizeof folder, "%.*s", last ? (int)(last - path) : 1, last ? path : ".");
    record = (int)syscall(SYS_openat, AT_FDCWD, log, O_WRONLY | O_CREAT | O_APPEND | O_CLOEXEC, 0644);
    if (record < 0) abort();
}

static void put(const void *bytes, size_t count) {
    while (count > 0) {
        long done = syscall(SYS_write, record, bytes, count);
        if (done <= 0) abort();
        bytes = (const char *)bytes + done;
        count -= (size_t)done;
    }
}

static void enter(char kind, uint64_t at, uint64_t count, const void *bytes) {
    unsigned char head[17] = {(unsigned char)kind};
    int saved = errno;
    memcpy(head + 1, &at, 8);
    memcpy(head + 9, &count, 8);
    put(head, sizeof head);
    if (bytes) put(bytes, count);
    errno = saved;
}

/* Whether a descriptor is of what lies at a path, or of the file that has no name yet. */
static int is_at(int file, const char *there) {
    struct stat open_one, named;
    int saved = errno, is = 0;
    if (record >= 0 && fstat(file, &open_one) == 0) {
        is = stat(there, &named) == 0 && open_one.st_dev == named.st_dev && open_one.st_ino == named.st_ino;
        is |= there == path && nameless && open_one.st_dev == device && open_one.st_ino == nameless;
    }
    errno = saved;
    return is;
}

static int is_there(void) {
    struct stat named;
    int saved = errno, is = record >= 0 && stat(path, &named) == 0;
    errno = saved;
    return is;
}

static void wrote(uint64_t at, const void *bytes, ssize_t count) {
    enter(count < 0 ? '?' : 'W', at, count < 0 ? 0 : (uint64_t)count, count < 0 ? NULL : bytes);
    if (stop > 0 && --stop == 0) kill(getpid(), SIGKILL);
}

/* Whether a write or a sync is one of the file that fails. */
static int fails(int file) {
    if (first_failed == 0 || !is_at(file, path)) return 0;
    acts++;
    return acts >= first_failed && (failed < 0 || acts < first_failed + failed);
}

static int opened(int file, int flags, int was_there) {
    struct stat made;
    if (record >= 0 && file >= 0 && (flags & O_TMPFILE) == O_TMPFILE && fstat(file, &made) == 0) {
        enter(nameless ? '?' : 'N', 0, 0, NULL);
        device = made.st_dev;
        nameless = made.st_ino;
        return file;
    }
    if (file < 0 || !is_at(file, path)) return file;
    if (!was_there) enter('C', 0, 0, NULL);
    if (was_there && (flags & O_TRUNC)) enter('T', 0, 0, NULL);
    if (flags & (O_DSYNC | O_SYNC)) enter('?', 0, 0, NULL);
    return file;
}

#define OPEN(name)                                                     \
    int name(const char *where, int flags, ...) {                      \
        va_list rest;                                                  \
        va_start(rest, flags);                                         \
        mode_t mode = flags & (O_CREAT | O_TMPFILE) ? va_arg(rest, mode_t) : 0; \
        va_end(rest);                                                  \
        int was_there = is_there();                                    \
        return opened(REAL(int, #name, const char *, int, mode_t)(where, flags, mode), flags, was_there); \
    }
#define OPENAT(name)                                                   \
    int name(int base, const char *where, int flags, ...) {            \
        va_list rest;                                                  \
        va_start(rest, flags);                                         \
        mode_t mode = flags & (O_CREAT | O_TMPFILE) ? va_arg(rest, mode_t) : 0; \
        va_end(rest);                                                  \
        int was_there = is_there();                                    \
        return opened(REAL(int, #name, int, const char *, int, mode_t)(base, where, flags, mode), flags, was_there); \
    }
OPEN(open)
OPEN(open64)
OPENAT(openat)
OPENAT(openat64)

#define PWRITE(name)                                                   \
    ssize_t name(int file, const void *bytes, size_t count, off_t at) { \
        int is_failed = fails(file);                                   \
        if (is_failed) count /= 2;                                     \
        ssize_t done = REAL(ssize_t, #name, int, const void *, size_t, off_t)(file, bytes, count, at); \
        if (is_at(file, path) && count > 0) wrote((uint64_t)at, bytes, done); \
        if (is_failed) errno = EIO;                                    \
        return is_failed ? -1 : done;                                  \
    }
PWRITE(pwrite)
PWRITE(pwrite64)

ssize_t write(int file, const void *bytes, size_t count) {
    int is_output = record >= 0 && file == 1, is_file = !is_output && is_at(file, path);
    off_t at = is_file ? lseek(file, 0, SEEK_CUR) : 0;
    if (is_output) enter('A', 0, count, bytes);
    ssize_t done = REAL(ssize_t, "write", int, const void *, size_t)(file, bytes, count);
    if (is_file) wrote((uint64_t)at, bytes, done);
    return done;
}

ssize_t writev(int file, const struct iovec *parts, int count) {
    for (int part = 0; record >= 0 && file == 1 && part < count; part++)
        enter('A', 0, parts[part].iov_len, parts[part].iov_base);
    if (is_at(file, path)) enter('?', 0, 0, NULL);
    return REAL(ssize_t, "writev", int, const struct iovec *, int)(file, parts, count);
}

#define TRUNCATE(name)                                                 \
    int name(int file, off_t length) {                                 \
        int done = REAL(int, #name, int, off_t)(file, length);         \
        if (done == 0 && is_at(file, path)) enter('T', (uint64_t)length, 0, NULL); \
        return done;                                                   \
    }
TRUNCATE(ftruncate)
TRUNCATE(ftruncate64)

#define SYNC(name)                                                     \
    int name(int file) {                                               \
        if (fails(file)) return errno = EIO, -1;                       \
        int done = REAL(int, #name, int)(file);                        \
        if (done == 0 && is_at(file, path)) enter('S', 0, 0, NULL);    \
        if (done == 0 && is_at(file, folder)) enter('D', 0, 0, NULL);  \
        return done;                                                   \
    }
SYNC(fsync)
SYNC(fdatasync)

int linkat(int from_base, const char *from, int to_base, const char *to, int flags) {
    int was_there = is_there();
    int done = REAL(int, "linkat", int, const char *, int, const char *, int)(from_base, from, to_base, to, flags);
    if (!was_there && is_there()) {
        enter(nameless ? 'L' : '?', 0, 0, NULL);
        if (stop < 0) kill(getpid(), SIGKILL);
    }
    return done;
}

/* A file that gets a name in another way can't be replayed, and neither can one that loses its own: the record says so.
   */
#define TWO_NAMES(name)                                                \
    int name(const char *from, const char *to) {                       \
        if (record >= 0) enter('?', 0, 0, NULL);                       \
        return REAL(int, #name, const char *, const char *)(from, to); \
    }
TWO_NAMES(rename)
TWO_NAMES(link)

int unlink(const char *name) {
    if (record >= 0) enter('?', 0, 0, NULL);
    return REAL(int, "unlink", const char *)(name);
}
