/* Preloaded into a host. Records each call that locks, lengthens, writes, syncs or names a file, and what the host
   prints. The environment says what else it does: CALLS names the file of the record, and of the call with this number,
   counted from 1, CALLS_KILL kills the host before it, CALLS_STOP stops the host before it, and CALLS_FAIL makes it
   fail with EIO. */
#define _GNU_SOURCE
#include <errno.h>
#include <fcntl.h>
#include <signal.h>
#include <stdarg.h>
#include <stdio.h>
#include <stdlib.h>
#include <string.h>
#include <sys/file.h>
#include <sys/stat.h>
#include <sys/syscall.h>
#include <sys/types.h>
#include <unistd.h>

static int is_number(const char *name, long number) {
    const char *text = getenv(name);
    return text != NULL && atol(text) == number;
}

/* Records a call. Returns whether it is carried out. */
__attribute__((format(printf, 1, 2))) static int is_done(const char *form, ...) {
    static long number;
    char line[512];
    va_list words;
    va_start(words, form);
    int length = vsnprintf(line, sizeof line - 1, form, words);
    va_end(words);
    if (length < 0 || (size_t)length >= sizeof line - 1) abort();
    line[length++] = '\n';
    number++;
    if (is_number("CALLS_KILL", number)) raise(SIGKILL);
    if (is_number("CALLS_STOP", number)) raise(SIGSTOP);
    const char *name = getenv("CALLS");
    int record = name == NULL ? -1 : open(name, O_WRONLY | O_APPEND | O_CREAT | O_CLOEXEC, 0600);
    if (record < 0 || syscall(SYS_write, record, line, (size_t)length) != length) abort();
    close(record);
    errno = EIO;
    return !is_number("CALLS_FAIL", number);
}

/* "file", or a folder's path. */
static const char *kind(int descriptor, char *path, size_t room) {
    struct stat found;
    char link[64];
    if (fstat(descriptor, &found) != 0 || !S_ISDIR(found.st_mode)) return "file";
    snprintf(link, sizeof link, "/proc/self/fd/%d", descriptor);
    ssize_t length = readlink(link, path, room - 1);
    path[length < 0 ? 0 : length] = 0;
    return path;
}

static int sync_by(long call, int descriptor) {
    char path[256];
    return is_done("sync %s", kind(descriptor, path, sizeof path)) ? (int)syscall(call, descriptor) : -1;
}

/* A lock that ends isn't recorded: no file changes by it. */
int flock(int descriptor, int operation) {
    if (operation == LOCK_UN) return (int)syscall(SYS_flock, descriptor, operation);
    const char *what = operation == (LOCK_EX | LOCK_NB) ? "lock" : "another lock";
    return is_done("%s", what) ? (int)syscall(SYS_flock, descriptor, operation) : -1;
}

int ftruncate(int descriptor, off_t length) {
    return is_done("length %ld", (long)length) ? (int)syscall(SYS_ftruncate, descriptor, length) : -1;
}

int ftruncate64(int descriptor, off64_t length) { return ftruncate(descriptor, length); }

ssize_t pwrite(int descriptor, const void *bytes, size_t count, off_t at) {
    return is_done("write %zu at %ld", count, (long)at) ? syscall(SYS_pwrite64, descriptor, bytes, count, at) : -1;
}

ssize_t pwrite64(int descriptor, const void *bytes, size_t count, off64_t at) {
    return pwrite(descriptor, bytes, count, at);
}

int fsync(int descriptor) { return sync_by(SYS_fsync, descriptor); }

int fdatasync(int descriptor) { return sync_by(SYS_fdatasync, descriptor); }

int linkat(int from, const char *old, int to, const char *new, int flags) {
    return is_done("link %s", new) ? (int)syscall(SYS_linkat, from, old, to, new, flags) : -1;
}

ssize_t write(int descriptor, const void *bytes, size_t count) {
    const char *end = memchr(bytes, '\n', count);
    int length = (int)(end == NULL ? count : (size_t)(end - (const char *)bytes));
    if (descriptor == 1 && !is_done("print %.*s", length, (const char *)bytes)) return -1;
    return syscall(SYS_write, descriptor, bytes, count);
}
