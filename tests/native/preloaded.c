/* Changes what the system does for a program into which it is preloaded. Each variable of the environment names a file:

   REPLACED  Other files take its place just before it is locked, as `kijolvar restore --replace` may do it: the first
             time the one with .1 behind its name, the second time .2, as long as there are any.
   REMOVED   It is removed just before it is locked the first time.
   STOPS     Once it is there, the program is stopped (SIGSTOP) where it has waited and nothing has come. It is removed.
   HELD      While it is there, a few bytes haven't left a serial line yet.
   DELAYED   While it is there, nothing is sent over a connection.
   KEYBOARD  It is a link to a keyboard.
   SUSPENDED While it is there, the machine has been suspended for 15 seconds. */
#define _GNU_SOURCE
#include <poll.h>
#include <signal.h>
#include <stdarg.h>
#include <stdio.h>
#include <stdlib.h>
#include <string.h>
#include <sys/file.h>
#include <sys/ioctl.h>
#include <sys/socket.h>
#include <sys/syscall.h>
#include <time.h>
#include <unistd.h>

int flock(int file, int operation) {
    static int count;
    char next[4096];
    const char *path = getenv("REPLACED"), *removed = getenv("REMOVED");
    if ((operation & LOCK_EX) != 0) count++;
    snprintf(next, sizeof next, "%s.%d", path == NULL ? "" : path, count);
    if (path != NULL && (operation & LOCK_EX) != 0) (void)rename(next, path);
    if (removed != NULL && count == 1) (void)unlink(removed);
    return (int)syscall(SYS_flock, file, operation);
}

int poll(struct pollfd *files, nfds_t count, int time) {
    int ready = (int)syscall(SYS_poll, files, count, time);
    const char *path = getenv("STOPS");
    if (ready == 0 && time > 0 && path != NULL && unlink(path) == 0) (void)raise(SIGSTOP);
    return ready;
}

ssize_t send(int file, const void *bytes, size_t size, int flags) {
    const char *path = getenv("DELAYED");
    while (path != NULL && access(path, F_OK) == 0) (void)usleep(1000);
    return syscall(SYS_sendto, file, bytes, size, flags, NULL, 0);
}

char *realpath(const char *path, char *found) {
    const char *keyboard = getenv("KEYBOARD");
    char *real = canonicalize_file_name(path);
    if (real != NULL && keyboard != NULL && strcmp(path, keyboard) == 0) {
        free(real);
        real = strdup("/dev/input/event99");
    }
    if (real == NULL || found == NULL) return real;
    strcpy(found, real);
    free(real);
    return found;
}

int clock_gettime(clockid_t clock, struct timespec *now) {
    int failed = (int)syscall(SYS_clock_gettime, clock, now);
    const char *path = getenv("SUSPENDED");
    if (clock == CLOCK_BOOTTIME && path != NULL && access(path, F_OK) == 0) now->tv_sec += 15;
    return failed;
}

int ioctl(int file, unsigned long request, ...) {
    va_list arguments;
    va_start(arguments, request);
    void *argument = va_arg(arguments, void *);
    va_end(arguments);
    const char *path = getenv("HELD");
    if (request != TIOCOUTQ || path == NULL || access(path, F_OK) != 0)
        return (int)syscall(SYS_ioctl, file, request, argument);
    *(int *)argument = 3;
    return 0;
}
