/* Tries the layer of C where the system does something that no emulated device can bring about: a serial line that is
   pulled out before its bytes are out, processes that are forked, names that are looked up, signals, and files that are
   read and written in parts.
   What is linked with it has -Wl,--wrap=.. for getaddrinfo, fsync, pread, pwrite, ioctl, tcflush, statx, socket, poll,
   linkat and renameat.

   Usage: system FOLDER. It makes files in the folder, and prints what fails. Its status is 0 if nothing does. */
#define _GNU_SOURCE
#include "kij_hardware.h"
#include <arpa/inet.h>
#include <errno.h>
#include <fcntl.h>
#include <linux/input.h>
#include <netdb.h>
#include <netinet/in.h>
#include <netinet/tcp.h>
#include <poll.h>
#include <signal.h>
#include <stdarg.h>
#include <stdio.h>
#include <stdlib.h>
#include <string.h>
#include <sys/socket.h>
#include <sys/stat.h>
#include <sys/time.h>
#include <sys/wait.h>
#include <termios.h>
#include <time.h>
#include <unistd.h>

static int failed, lookups, lookup_fault, lookup_time, calls, read_fault, write_fault, sync_fault, syncs, flush_fault;
static bool is_partial;
/* How often a file is read from its beginning with another byte each time; always if it is less than 0. */
static int changes;
static char looked_up[100];
/* What is written to the standard stream of errors behind each part of a file, or null. */
static const char *said_meanwhile;
/* Whether no device takes more bytes. */
static bool is_full;
/* The folder that was synced last. */
static ino_t synced_folder;
/* Whether each file that is opened is a disk. */
static bool is_disk;
/* Whether keys are kept from other programs, or -1, and which type of their events is left out. */
static int is_grabbed = -1, left_out = -1;
/* The number of the port that each socket of IPv4 gets on this machine, or 0. */
static int own_number;
/* How many bytes each line holds back. */
static int held;
/* Why no file gets a second name, and why none is renamed, or 0. */
static int link_fault, rename_fault;
/* How many bytes the file had that was replaced last by a renaming, and how many syncs were before that. */
static long replaced, syncs_before;

int __real_getaddrinfo(const char *host, const char *service, const struct addrinfo *wanted, struct addrinfo **found);
int __real_fsync(int file);
ssize_t __real_pread(int file, void *bytes, size_t size, off_t at);
ssize_t __real_pwrite(int file, const void *bytes, size_t size, off_t at);
int __real_ioctl(int file, unsigned long request, ...);
int __real_tcflush(int file, int queue);
int __real_poll(struct pollfd *files, nfds_t count, int time);
int __real_socket(int domain, int type, int protocol);
int __real_statx(int folder, const char *path, int flags, unsigned mask, struct statx *found);
int __real_linkat(int from, const char *name, int to, const char *second, int flags);
int __real_renameat(int from, const char *name, int to, const char *second);
int __wrap_getaddrinfo(const char *host, const char *service, const struct addrinfo *wanted, struct addrinfo **found);
int __wrap_ioctl(int file, unsigned long request, ...);
int __wrap_tcflush(int file, int queue);
int __wrap_fsync(int file);
ssize_t __wrap_pread(int file, void *bytes, size_t size, off_t at);
ssize_t __wrap_pwrite(int file, const void *bytes, size_t size, off_t at);
int __wrap_poll(struct pollfd *files, nfds_t count, int time);
int __wrap_socket(int domain, int type, int protocol);
int __wrap_statx(int folder, const char *path, int flags, unsigned mask, struct statx *found);
int __wrap_linkat(int from, const char *name, int to, const char *second, int flags);
int __wrap_renameat(int from, const char *name, int to, const char *second);

int __wrap_getaddrinfo(const char *host, const char *service, const struct addrinfo *wanted, struct addrinfo **found) {
    lookups++;
    snprintf(looked_up, sizeof looked_up, "%s %s", host, service);
    kij_internal_sleep(lookup_time);
    return lookup_fault != 0 ? lookup_fault : __real_getaddrinfo(host, service, wanted, found);
}

/* Each file is synced the second time, if there is a signal the first time. */
int __wrap_fsync(int file) {
    struct stat found;
    if (fstat(file, &found) == 0 && S_ISDIR(found.st_mode)) synced_folder = found.st_ino;
    syncs++;
    errno = sync_fault != 0 ? sync_fault : EINTR;
    return sync_fault != 0 || (is_partial && syncs % 2 == 1) ? -1 : __real_fsync(file);
}

/* Any device has keys. */
int __wrap_ioctl(int file, unsigned long request, ...) {
    va_list arguments;
    va_start(arguments, request);
    void *argument = NULL;
    if (request == EVIOCGRAB) is_grabbed = va_arg(arguments, int);
    else if (request != TIOCEXCL && request != TIOCNXCL) argument = va_arg(arguments, void *);
    va_end(arguments);
    /* Linux takes masks in parts of 8 bytes. */
    struct input_mask *mask = (struct input_mask *)argument;
    if (request == EVIOCSMASK) left_out = mask->codes_size % 8 == 0 ? (int)mask->type : -1;
    /* A pseudo terminal doesn't say how much it holds. */
    if (request == TIOCOUTQ && held > 0) *(int *)argument = held;
    else if (request != EVIOCGRAB && request != EVIOCSMASK) return __real_ioctl(file, request, argument);
    return 0;
}

int __wrap_tcflush(int file, int queue) {
    errno = flush_fault;
    return flush_fault != 0 ? -1 : __real_tcflush(file, queue);
}

/* How many of so many bytes are read or written: none, and errno, if there is a fault or a signal. */
static size_t part(size_t size, int fault) {
    errno = fault != 0 ? fault : EINTR;
    if (fault != 0 || (is_partial && ++calls % 3 == 0)) return 0;
    return is_partial && size > 5000 ? 5000 : size;
}

ssize_t __wrap_pread(int file, void *bytes, size_t size, off_t at) {
    size = part(size, read_fault);
    ssize_t count = size == 0 ? -1 : __real_pread(file, bytes, size, at);
    if (changes != 0 && at == 0 && count > 0) ((uint8_t *)bytes)[count - 1] = (uint8_t)changes--;
    return count;
}

ssize_t __wrap_pwrite(int file, const void *bytes, size_t size, off_t at) {
    size = part(size, write_fault);
    ssize_t count = size == 0 ? -1 : __real_pwrite(file, bytes, size, at);
    if (said_meanwhile != NULL) (void)!write(STDERR_FILENO, said_meanwhile, strlen(said_meanwhile));
    return count;
}

int __wrap_poll(struct pollfd *files, nfds_t count, int time) {
    int ready = __real_poll(files, count, time);
    for (nfds_t place = 0; is_full && place < count; place++) {
        ready -= files[place].revents == POLLOUT;
        files[place].revents &= (short)~POLLOUT;
    }
    return ready;
}

int __wrap_socket(int domain, int type, int protocol) {
    struct sockaddr_in address;
    int file = __real_socket(domain, type, protocol);
    memset(&address, 0, sizeof address);
    address.sin_family = AF_INET;
    address.sin_addr.s_addr = htonl(INADDR_LOOPBACK);
    address.sin_port = htons((uint16_t)own_number);
    if (own_number != 0 && domain == AF_INET && bind(file, (struct sockaddr *)&address, sizeof address) != 0) abort();
    return file;
}

int __wrap_statx(int folder, const char *path, int flags, unsigned mask, struct statx *found) {
    int result = __real_statx(folder, path, flags, mask, found);
    if (is_disk) found->stx_mode = (uint16_t)((found->stx_mode & ~S_IFMT) | S_IFBLK);
    return result;
}

int __wrap_linkat(int from, const char *name, int to, const char *second, int flags) {
    errno = link_fault;
    return link_fault != 0 ? -1 : __real_linkat(from, name, to, second, flags);
}

int __wrap_renameat(int from, const char *name, int to, const char *second) {
    struct stat found;
    replaced = fstatat(to, second, &found, AT_SYMLINK_NOFOLLOW) == 0 ? (long)found.st_size : -1;
    syncs_before = syncs;
    errno = rename_fault;
    return rename_fault != 0 ? -1 : __real_renameat(from, name, to, second);
}

/* Whether two numbers are the same. */
static void told(const char *name, long wanted, long found) {
    if (wanted == found) return;
    failed++;
    printf("failed: %s\n  wanted: %ld\n  found:  %ld\n", name, wanted, found);
}

/* Makes a serial line, which is a pseudo terminal: its other end. */
static int make_line(kij_port *port) {
    static char name[64];
    kij_serial_settings serial = KIJ_SERIAL_SETTINGS;
    int other = posix_openpt(O_RDWR | O_NOCTTY);
    serial.is_serial = true;
    if (other < 0 || grantpt(other) != 0 || unlockpt(other) != 0 || ptsname_r(other, name, sizeof name) != 0) abort();
    kij_internal_port(port, name, &serial, false);
    return other;
}

/* Makes one, and opens it. */
static int open_line(kij_port *port) {
    int other = make_line(port);
    told("a line is opened", true, kij_internal_port_open(port, 100));
    return other;
}

/* The line of a port, as another program has it that came before. */
static int also_open(const kij_port *port) { return open(port->name, O_RDWR | O_NOCTTY | O_CLOEXEC); }

/* Whether other programs are kept out of a line. */
static int is_kept(int line) {
    int found = -1;
    return ioctl(line, TIOCGEXCL, &found) == 0 ? found : -1;
}

/* Bytes come to a port, and wait there to be read. */
static void send_bytes(int other, const kij_port *port, const char *bytes, size_t size) {
    bool can_read = false, can_write = false;
    told("bytes are sent", (long)size, write(other, bytes, size));
    kij_internal_port_wait(port, false, 10000, &can_read, &can_write);
    told("they have come", true, can_read);
}

/* A line that a till has open is refused to others, which leave its settings and its bytes alone. */
static void try_taken(void) {
    kij_port first, second;
    struct termios before, after;
    char bytes[16];
    size_t count = 0;
    int other = make_line(&first), line = also_open(&first);
    second = first;
    second.serial.speed = 19200;
    second.serial.flow = KIJ_FLOW_XON_XOFF;
    memset(&before, 0, sizeof before);
    memset(&after, 0, sizeof after);
    told("a line", true, kij_internal_port_open(&first, 100));
    told("others are kept out", 1, is_kept(line));
    send_bytes(other, &first, "reply", 5);
    told("its settings", 0, tcgetattr(line, &before));
    told("a second opening", false, kij_internal_port_open(&second, 100));
    told("why it is refused", EBUSY, second.error);
    told("the settings then", 0, tcgetattr(line, &after));
    told("they are as they were", 0, memcmp(&before, &after, sizeof before));
    told("its bytes are read", true, kij_internal_port_read(&first, bytes, sizeof bytes, &count));
    told("all of them", 5, (long)count);
    kij_internal_port_close(&second);
    told("others are kept out still", 1, is_kept(line));
    kij_internal_port_close(&first);
    told("a line that is closed keeps nobody out", 0, is_kept(line));
    told("it can be opened again", true, kij_internal_port_open(&second, 100));
    told("others are kept out again", 1, is_kept(line));
    kij_internal_port_close(&second);
    close(line);
    close(other);
}

/* A line that can't be set up keeps nobody out. */
static void try_set_up_fault(void) {
    kij_port port;
    int other = make_line(&port), line = also_open(&port);
    flush_fault = EIO;
    told("a line that can't be set up", false, kij_internal_port_open(&port, 100));
    told("why it can't", EIO, port.error);
    flush_fault = 0;
    told("others are let in", 0, is_kept(line));
    told("it can be opened", true, kij_internal_port_open(&port, 100));
    kij_internal_port_close(&port);
    close(line);
    close(other);
}

/* A break is no byte. One whose parity is wrong or whose stop bit is missing is none, too, or a 0 byte where that is
   kept. */
static void try_line_settings(void) {
    static char name[64];
    struct termios found;
    kij_serial_settings serial = KIJ_SERIAL_SETTINGS;
    int other = posix_openpt(O_RDWR | O_NOCTTY);
    serial.is_serial = true;
    if (other < 0 || grantpt(other) != 0 || unlockpt(other) != 0 || ptsname_r(other, name, sizeof name) != 0) abort();
    for (int way = 0; way < 6; way++) {
        kij_port port;
        serial.parity = (kij_parity)(way % 3);
        kij_internal_port(&port, name, &serial, false);
        port.keeps_faults = way >= 3;
        told("a line with this parity", true, kij_internal_port_open(&port, 100));
        told("its settings", 0, tcgetattr(port.file, &found));
        tcflag_t mask = IGNBRK | BRKINT | IGNPAR | PARMRK | INPCK | ISTRIP;
        tcflag_t wanted = way < 3 ? INPCK | IGNPAR : INPCK;
        told("what it does with breaks and parity", (long)(IGNBRK | wanted), (long)(found.c_iflag & mask));
        kij_internal_port_close(&port);
    }
    close(other);
}

/* A line has the speed that it is told, which is one that Linux knows. */
static void try_speeds(void) {
    static const struct {
        int speed;
        speed_t number;
    } speeds[] = {{50, B50}, {300, B300}, {1200, B1200}, {115200, B115200}, {921600, B921600}, {4000000, B4000000}};
    kij_port port;
    struct termios found;
    int other = make_line(&port);
    for (size_t place = 0; place < sizeof speeds / sizeof speeds[0]; place++) {
        port.serial.speed = speeds[place].speed;
        told("a speed", true, kij_internal_is_serial(&port.serial));
        told("a line with it", true, kij_internal_port_open(&port, 100));
        told("its settings", 0, tcgetattr(port.file, &found));
        told("its speed out", (long)speeds[place].number, (long)cfgetospeed(&found));
        told("its speed in", (long)speeds[place].number, (long)cfgetispeed(&found));
        kij_internal_port_close(&port);
    }
    port.serial.speed = 0;
    told("no speed", false, kij_internal_is_serial(&port.serial));
    port.serial.speed = 9601;
    told("another speed", false, kij_internal_is_serial(&port.serial));
    close(other);
}

/* What becomes of a disturbed byte: a scanner's code without one is another code, and a printer's answer must not turn
   into another answer. */
static void try_disturbed_bytes(void) {
    static char name[64];
    struct termios found;
    kij_till *till = NULL;
    kij_escpos_settings printer = KIJ_ESCPOS_SETTINGS;
    kij_scanner_settings scanner = KIJ_SCANNER_SETTINGS;
    int other = posix_openpt(O_RDWR | O_NOCTTY);
    if (other < 0 || grantpt(other) != 0 || unlockpt(other) != 0 || ptsname_r(other, name, sizeof name) != 0) abort();
    printer.serial.is_serial = scanner.serial.is_serial = true;
    printer.serial.parity = scanner.serial.parity = KIJ_PARITY_EVEN;
    printer.timeout = 1;
    told("a till", KIJ_OK, kij_open(NULL, NULL, KIJ_EXISTING, &till).code);
    told("a printer", KIJ_OK, kij_escpos_printer_open(till, "r1", name, &printer).code);
    told("it is dropped", 0, tcgetattr(other, &found));
    told("how", INPCK | IGNPAR, (long)(found.c_iflag & (INPCK | IGNPAR)));
    kij_close(till);
    told("another till", KIJ_OK, kij_open(NULL, NULL, KIJ_EXISTING, &till).code);
    told("a scanner", KIJ_OK, kij_wedge_scanner_open(till, "s1", name, &scanner).code);
    told("it reads as 0", 0, tcgetattr(other, &found));
    told("by what", INPCK, (long)(found.c_iflag & (INPCK | IGNPAR)));
    kij_close(till);
    close(other);
}

/* A line with XON/XOFF has their characters, and no parity but its own, whatever another program has left. */
static void try_left_settings(void) {
    kij_port port;
    struct termios found;
    int other = make_line(&port), line = also_open(&port);
    told("what a program leaves", 0, tcgetattr(line, &found));
    found.c_cc[VSTART] = found.c_cc[VSTOP] = 0;
    found.c_cflag |= CMSPAR;
    told("it is set", 0, tcsetattr(line, TCSANOW, &found));
    port.serial.flow = KIJ_FLOW_XON_XOFF;
    told("the line is opened", true, kij_internal_port_open(&port, 100));
    told("its settings then", 0, tcgetattr(line, &found));
    told("XON", 0x11, found.c_cc[VSTART]);
    told("XOFF", 0x13, found.c_cc[VSTOP]);
    told("no parity is stuck", 0, (long)(found.c_cflag & CMSPAR));
    kij_internal_port_close(&port);
    close(line);
    close(other);
}

/* Runs a till so many milliseconds, and counts how often a printer is asked meanwhile whether it is there. */
static int count_questions(kij_till *till, int other, int64_t time) {
    char found[4096];
    int count = 0;
    int64_t end = kij_internal_now() + time;
    while (kij_internal_now() < end) {
        told("the devices run", KIJ_OK, kij_run_devices(till, 10, NULL).code);
        ssize_t size = read(other, found, sizeof found);
        for (ssize_t at = 0; at + 3 <= size; at++) count += memcmp(found + at, "\x10\x04\x01", 3) == 0;
    }
    return count;
}

/* Questions don't pile up in a line that holds them back. */
static void try_held_questions(void) {
    for (int is_asked = 0; is_asked < 2; is_asked++) {
        kij_escpos_settings settings = KIJ_ESCPOS_SETTINGS;
        kij_till *till = NULL;
        kij_port port;
        int other = make_line(&port), count = 0;
        int64_t end = kij_internal_now() + 10000;
        settings.timeout = 50;
        settings.is_asked = is_asked != 0;
        settings.serial.is_serial = true;
        told("a line that others read", 0, fcntl(other, F_SETFL, O_NONBLOCK));
        told("a till", KIJ_OK, kij_open(NULL, NULL, KIJ_EXISTING, &till).code);
        told("a printer on a line", KIJ_OK, kij_escpos_printer_open(till, "r1", port.name, &settings).code);
        while (count < 3 && kij_internal_now() < end) count += count_questions(till, other, 50);
        told("it is off, and asked again and again", true, count >= 3);
        held = 3;
        /* One may be on its way. */
        (void)count_questions(till, other, 100);
        count = count_questions(till, other, 500);
        told("a line that holds a question gets no other", true, count <= 1);
        held = 0;
        for (count = 0, end = kij_internal_now() + 10000; count == 0 && kij_internal_now() < end;)
            count += count_questions(till, other, 50);
        told("it is asked again", true, count > 0);
        kij_close(till);
        close(other);
    }
}

/* A line whose adapter is pulled out hasn't sent its bytes. */
static void try_lost_line(void) {
    kij_port port;
    size_t count = 0;
    int other = open_line(&port);
    told("bytes are written", true, kij_internal_port_write(&port, "Total", 5, &count));
    told("they are out", false, kij_internal_port_is_draining(&port));
    told("the line is open", true, kij_internal_port_is_open(&port));
    held = 3;
    told("they aren't if the line holds some", true, kij_internal_port_is_draining(&port));
    held = 0;
    close(other);
    told("no byte leaves a line that is lost", false, kij_internal_port_is_draining(&port));
    told("why", EIO, port.error);
    told("the line is closed", false, kij_internal_port_is_open(&port));
    kij_internal_port_close(&port);
}

/* Nothing holds the bytes of a line back that is closed, so that closing doesn't wait for them. */
static void try_closing(void) {
    kij_port port;
    struct termios found;
    int other = make_line(&port), line = also_open(&port);
    told("a line is opened", true, kij_internal_port_open(&port, 100));
    told("a line has flow control", true, tcgetattr(line, &found) == 0 && (found.c_cflag & CRTSCTS) != 0);
    kij_internal_port_close(&port);
    told("a closed one has none", true, tcgetattr(line, &found) == 0 && (found.c_cflag & CRTSCTS) == 0);
    close(line);
    close(other);
}

/* What is written to a line, or to another terminal, is read at its other end though it is closed at once. */
static void try_closing_at_once(void) {
    int before = failed;
    for (int round = 0; round < 100 && failed == before; round++) {
        kij_port port;
        char bytes[16];
        size_t count = 0;
        int other = make_line(&port), line = also_open(&port);
        if (round % 2 == 1) port.kind = KIJ_PORT_FILE;
        told("a line is opened", true, kij_internal_port_open(&port, 100));
        bool is_written = kij_internal_port_write(&port, "Total", 5, &count);
        bool is_left = kij_internal_port_is_draining(&port);
        kij_internal_port_close(&port);
        told("it gets bytes", true, is_written);
        told("none is left", false, is_left);
        struct pollfd coming = {other, POLLIN, 0};
        bool has_come = poll(&coming, 1, 5000) == 1;
        told("all of them come", 5, has_come ? (long)read(other, bytes, sizeof bytes) : 0);
        close(line);
        close(other);
    }
}

/* A terminal that isn't set up as a serial line says what it hasn't sent, too. So does a device that is no terminal. */
static void try_draining(void) {
    static const kij_serial_settings serial = KIJ_SERIAL_SETTINGS;
    kij_port port, none;
    int other = make_line(&port);
    port.kind = KIJ_PORT_FILE;
    told("a terminal is opened", true, kij_internal_port_open(&port, 100));
    held = 3;
    told("it hasn't sent all", true, kij_internal_port_is_draining(&port));
    held = 0;
    told("it has", false, kij_internal_port_is_draining(&port));
    kij_internal_port_close(&port);
    kij_internal_port(&none, "/dev/null", &serial, false);
    told("another device is opened", true, kij_internal_port_open(&none, 100));
    told("it takes more, so it has sent all", false, kij_internal_port_is_draining(&none));
    is_full = true;
    told("it takes no more, so it hasn't", true, kij_internal_port_is_draining(&none));
    is_full = false;
    told("it is open", true, kij_internal_port_is_open(&none));
    kij_internal_port_close(&none);
    close(other);
}

/* A process that was forked leaves the line and the lock as they are, and keeps neither. */
static void try_forked(const char *path) {
    kij_port port, again;
    kij_till *till = NULL, *other = NULL;
    struct termios found;
    int end = make_line(&port), ways[2], status = 0;
    char byte;
    again = port;
    told("a line", true, kij_internal_port_open(&port, 100));
    told("a till", KIJ_OK, kij_open(NULL, path, KIJ_CREATE, &till).code);
    fflush(stdout);
    if (pipe(ways) != 0) abort();
    pid_t closes = fork();
    if (closes == 0) {
        kij_internal_port_close(&port);
        kij_close(till);
        _exit(0);
    }
    told("a forked process closes both", closes, waitpid(closes, &status, 0));
    told("it ends well", 0, status);
    told("the line is as it was", true, tcgetattr(port.file, &found) == 0 && (found.c_cflag & CRTSCTS) != 0);
    told("nobody else gets it", false, kij_internal_port_open(&again, 100));
    told("the file is locked", EWOULDBLOCK, kij_open(NULL, path, KIJ_EXISTING, &other).extended);
    pid_t waits = fork();
    if (waits == 0) {
        close(ways[1]);
        _exit(read(ways[0], &byte, 1) != 0);
    }
    kij_internal_port_close(&port);
    kij_close(till);
    till = NULL;
    told("it isn't locked by a process that has it still", KIJ_OK, kij_open(NULL, path, KIJ_EXISTING, &till).code);
    kij_close(till);
    told("nor is the line kept", true, kij_internal_port_open(&again, 100));
    kij_internal_port_close(&again);
    close(ways[1]);
    told("that ends", waits, waitpid(waits, &status, 0));
    close(ways[0]);
    close(end);
}

/* A serial line in place of a file of totals doesn't become the terminal of the process. */
static void try_line_as_totals(void) {
    kij_port port;
    int other = make_line(&port), line = also_open(&port), status = 0;
    fflush(stdout);
    pid_t child = fork();
    if (child == 0) {
        kij_till *till = NULL;
        if (setsid() < 0) _exit(100);
        kij_result result = kij_open(NULL, port.name, KIJ_EXISTING, &till);
        _exit(open("/dev/tty", O_RDWR | O_NOCTTY | O_CLOEXEC) >= 0 ? 101 : result.extended);
    }
    told("a process without a terminal", child, waitpid(child, &status, 0));
    told("opens a line as totals", ESPIPE, WIFEXITED(status) ? WEXITSTATUS(status) : -1);
    close(line);
    close(other);
}

/* Listens on this machine, where so many and one may wait: the file and the number of the port. */
static int listen_here(int waiting, int *number) {
    struct sockaddr_in address;
    socklen_t size = sizeof address;
    memset(&address, 0, sizeof address);
    address.sin_family = AF_INET;
    address.sin_addr.s_addr = htonl(INADDR_LOOPBACK);
    int file = socket(AF_INET, SOCK_STREAM | SOCK_CLOEXEC, 0);
    if (file < 0 || bind(file, (struct sockaddr *)&address, sizeof address) != 0 || listen(file, waiting) != 0 ||
        getsockname(file, (struct sockaddr *)&address, &size) != 0)
        abort();
    *number = ntohs(address.sin_port);
    return file;
}

/* Makes a TCP port of this machine. */
static void make_tcp(kij_port *port, char *name, size_t room, int number) {
    static const kij_serial_settings serial = KIJ_SERIAL_SETTINGS;
    snprintf(name, room, "tcp:localhost:%d", number);
    kij_internal_port(port, name, &serial, false);
}

/* A file, a folder or a disk is no port, for keys neither. A pipe is one for keys alone. */
static void try_no_devices(const char *folder) {
    static const kij_serial_settings serial = KIJ_SERIAL_SETTINGS;
    char path[4096], fifo[4096], name[64];
    int other = posix_openpt(O_RDWR | O_NOCTTY);
    snprintf(path, sizeof path, "%s/no-device", folder);
    snprintf(fifo, sizeof fifo, "%s/pipe-of-keys", folder);
    int file = open(path, O_RDWR | O_CREAT | O_CLOEXEC, 0600);
    if (file < 0 || close(file) != 0 || mkfifo(fifo, 0600) != 0 || other < 0 || grantpt(other) != 0 ||
        unlockpt(other) != 0 || ptsname_r(other, name, sizeof name) != 0)
        abort();
    const struct {
        const char *what, *path;
        bool has_keys, is_disk;
        int why;
    } ports[] = {
        {"a file", path, false, false, ENODEV}, {"a file with keys", path, true, false, ENODEV},
        {"a folder", folder, false, false, EISDIR}, {"a folder with keys", folder, true, false, ENODEV},
        {"a disk", name, false, true, ENODEV}, {"a disk with keys", name, true, true, ENODEV},
        {"a pipe", fifo, false, false, ENODEV}, {"a pipe with keys", fifo, true, false, 0},
        {"a line", name, false, false, 0}, {"a line with keys", name, true, false, 0},
    };
    for (size_t place = 0; place < sizeof ports / sizeof ports[0]; place++) {
        kij_port port;
        kij_internal_port(&port, ports[place].path, &serial, ports[place].has_keys);
        is_disk = ports[place].is_disk;
        told(ports[place].what, ports[place].why == 0, kij_internal_port_open(&port, 100));
        is_disk = false;
        told("why it isn't opened", ports[place].why, port.error);
        kij_internal_port_close(&port);
    }
    close(other);
}

/* A program may have closed its standard streams. What it writes to one all the same gets into no file and no port. */
static void try_closed_streams(const char *path) {
    static const char said[] = "what a program says";
    char name[64], copy[4200];
    kij_port line, connection;
    kij_till *till = NULL;
    size_t needed = 0;
    uint64_t place = 0;
    int number = 0, status = 0, other = make_line(&line), listener = listen_here(8, &number);
    make_tcp(&connection, name, sizeof name, number);
    snprintf(copy, sizeof copy, "%s.copy", path);
    fflush(stdout);
    for (int flags = KIJ_CREATE_NEW; flags >= KIJ_EXISTING; flags -= KIJ_CREATE_NEW) {
        pid_t child = fork();
        if (child == 0) {
            close(STDERR_FILENO);
            kij_result result = kij_open(NULL, path, flags, &till);
            ssize_t size = write(STDERR_FILENO, said, sizeof said);
            kij_close(till);
            _exit(result.code != KIJ_OK ? result.code : size >= 0);
        }
        told("a till of a program without a stream", child, waitpid(child, &status, 0));
        told("it has a file, and nothing is written to the stream", 0, status);
        told("the file is sound", KIJ_OK, kij_files(path, NULL, 0, &needed, &place).code);
    }
    said_meanwhile = said;
    pid_t child = fork();
    if (child == 0) {
        close(STDERR_FILENO);
        if (kij_backup(path, copy).code != KIJ_OK) _exit(1);
        bool is_open = kij_internal_port_open(&line, 100) && kij_internal_port_open(&connection, 1000);
        _exit(!is_open || line.file <= STDERR_FILENO || connection.file <= STDERR_FILENO);
    }
    said_meanwhile = NULL;
    told("such a program copies, and opens ports", child, waitpid(child, &status, 0));
    told("nothing that it says gets there", 0, status);
    told("the copy is sound", KIJ_OK, kij_files(copy, NULL, 0, &needed, &place).code);
    close(listener);
    close(other);
}

/* A connection to a port at which nobody listens may lead to itself, and keeps that port from others: it is none. */
static void try_own_number(void) {
    kij_port port;
    char name[64];
    int number = 0, listener = listen_here(8, &number);
    close(listener);
    make_tcp(&port, name, sizeof name, number);
    own_number = number;
    told("a connection to itself", false, kij_internal_port_open(&port, 1000));
    own_number = 0;
    told("nobody listens", ECONNREFUSED, port.error);
    kij_internal_port_close(&port);
}

/* The keys of a scanner are other programs' again once the process that opened it closes it, though a process that was
   forked has it still; and such a process leaves them as they are. */
static void try_forked_keys(void) {
    static const kij_serial_settings serial = KIJ_SERIAL_SETTINGS;
    kij_port port;
    int status = 0;
    kij_internal_port(&port, "/dev/null", &serial, true);
    told("keys are opened", true, kij_internal_port_open(&port, 100));
    told("no other program gets them", 1, is_grabbed);
    told("their scan codes are left out", EV_MSC, left_out);
    fflush(stdout);
    pid_t closes = fork();
    if (closes == 0) {
        kij_internal_port_close(&port);
        _exit(is_grabbed);
    }
    told("a forked process closes them", closes, waitpid(closes, &status, 0));
    told("still no other program gets them", 1, WIFEXITED(status) ? WEXITSTATUS(status) : -1);
    kij_internal_port_close(&port);
    told("others get them", 0, is_grabbed);
}

/* Reads a byte, without waiting, and counts it: the file where more may come. */
static int read_byte(void *context) {
    int *file = (int *)context;
    char byte;
    file[1] += read(file[0], &byte, 1) == 1;
    return file[0];
}

/* A scanner of the caller's is read while a call waits for a printer. */
static void try_read_ahead(void) {
    kij_escpos_settings settings = KIJ_ESCPOS_SETTINGS;
    kij_driver driver;
    kij_till *till = NULL;
    kij_port port;
    int ways[2], typed[2], other = make_line(&port);
    if (pipe(ways) != 0 || fcntl(ways[0], F_SETFL, O_NONBLOCK) != 0) abort();
    typed[0] = ways[0];
    typed[1] = 0;
    memset(&driver, 0, sizeof driver);
    driver.category = KIJ_SCANNER;
    driver.read_ahead = read_byte;
    settings.timeout = 100;
    told("a till", KIJ_OK, kij_open(NULL, NULL, KIJ_EXISTING, &till).code);
    told("a scanner", KIJ_OK, kij_driver_open(till, "s1", &driver, typed).code);
    told("it has typed something", 5, write(ways[1], "12345", 5));
    told("a silent printer", KIJ_OK, kij_escpos_printer_open(till, "r1", port.name, &settings).code);
    told("all was read", 5, typed[1]);
    kij_close(till);
    close(ways[0]);
    close(ways[1]);
    close(other);
}

/* The till that opened a connection ends it, though a process that was forked has it too. Such a process doesn't. */
static void try_forked_connection(void) {
    kij_till *till = NULL;
    char name[64], byte;
    int number = 0, listener = listen_here(8, &number), ways[2], status = 0;
    snprintf(name, sizeof name, "tcp:127.0.0.1:%d", number);
    told("a till", KIJ_OK, kij_open(NULL, NULL, KIJ_EXISTING, &till).code);
    told("a display on a network", KIJ_OK, kij_serial_display_open(till, "p1", name, NULL).code);
    struct pollfd peer = {accept(listener, NULL, NULL), POLLIN, 0};
    fflush(stdout);
    if (pipe(ways) != 0) abort();
    pid_t closes = fork();
    if (closes == 0) {
        kij_close(till);
        _exit(0);
    }
    told("a forked process closes it", closes, waitpid(closes, &status, 0));
    told("the connection stays", 0, poll(&peer, 1, 200));
    pid_t waits = fork();
    if (waits == 0) {
        close(ways[1]);
        _exit(read(ways[0], &byte, 1) != 0);
    }
    kij_close(till);
    told("another one has it still, and the other end is told", 1, poll(&peer, 1, 10000));
    told("it ends", 0, (long)recv(peer.fd, &byte, 1, MSG_DONTWAIT));
    close(ways[1]);
    told("the forked process ends", waits, waitpid(waits, &status, 0));
    close(ways[0]);
    close(peer.fd);
    close(listener);
}

/* What the system has taken for a connection is sent once that is closed, though something has come that nobody has
   read. */
static void try_unread(void) {
    static char bytes[65536];
    kij_port port;
    char name[64];
    int number = 0, listener = listen_here(8, &number);
    long sent = 0, got = 0;
    ssize_t found;
    bool can_read = false, can_write = true;
    make_tcp(&port, name, sizeof name, number);
    told("a connection", true, kij_internal_port_open(&port, 1000));
    int peer = accept(listener, NULL, NULL);
    send_bytes(peer, &port, "Hello", 5);
    while (can_write) {
        size_t count = 0;
        told("bytes are taken", true, kij_internal_port_write(&port, bytes, sizeof bytes, &count));
        sent += (long)count;
        kij_internal_port_wait(&port, true, 100, &can_read, &can_write);
    }
    kij_internal_port_close(&port);
    while ((found = read(peer, bytes, sizeof bytes)) > 0) got += (long)found;
    told("the other end is told that it is all", 0, (long)found);
    told("it has got all of them", sent, got);
    close(peer);
    close(listener);
}

/* A name is looked up until it is found. It isn't looked up for a minute then, or if a look-up takes long. */
static void try_names(void) {
    kij_port port;
    char name[64];
    int number = 0, listener = listen_here(8, &number);
    make_tcp(&port, name, sizeof name, number);
    lookup_fault = EAI_AGAIN;
    told("a name that isn't found", false, kij_internal_port_open(&port, 1000));
    told("why", EHOSTUNREACH, port.error);
    told("a second time", false, kij_internal_port_open(&port, 1000));
    told("it is looked up again", 2, lookups);
    lookup_time = 300;
    told("a name of which that is known late", false, kij_internal_port_open(&port, 1000));
    told("a fourth time", false, kij_internal_port_open(&port, 1000));
    told("it isn't looked up again at once", 3, lookups);
    lookup_fault = lookup_time = lookups = 0;
    port.resolve_at = 0;
    told("a name that is found", true, kij_internal_port_open(&port, 1000));
    kij_internal_port_close(&port);
    told("it is opened again", true, kij_internal_port_open(&port, 1000));
    kij_internal_port_close(&port);
    close(listener);
    told("nobody is there", false, kij_internal_port_open(&port, 1000));
    told("why", ECONNREFUSED, port.error);
    told("it was looked up once", 1, lookups);
    port.resolve_at = 0;
    lookup_fault = EAI_AGAIN;
    told("nobody is there later", false, kij_internal_port_open(&port, 1000));
    told("it is looked up again", 2, lookups);
    told("nor later still", false, kij_internal_port_open(&port, 1000));
    told("the address that it had is tried alone", 2, lookups);
    lookup_fault = 0;
}

/* What is looked up for a port's name. */
static void try_hosts(void) {
    static const char *const names[][2] = {
        {"tcp:printer", "printer 9100"},
        {"tcp://printer:91", "printer 91"},
        {"tcp:192.0.2.7", "192.0.2.7 9100"},
        {"tcp:[2001:db8::7]", "2001:db8::7 9100"},
        {"tcp:[::1]:91", "::1 91"},
        {"tcp:[fe80::1%eth0]:91", "fe80::1%eth0 91"},
    };
    static const kij_serial_settings serial = KIJ_SERIAL_SETTINGS;
    lookup_fault = EAI_AGAIN;
    for (size_t place = 0; place < sizeof names / sizeof names[0]; place++) {
        kij_port port;
        kij_internal_port(&port, names[place][0], &serial, false);
        told("it isn't found", false, kij_internal_port_open(&port, 100));
        told(names[place][0], 0, strcmp(looked_up, names[place][1]));
    }
    lookup_fault = lookups = 0;
}

/* The address of a listener that takes no more connections: it says nothing. */
static void keep_address(kij_port *port, size_t place, int number) {
    struct sockaddr_in address;
    memset(&address, 0, sizeof address);
    address.sin_family = AF_INET;
    address.sin_addr.s_addr = htonl(INADDR_LOOPBACK);
    address.sin_port = htons((uint16_t)number);
    memcpy(&port->addresses[place].place, &address, sizeof address);
    port->addresses[place].size = sizeof address;
    port->address_count = place + 1;
}

/* How a socket is set up. */
static int option_of(int file, int level, int name) {
    int value = -1;
    socklen_t size = sizeof value;
    return getsockopt(file, level, name, &value, &size) == 0 ? value : -1;
}

/* A device that is gone is found out: the system asks it while nothing is sent, and sends it what is due for a minute,
   and a printer, whose cover may be open, for longer. */
static void try_patience(void) {
    kij_port port;
    char name[64];
    int number = 0, listener = listen_here(8, &number);
    make_tcp(&port, name, sizeof name, number);
    for (int turn = 0; turn < 2; turn++) {
        port.is_patient = turn == 1;
        told("a device that is there", true, kij_internal_port_open(&port, 1000));
        told("it is asked", 1, option_of(port.file, SOL_SOCKET, SO_KEEPALIVE));
        told("every 10 seconds", 10, option_of(port.file, IPPROTO_TCP, TCP_KEEPIDLE));
        told("and again", 10, option_of(port.file, IPPROTO_TCP, TCP_KEEPINTVL));
        told("the time for what is due", turn == 1 ? 0 : 60000, option_of(port.file, IPPROTO_TCP, TCP_USER_TIMEOUT));
        told("nothing is held back", 1, option_of(port.file, IPPROTO_TCP, TCP_NODELAY));
        kij_internal_port_close(&port);
    }
    close(listener);
}

enum { QUEUE = 8 };

/* Fills the queue of a port that listens, at the first address of a port: it says nothing then. */
static void fill(const kij_port *port, int *waiting) {
    for (size_t place = 0; place < QUEUE; place++) {
        waiting[place] = socket(AF_INET, SOCK_STREAM | SOCK_NONBLOCK | SOCK_CLOEXEC, 0);
        (void)connect(waiting[place], (const struct sockaddr *)&port->addresses[0].place, port->addresses[0].size);
    }
}

/* Empties the queue: it answers again. */
static void empty(int listener, const int *waiting) {
    for (size_t place = 0; place < QUEUE; place++) close(waiting[place]);
    (void)fcntl(listener, F_SETFL, O_NONBLOCK);
    for (int file; (file = accept(listener, NULL, NULL)) >= 0;) close(file);
}

/* An address that says nothing leaves time to the next one. */
static void try_addresses(void) {
    kij_port port;
    char name[64];
    int silent = 0, number = 0, full = listen_here(0, &silent), listener = listen_here(8, &number), waiting[QUEUE];
    make_tcp(&port, name, sizeof name, silent);
    keep_address(&port, 0, silent);
    fill(&port, waiting);
    keep_address(&port, 1, number);
    int64_t began = kij_internal_now();
    told("the second address", true, kij_internal_port_open(&port, 1000));
    told("after half of the time", true, kij_internal_now() - began < 900);
    kij_internal_port_close(&port);
    empty(full, waiting);
    close(full);
    close(listener);
}

/* A name may have more addresses than a few. */
static void try_many_addresses(void) {
    kij_port port;
    char name[64];
    int gone = 0, number = 0;
    close(listen_here(8, &gone));
    int listener = listen_here(8, &number);
    make_tcp(&port, name, sizeof name, number);
    for (size_t place = 0; place < 6; place++) keep_address(&port, place, place < 5 ? gone : number);
    told("the sixth address", true, kij_internal_port_open(&port, 1000));
    kij_internal_port_close(&port);
    close(listener);
}

/* The second address has its time too, if no call has looked while the first one had its own. */
static void try_rare_looks(void) {
    kij_port port;
    char name[64];
    int silent = 0, number = 0, first = listen_here(0, &silent), second = listen_here(0, &number);
    int waiting[QUEUE], others[QUEUE];
    make_tcp(&port, name, sizeof name, silent);
    keep_address(&port, 0, number);
    fill(&port, others);
    keep_address(&port, 0, silent);
    fill(&port, waiting);
    keep_address(&port, 1, number);
    told("nobody answers at once", false, kij_internal_port_open(&port, 0));
    kij_internal_sleep(1200);
    told("nor later", false, kij_internal_port_open(&port, 0));
    told("the second address is waited for", true, port.is_joining && port.join_place == 1);
    empty(second, others);
    struct pollfd joined = {port.joining, POLLOUT, 0};
    told("it answers", 1, poll(&joined, 1, 10000));
    kij_internal_sleep(1200);
    told("it is there", true, kij_internal_port_open(&port, 0));
    kij_internal_port_close(&port);
    empty(first, waiting);
    close(first);
    close(second);
}

/* A connection that isn't made in the time of a call is made on, and a later call finds it without waiting. */
static void try_joining(void) {
    kij_port port;
    char name[64];
    int silent = 0, full = listen_here(0, &silent), waiting[QUEUE];
    make_tcp(&port, name, sizeof name, silent);
    keep_address(&port, 0, silent);
    fill(&port, waiting);
    told("it isn't open at once", false, kij_internal_port_open(&port, 1));
    told("why", ETIMEDOUT, port.error);
    told("it is being opened", true, port.is_joining);
    int64_t began = kij_internal_now();
    told("nor later", false, kij_internal_port_open(&port, 500));
    told("that isn't waited for", true, kij_internal_now() - began < 400);
    kij_internal_port_close(&port);
    told("it is given up", false, port.is_joining);
    told("it is begun again", false, kij_internal_port_open(&port, 1));
    /* The system asks again after a second. */
    port.join_ends_at += 30000;
    empty(full, waiting);
    while (!kij_internal_port_open(&port, 1) && port.is_joining) kij_internal_sleep(10);
    told("it is there", true, kij_internal_port_is_open(&port));
    told("nothing is left to open", false, port.is_joining);
    kij_internal_port_close(&port);
    close(full);
}

/* A device that is readable all the time, and gives nothing, doesn't keep the loop busy. */
static void try_empty(void) {
    kij_till *till = NULL;
    struct timespec before, after;
    told("a till", KIJ_OK, kij_open(NULL, NULL, KIJ_EXISTING, &till).code);
    told("a device that gives nothing", KIJ_OK, kij_wedge_scanner_open(till, "s1", "/dev/null", NULL).code);
    clock_gettime(CLOCK_PROCESS_CPUTIME_ID, &before);
    told("the devices run", KIJ_OK, kij_run_devices(till, 500, NULL).code);
    clock_gettime(CLOCK_PROCESS_CPUTIME_ID, &after);
    long used = (long)(after.tv_sec - before.tv_sec) * 1000 + (after.tv_nsec - before.tv_nsec) / 1000000;
    told("they wait meanwhile", true, used < 100);
    kij_close(till);
}

/* A device that sends on and on, and gives nothing of use, lets the loop go on. */
static void try_endless(void) {
    static const char *const devices[] = {"r1", "p1", "s1"};
    kij_till *till = NULL;
    kij_driver_view view;
    kij_escpos_settings settings = KIJ_ESCPOS_SETTINGS;
    settings.timeout = 100;
    told("a till", KIJ_OK, kij_open(NULL, NULL, KIJ_EXISTING, &till).code);
    told("a printer", KIJ_OK, kij_escpos_printer_open(till, devices[0], "/dev/zero", &settings).code);
    told("a display", KIJ_OK, kij_serial_display_open(till, devices[1], "/dev/zero", NULL).code);
    told("a scanner", KIJ_OK, kij_wedge_scanner_open(till, devices[2], "/dev/zero", NULL).code);
    /* It ends this program if it takes too long. */
    fflush(stdout);
    alarm(120);
    int64_t began = kij_internal_now();
    told("the devices run", KIJ_OK, kij_run_devices(till, 300, NULL).code);
    told("in time", true, kij_internal_now() - began < 2000);
    alarm(0);
    for (size_t place = 0; place < 3; place++) {
        told("a device is driven", KIJ_OK, kij_show_driver(till, devices[place], &view).code);
        told("its port is open", place > 0, view.is_online);
    }
    kij_close(till);
}

static void ignore(int number) { (void)number; }

/* A signal doesn't end the wait for a connection. */
static void try_signal(void) {
    kij_port port;
    char name[64];
    int number = 0, listener = listen_here(0, &number), waiting[8];
    struct sigaction action;
    struct itimerval timer = {{0, 0}, {0, 100000}};
    struct sockaddr_in address;
    memset(&action, 0, sizeof action);
    action.sa_handler = ignore;
    sigaction(SIGALRM, &action, NULL);
    memset(&address, 0, sizeof address);
    address.sin_family = AF_INET;
    address.sin_addr.s_addr = htonl(INADDR_LOOPBACK);
    address.sin_port = htons((uint16_t)number);
    /* Nobody accepts, so there is no room for another one soon. */
    for (size_t place = 0; place < 8; place++) {
        waiting[place] = socket(AF_INET, SOCK_STREAM | SOCK_NONBLOCK | SOCK_CLOEXEC, 0);
        (void)connect(waiting[place], (struct sockaddr *)&address, sizeof address);
    }
    make_tcp(&port, name, sizeof name, number);
    int64_t began = kij_internal_now();
    setitimer(ITIMER_REAL, &timer, NULL);
    told("nobody accepts", false, kij_internal_port_open(&port, 500));
    told("why", ETIMEDOUT, port.error);
    told("a signal doesn't end the wait", true, kij_internal_now() - began >= 490);
    for (size_t place = 0; place < 8; place++) close(waiting[place]);
    close(listener);
}

/* Opens a file of totals: whether that came to this. */
static void open_totals(const char *name, const char *path, int flags, int code, int extended) {
    kij_till *till = NULL;
    kij_result result = kij_open(NULL, path, flags, &till);
    told(name, code, result.code);
    told(name, extended, result.extended);
    kij_close(till);
}

static void says(const char *name, const char *wanted, kij_result result) {
    if (strcmp(wanted, kij_strerror(result)) == 0) return;
    failed++;
    printf("failed: %s\n  wanted: %s\n  found:  %s\n", name, wanted, kij_strerror(result));
}

static bool is_refused(void *context, const kij_order *order) {
    (void)context, (void)order;
    return false;
}

/* A text is true of each call that gives its result. */
static void try_texts(const char *folder) {
    const char *missing = "The file of the totals isn't there. If it was to be created, its folder isn't, or /proc.";
    const char *another = "The property has another type, or the device another category.";
    const char *undriven = "The profile has no device of the name that has orders; or the device has no driver, or "
                           "can't have one, as with `flaky` in the profile.";
    const char *flaky = "[[device]]\nname = \"d1\"\ncategory = \"CashDrawer\"\nflaky = [1, 1]\n";
    kij_driver driver;
    kij_driver_view view;
    char path[4096];
    kij_till *till = NULL;
    kij_control *drawer = NULL;
    size_t needed = 0;
    uint64_t place = 0;
    bool is_open = false;
    snprintf(path, sizeof path, "%s/folder-of-nobody/totals", folder);
    says("a survey of no file", missing, kij_files(path, NULL, 0, &needed, &place));
    says("a move of no file", missing, kij_migrate(path));
    says("no file", missing, kij_open(NULL, path, KIJ_EXISTING, &till));
    says("no folder", missing, kij_open(NULL, path, KIJ_CREATE, &till));
    says("no folder for a new file", missing, kij_open(NULL, path, KIJ_CREATE_NEW, &till));
    told("a till", KIJ_OK, kij_open(NULL, NULL, KIJ_EXISTING, &till).code);
    says("a printer is no drawer", another, kij_show_drawer(till, "r1", &is_open));
    told("a control", KIJ_OK, kij_start(till, KIJ_CASH_DRAWER, "d1", KIJ_UNCLAIMED, &drawer).code);
    says("a number is no flag", another, kij_get_bool(drawer, KIJ_PROP_STATE, &is_open));
    says("a simulated device has no driver", undriven, kij_show_driver(till, "p1", &view));
    says("no device to host", undriven, kij_host(till, "p9"));
    kij_close(till);
    memset(&driver, 0, sizeof driver);
    driver.category = KIJ_CASH_DRAWER;
    driver.carry_out = is_refused;
    told("a till with a flaky drawer", KIJ_OK, kij_open(flaky, NULL, KIJ_EXISTING, &till).code);
    says("a flaky drawer has no driver", undriven, kij_driver_open(till, "d1", &driver, NULL));
    kij_close(till);
}

static void gives_reason(const char *name, const char *wanted, const kij_till *till, kij_result result) {
    const char *found = kij_reason(till, result);
    if (strcmp(wanted, found) == 0) return;
    failed++;
    printf("failed: the reason of %s\n  wanted: %s\n  found:  %s\n", name, wanted, found);
}

/* The reason is that of the call which a control refused last, and of its result alone. */
static void try_reasons(void) {
    const char *byte = "The station isn't the receipt; or the data has more than 4,096 bytes, a byte that isn't ASCII "
                       "text, LF, CR or ESC, or a number out of range.";
    const char *unclaimed = "The control hasn't claimed the device, which is an exclusive-use device.";
    kij_till *till = NULL, *other = NULL;
    kij_control *printer = NULL, *display = NULL, *drawer = NULL;
    kij_result closed = {KIJ_E_CLOSED, 0, KIJ_POS_PRINTER};
    int64_t number = 0;
    told("a till", KIJ_OK, kij_open(NULL, NULL, KIJ_EXISTING, &till).code);
    told("another till", KIJ_OK, kij_open(NULL, NULL, KIJ_EXISTING, &other).code);
    kij_result refused = kij_start(till, KIJ_POS_PRINTER, "r9", KIJ_CLAIMED, &printer);
    told("no such device", KIJ_E_NOEXIST, refused.code);
    gives_reason("no such device", "No device of the control's category has the name.", till, refused);
    refused = kij_start(till, KIJ_POS_PRINTER, "r1", KIJ_UNCLAIMED, &printer);
    told("no claim", KIJ_E_NOTCLAIMED, refused.code);
    gives_reason("no claim", unclaimed, till, refused);
    told("a printer", KIJ_OK, kij_start(till, KIJ_POS_PRINTER, "r1", KIJ_CLAIMED, &printer).code);
    told("a display", KIJ_OK, kij_start(till, KIJ_LINE_DISPLAY, "p1", KIJ_CLAIMED, &display).code);
    told("a drawer", KIJ_OK, kij_start(till, KIJ_CASH_DRAWER, "d1", KIJ_UNCLAIMED, &drawer).code);
    refused = kij_printer_print(printer, KIJ_PTR_S_RECEIPT, "Br\303\266tchen\n", KIJ_ZERO_ENDED);
    told("a letter", KIJ_E_ILLEGAL, refused.code);
    gives_reason("a letter", byte, till, refused);
    gives_reason("another result", kij_strerror(closed), till, closed);
    gives_reason("another till's result", kij_strerror(refused), other, refused);
    gives_reason("a result without a till", kij_strerror(refused), NULL, refused);
    told("a line", KIJ_OK, kij_printer_print(printer, KIJ_PTR_S_RECEIPT, "Brot\n", KIJ_ZERO_ENDED).code);
    gives_reason("an earlier result", kij_strerror(refused), till, refused);
    refused = kij_printer_print(display, KIJ_PTR_S_RECEIPT, "Brot\n", KIJ_ZERO_ENDED);
    told("another category's call", KIJ_E_ILLEGAL, refused.code);
    gives_reason("another category's call", kij_strerror(refused), till, refused);
    refused = kij_set_int(display, KIJ_PROP_CURSOR_ROW, 99);
    told("a row", KIJ_E_ILLEGAL, refused.code);
    gives_reason("a row", "The value is out of its range.", till, refused);
    refused = kij_set_int(drawer, KIJ_PROP_CURSOR_ROW, 0);
    told("another category's property", KIJ_E_ILLEGAL, refused.code);
    gives_reason("another category's property", kij_strerror(refused), till, refused);
    refused = kij_get_int(drawer, KIJ_PROP_CURSOR_ROW, &number);
    told("which has no value", KIJ_E_ILLEGAL, refused.code);
    gives_reason("which has no value", kij_strerror(refused), till, refused);
    told("an open cover", KIJ_OK, kij_input_cover(till, "r1", true).code);
    refused = kij_printer_cut_paper(printer, 100);
    told("a cut", KIJ_EPTR_COVER_OPEN, refused.extended);
    gives_reason("a cut", "The cover is open.", till, refused);
    kij_close(other);
    kij_close(till);
}

/* Whether a display's text is refused, and for which reason; if it isn't, the reason is that of no refusal. */
static void shows(const char *name, int code, const char *wanted, kij_till *till, kij_control *display) {
    kij_result result = kij_display_text(display, "4.50", KIJ_ZERO_ENDED, KIJ_DISP_DT_NORMAL);
    told(name, code, result.code);
    gives_reason(name, wanted, till, result);
}

/* A call that is refused since its device is off says why the port isn't open. Of one that is open, or may be another
   device's, it says nothing. */
static void try_offline_reasons(const char *folder) {
    static const kij_result done = {KIJ_OK, 0, KIJ_LINE_DISPLAY};
    kij_display_settings settings = KIJ_DISPLAY_SETTINGS;
    kij_till *till = NULL;
    kij_control *display = NULL;
    const char *answer = NULL;
    char path[4096];
    settings.pause = 0;
    snprintf(path, sizeof path, "%s/display-that-comes", folder);
    told("a till", KIJ_OK, kij_open(NULL, NULL, KIJ_EXISTING, &till).code);
    told("a display that isn't there", KIJ_OK, kij_serial_display_open(till, "p1", path, &settings).code);
    told("its control", KIJ_OK, kij_start(till, KIJ_LINE_DISPLAY, "p1", KIJ_CLAIMED, &display).code);
    shows("a display that isn't there", KIJ_E_OFFLINE, "The display is off: No such file or directory.", till, display);
    told("a folder in its place", 0, mkdir(path, 0700));
    told("the folder is no device", KIJ_OK, kij_run_devices(till, 0, NULL).code);
    shows("a folder in its place", KIJ_E_OFFLINE, "The display is off: Is a directory.", till, display);
    told("the folder goes", 0, rmdir(path));
    told("a device in its place", 0, symlink("/dev/null", path));
    told("the device is found", KIJ_OK, kij_run_devices(till, 0, NULL).code);
    shows("a device", KIJ_OK, kij_strerror(done), till, display);
    told("it is switched off", KIJ_OK, kij_input_power(till, "p1", false).code);
    shows("a device that is off", KIJ_E_OFFLINE, "The display is off.", till, display);
    kij_close(till);
    told("no device", 0, unlink(path));
    told("another till", KIJ_OK, kij_open(NULL, NULL, KIJ_EXISTING, &till).code);
    told("its display", KIJ_OK, kij_serial_display_open(till, "p1", path, &settings).code);
    told("its control", KIJ_OK, kij_start(till, KIJ_LINE_DISPLAY, "p1", KIJ_CLAIMED, &display).code);
    shows("it is missing", KIJ_E_OFFLINE, "The display is off: No such file or directory.", till, display);
    told("a line that may open a control", KIJ_OK, kij_carry_out(till, "# open k1", 9, &answer).code);
    shows("nobody knows which display it is", KIJ_E_OFFLINE, "The display is off.", till, display);
    kij_close(till);
}

/* A null path stands for memory with KIJ_EXISTING alone. With another flag it is a mistake, as getenv of a variable
   that isn't set. */
static void try_lost_path(void) {
    kij_till *const none = (kij_till *)&failed;
    kij_till *till = none;
    int flags[] = {KIJ_CREATE, KIJ_CREATE_NEW, KIJ_EXISTING - 1, KIJ_CREATE_NEW + 1};
    unsetenv("KIJ_TOTALS_OF_NOBODY");
    for (size_t place = 0; place < sizeof flags / sizeof flags[0]; place++) {
        kij_result result = kij_open(NULL, getenv("KIJ_TOTALS_OF_NOBODY"), flags[place], &till);
        told("a path that is lost", KIJ_BAD_ARGUMENT, result.code);
        told("writes no till", true, till == none);
    }
    open_totals("a path of no bytes", "", KIJ_CREATE, KIJ_SYSTEM, ENOENT);
    open_totals("a new file of no path", "", KIJ_CREATE_NEW, KIJ_SYSTEM, ENOENT);
    open_totals("totals in memory", NULL, KIJ_EXISTING, KIJ_OK, 0);
    told("a survey of no path", KIJ_BAD_ARGUMENT, kij_files(NULL, NULL, 0, &(size_t){0}, &(uint64_t){0}).code);
    told("a move of no path", KIJ_BAD_ARGUMENT, kij_migrate(NULL).code);
}

/* A process that was forked doesn't write the totals, which the one that opened them goes on changing. */
static void try_forked_totals(const char *path) {
    kij_till *till = NULL;
    kij_control *totals = NULL;
    int64_t first = 0, second = 0, size = 0;
    const uint8_t *bytes = NULL;
    size_t count = 0;
    int status = 0;
    told("totals", KIJ_OK, kij_open(NULL, path, KIJ_CREATE_NEW, &till).code);
    told("enabled", KIJ_OK, kij_start(till, KIJ_HARD_TOTALS, "t1", KIJ_UNCLAIMED, &totals).code);
    told("a file", KIJ_OK, kij_totals_create(totals, "A", 1, 1, false, &first).code);
    fflush(stdout);
    pid_t child = fork();
    if (child == 0) _exit(kij_totals_write(totals, first, 0, "x", 1).code);
    told("a forked process", child, waitpid(child, &status, 0));
    told("writes nothing", KIJ_DISK_FAILED, WIFEXITED(status) ? WEXITSTATUS(status) : -1);
    child = fork();
    if (child == 0) {
        (void)kij_totals_write(totals, first, 0, "x", 1);
        _exit(kij_disk_error(till));
    }
    told("another forked process", child, waitpid(child, &status, 0));
    told("says why", EPERM, WIFEXITED(status) ? WEXITSTATUS(status) : -1);
    told("the file hasn't failed", 0, kij_disk_error(till));
    told("a change after it", KIJ_OK, kij_totals_create(totals, "B", 1, 1, false, &second).code);
    kij_close(till);
    told("another till", KIJ_OK, kij_open(NULL, path, KIJ_EXISTING, &till).code);
    told("it is enabled", KIJ_OK, kij_start(till, KIJ_HARD_TOTALS, "t1", KIJ_UNCLAIMED, &totals).code);
    told("the change is there", KIJ_OK, kij_totals_find(totals, "B", 1, &second, &size).code);
    told("so is the first file", KIJ_OK, kij_totals_find(totals, "A", 1, &first, &size).code);
    told("as it was", KIJ_OK, kij_totals_read(totals, first, 0, 1, &bytes, &count).code);
    told("its byte", 0, count == 1 ? bytes[0] : -1);
    kij_close(till);
}

/* A copy of a file that changes between two readings has what two in a row gave. If the system fails, no copy is left.
 */
static void try_backups(const char *path) {
    char copy[4200], part[4300];
    snprintf(copy, sizeof copy, "%s.copy", path);
    snprintf(part, sizeof part, "%s.part", copy);
    changes = -1;
    told("a file that always changes", EWOULDBLOCK, kij_backup(path, copy).extended);
    told("no copy of it", -1, access(copy, F_OK));
    changes = 3;
    told("one that changes three times", KIJ_OK, kij_backup(path, copy).code);
    told("it is read until it doesn't", 0, changes);
    size_t needed = 0;
    uint64_t place = 0;
    told("its copy is sound", KIJ_OK, kij_files(copy, NULL, 0, &needed, &place).code);
    if (unlink(copy) != 0) abort();
    is_partial = true;
    told("one that is read and written in parts", KIJ_OK, kij_backup(path, copy).code);
    is_partial = false;
    told("that copy is sound", KIJ_OK, kij_files(copy, NULL, 0, &needed, &place).code);
    if (unlink(copy) != 0) abort();
    int *faults[] = {&read_fault, &write_fault, &sync_fault};
    for (size_t at = 0; at < sizeof faults / sizeof faults[0]; at++) {
        *faults[at] = EIO;
        told("a copy that the system refuses", EIO, kij_backup(path, copy).extended);
        *faults[at] = 0;
        told("it isn't there", -1, access(copy, F_OK));
        told("nor a part of it", -1, access(part, F_OK));
    }
    syncs = 0;
    told("a copy", KIJ_OK, kij_backup(path, copy).code);
    told("it is synced, and its folder", 2, syncs);
    if (unlink(copy) != 0) abort();
}

/* Where a file has one name, as on a FAT stick, an empty file takes the name of a copy first, and is replaced. */
static void try_backups_without_links(const char *path) {
    static const int faults[] = {EPERM, EACCES, EOPNOTSUPP, ENOSYS};
    char copy[4200], part[4300];
    size_t needed = 0;
    uint64_t place = 0;
    struct stat found;
    snprintf(copy, sizeof copy, "%s.copy", path);
    snprintf(part, sizeof part, "%s.part", copy);
    for (size_t at = 0; at < sizeof faults / sizeof faults[0]; at++) {
        link_fault = faults[at];
        replaced = -1;
        syncs = 0;
        told("a copy where a file has one name", KIJ_OK, kij_backup(path, copy).code);
        told("an empty file had its name before", 0, replaced);
        told("it is synced before it gets that", 1, syncs_before);
        told("its folder is synced after that", 2, syncs);
        told("it is there", 0, stat(copy, &found));
        told("for its owner alone", S_IFREG | 0600, found.st_mode);
        told("it is sound", KIJ_OK, kij_files(copy, NULL, 0, &needed, &place).code);
        told("and no part of it is left", -1, access(part, F_OK));
        told("where a copy is", EEXIST, kij_backup(path, copy).extended);
        told("that is kept", KIJ_OK, kij_files(copy, NULL, 0, &needed, &place).code);
        told("and no part is left then", -1, access(part, F_OK));
        (void)unlink(copy);
    }
    rename_fault = EIO;
    told("one that can't be renamed", EIO, kij_backup(path, copy).extended);
    told("nothing has its name then", -1, access(copy, F_OK));
    told("nor has a part of it", -1, access(part, F_OK));
    rename_fault = 0;
    link_fault = ENOSPC;
    told("one that isn't linked for another reason", ENOSPC, kij_backup(path, copy).extended);
    told("it isn't renamed either", -1, access(copy, F_OK));
    told("nor is a part of it left", -1, access(part, F_OK));
    link_fault = EPERM;
    open_totals("totals that are created there", copy, KIJ_CREATE_NEW, KIJ_SYSTEM, EPERM);
    told("no file of them is left", -1, access(copy, F_OK));
    link_fault = 0;
}

/* Reading and writing in parts and signals are no failure of the file of the totals, and a failure says why. */
static void try_totals(const char *path) {
    write_fault = ENOSPC;
    open_totals("a full disk", path, KIJ_CREATE_NEW, KIJ_SYSTEM, ENOSPC);
    write_fault = 0;
    open_totals("a file", path, KIJ_CREATE_NEW, KIJ_OK, 0);
    write_fault = ENOSPC;
    told("a move that the disk is too full for", ENOSPC, kij_migrate(path).extended);
    write_fault = 0;
    told("what couldn't be moved can be later", KIJ_OK, kij_migrate(path).code);
    if (unlink(path) != 0) abort();
    is_partial = true;
    syncs = 0;
    open_totals("a file that is written in parts", path, KIJ_CREATE_NEW, KIJ_OK, 0);
    open_totals("a file that is read in parts", path, KIJ_EXISTING, KIJ_OK, 0);
    told("one that is moved in parts", KIJ_OK, kij_migrate(path).code);
    size_t needed = 0;
    uint64_t place = 0;
    told("what it holds, in parts", KIJ_OK, kij_files(path, NULL, 0, &needed, &place).code);
    is_partial = false;
    syncs = 0;
    told("what it holds", KIJ_OK, kij_files(path, NULL, 0, &needed, &place).code);
    told("that is synced", 1, syncs);
    try_backups(path);
    try_backups_without_links(path);
    read_fault = EIO;
    open_totals("a file that can't be read", path, KIJ_EXISTING, KIJ_SYSTEM, EIO);
    told("nor moved", KIJ_SYSTEM, kij_migrate(path).code);
    read_fault = 0;
}

/* A link leads to a file in another folder: that one is synced. */
static void try_link(const char *folder) {
    char inner[4096], path[4200], link[4200];
    struct stat found;
    snprintf(inner, sizeof inner, "%s/linked", folder);
    snprintf(path, sizeof path, "%s/totals", inner);
    snprintf(link, sizeof link, "%s/link", folder);
    if (mkdir(inner, 0700) != 0 || symlink("linked/totals", link) != 0 || stat(inner, &found) != 0) abort();
    open_totals("a file that a link leads to", path, KIJ_CREATE_NEW, KIJ_OK, 0);
    synced_folder = 0;
    open_totals("its link", link, KIJ_EXISTING, KIJ_OK, 0);
    told("the folder of the file is synced", true, synced_folder == found.st_ino);
}

/* Why a file of totals failed stays the same. */
static void try_disk_error(const char *path, int *fault, int why) {
    kij_till *till = NULL;
    kij_control *totals = NULL;
    int64_t handle = 0;
    told("totals that will fail", KIJ_OK, kij_open(NULL, path, KIJ_CREATE_NEW, &till).code);
    told("enabled", KIJ_OK, kij_start(till, KIJ_HARD_TOTALS, "t1", KIJ_UNCLAIMED, &totals).code);
    told("nothing has failed", 0, kij_disk_error(till));
    *fault = why;
    told("a change", KIJ_DISK_FAILED, kij_totals_create(totals, "A", 1, 1, false, &handle).code);
    *fault = 0;
    told("why it failed", why, kij_disk_error(till));
    told("another one", KIJ_DISK_FAILED, kij_totals_create(totals, "B", 1, 1, false, &handle).code);
    told("it is still why", why, kij_disk_error(till));
    kij_close(till);
    told("no till", 0, kij_disk_error(NULL));
}

/* How many bytes of a file have a place on the disk. */
static long room_of(const char *path) {
    struct stat found;
    return stat(path, &found) == 0 ? (long)found.st_blocks * 512 : -1;
}

/* All of a new file has its place on the disk, so that it can't fail for want of room later. Some file systems say
   nothing of that. */
static void try_room(const char *path, const char *other) {
    static const char zeros[KIJOLVAR_DISK_LENGTH];
    int file = open(other, O_RDWR | O_CREAT | O_CLOEXEC, 0600);
    if (file < 0 || write(file, zeros, sizeof zeros) != (ssize_t)sizeof zeros || __real_fsync(file) != 0) abort();
    close(file);
    open_totals("a new file", path, KIJ_CREATE_NEW, KIJ_OK, 0);
    if (room_of(other) >= KIJOLVAR_DISK_LENGTH) told("its room", true, room_of(path) >= KIJOLVAR_DISK_LENGTH);
    else printf("this file system doesn't say which room a file has\n");
}

/* A driver that gives a control back in a call, in which it can't be closed. */
static bool gives_back(void *control, const kij_order *order) {
    (void)order;
    kij_discard((kij_control *)control);
    return true;
}

/* A control that was given back while it couldn't be closed has no events any more, and keeps no device claimed. */
static void try_given_back(void) {
    kij_till *till = NULL;
    kij_control *printer = NULL, *drawer = NULL, *again = NULL;
    const char *answer = NULL;
    kij_event event;
    kij_driver driver;
    memset(&driver, 0, sizeof driver);
    driver.category = KIJ_CASH_DRAWER;
    driver.carry_out = gives_back;
    told("a till", KIJ_OK, kij_open(NULL, NULL, KIJ_EXISTING, &till).code);
    told("a printer", KIJ_OK, kij_start(till, KIJ_POS_PRINTER, "r1", KIJ_CLAIMED, &printer).code);
    told("a driver", KIJ_OK, kij_driver_open(till, "d1", &driver, printer).code);
    told("no lines", KIJ_OK, kij_carry_out(till, NULL, 0, &answer).code);
    told("a drawer", KIJ_OK, kij_start(till, KIJ_CASH_DRAWER, "d1", KIJ_UNCLAIMED, &drawer).code);
    told("its order", KIJ_OK, kij_drawer_open(drawer).code);
    told("the cover is opened", KIJ_OK, kij_input_cover(till, "r1", true).code);
    do {
        told("an event", KIJ_OK, kij_next_event_of_any(till, &event).code);
        told("it isn't that of the printer", false, event.control == printer);
    } while (event.kind != KIJ_NO_EVENT && failed == 0);
    told("another printer", KIJ_OK, kij_new(till, KIJ_POS_PRINTER, NULL, &again).code);
    told("it is that one", true, again == printer);
    told("on no device", true, kij_device_of(again) == NULL);
    kij_discard(again);
    told("the printer again", KIJ_OK, kij_start(till, KIJ_POS_PRINTER, "r1", KIJ_CLAIMED, &printer).code);
    kij_close(till);
}

/* A pipe that nobody writes is no file of totals, and isn't waited for. */
static void try_pipe(const char *path) {
    size_t needed = 0;
    uint64_t place = 0;
    if (mkfifo(path, 0600) != 0) abort();
    signal(SIGALRM, SIG_DFL);
    /* It ends this program if it takes too long. */
    fflush(stdout);
    alarm(120);
    told("a pipe", ESPIPE, kij_files(path, NULL, 0, &needed, &place).extended);
    alarm(0);
}

int main(int count, char **words) {
    char path[4096], forked[4096], fifo[4096], other[4096];
    if (count != 2) {
        fprintf(stderr, "Usage: system FOLDER\n");
        return 2;
    }
    snprintf(path, sizeof path, "%s/system-totals", words[1]);
    try_line_settings();
    try_speeds();
    try_disturbed_bytes();
    try_left_settings();
    try_held_questions();
    try_lost_line();
    try_closing();
    try_closing_at_once();
    try_draining();
    try_taken();
    try_set_up_fault();
    snprintf(forked, sizeof forked, "%s/forked-totals", words[1]);
    try_forked(forked);
    snprintf(forked, sizeof forked, "%s/totals-of-two", words[1]);
    try_forked_totals(forked);
    try_line_as_totals();
    try_own_number();
    try_forked_connection();
    try_no_devices(words[1]);
    snprintf(other, sizeof other, "%s/totals-without-streams", words[1]);
    try_closed_streams(other);
    try_forked_keys();
    try_read_ahead();
    try_hosts();
    try_names();
    try_unread();
    try_endless();
    try_signal();
    try_addresses();
    try_many_addresses();
    try_rare_looks();
    try_joining();
    try_patience();
    try_empty();
    try_given_back();
    try_lost_path();
    try_texts(words[1]);
    try_reasons();
    try_offline_reasons(words[1]);
    try_totals(path);
    try_link(words[1]);
    snprintf(forked, sizeof forked, "%s/totals-without-room", words[1]);
    try_disk_error(forked, &write_fault, ENOSPC);
    snprintf(forked, sizeof forked, "%s/totals-not-synced", words[1]);
    try_disk_error(forked, &sync_fault, EIO);
    snprintf(forked, sizeof forked, "%s/totals-with-room", words[1]);
    snprintf(other, sizeof other, "%s/zeros", words[1]);
    try_room(forked, other);
    snprintf(fifo, sizeof fifo, "%s/system-pipe", words[1]);
    try_pipe(fifo);
    return failed != 0;
}
