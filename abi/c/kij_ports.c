/* The ports of devices: a file such as /dev/usb/lp0, a serial line such as /dev/ttyUSB0, a TCP port, or the key
   events of a keyboard. No call waits longer than it is told, unless a name has to be looked up. */
#ifndef _GNU_SOURCE
#define _GNU_SOURCE
#endif
#include "kij_hardware.h"
#include <arpa/inet.h>
#include <errno.h>
#include <fcntl.h>
#include <limits.h>
#include <linux/input.h>
#include <netdb.h>
#include <netinet/in.h>
#include <netinet/tcp.h>
#include <poll.h>
#include <stdio.h>
#include <stdlib.h>
#include <string.h>
#include <sys/file.h>
#include <sys/ioctl.h>
#include <sys/socket.h>
#include <sys/stat.h>
#include <termios.h>
#include <time.h>
#include <unistd.h>

/* How long a name isn't looked up again, from when on a look-up has taken long, and how long a host has to answer at
   least, though no call waits for it so long, in milliseconds. */
static const int64_t rarely = 60000, slowly = 250, answers = 1000;

/* The characters by which a serial line says that it can take more, and that it can't. */
enum { XON = 0x11, XOFF = 0x13 };

/* How often the other end of a connection is asked whether it is there while nothing is sent, in seconds, and how long
   it may take to acknowledge what was sent, in milliseconds. */
enum { ASKED_EVERY = 10, ACKNOWLEDGED_WITHIN = 60000 };

bool kij_internal_buffer_room(kij_buffer *buffer, size_t room) {
    if (room <= buffer->room) return true;
    size_t wanted = room + room / 2 + 64;
    char *grown = (char *)realloc(buffer->bytes, wanted);
    if (grown == NULL) return false;
    buffer->bytes = grown;
    buffer->room = wanted;
    return true;
}

bool kij_internal_buffer_add(kij_buffer *buffer, const void *bytes, size_t size) {
    if (!kij_internal_buffer_room(buffer, buffer->size + size)) return false;
    if (size > 0) memcpy(buffer->bytes + buffer->size, bytes, size);
    buffer->size += size;
    return true;
}

static int64_t now_by(clockid_t clock) {
    struct timespec now;
    clock_gettime(clock, &now);
    return (int64_t)now.tv_sec * 1000 + now.tv_nsec / 1000000;
}

int64_t kij_internal_now(void) { return now_by(CLOCK_MONOTONIC); }

int64_t kij_internal_now_in_all(void) { return now_by(CLOCK_BOOTTIME); }

void kij_internal_sleep(int64_t time) {
    struct timespec left;
    left.tv_sec = (time_t)(time / 1000);
    left.tv_nsec = (long)(time % 1000 * 1000000);
    nanosleep(&left, NULL);
}

/* The number by which a speed is set, or 0. */
static speed_t speed_of(int speed) {
    static const struct {
        int speed;
        speed_t number;
    } speeds[] = {
        {50, B50},           {75, B75},           {110, B110},         {134, B134},         {150, B150},
        {200, B200},         {300, B300},         {600, B600},         {1200, B1200},       {1800, B1800},
        {2400, B2400},       {4800, B4800},       {9600, B9600},       {19200, B19200},     {38400, B38400},
        {57600, B57600},     {115200, B115200},   {230400, B230400},   {460800, B460800},   {500000, B500000},
        {576000, B576000},   {921600, B921600},   {1000000, B1000000}, {1152000, B1152000}, {1500000, B1500000},
        {2000000, B2000000}, {2500000, B2500000}, {3000000, B3000000}, {3500000, B3500000}, {4000000, B4000000},
    };
    for (size_t place = 0; place < sizeof speeds / sizeof speeds[0]; place++)
        if (speeds[place].speed == speed) return speeds[place].number;
    return 0;
}

bool kij_internal_is_serial(const kij_serial_settings *serial) {
    return speed_of(serial->speed) != 0 && (serial->bits == 7 || serial->bits == 8) &&
           (serial->stops == 1 || serial->stops == 2) && serial->parity <= KIJ_PARITY_ODD &&
           serial->flow <= KIJ_FLOW_XON_XOFF;
}

static bool begins_with(const char *text, const char *front) { return strncmp(text, front, strlen(front)) == 0; }

/* Whether a path begins so, or is a link to one that does. */
static bool leads_to(const char *path, const char *front) {
    char found[PATH_MAX];
    return begins_with(path, front) || (realpath(path, found) != NULL && begins_with(found, front));
}

static bool is_line_name(const char *path) { return begins_with(path, "/dev/serial/") || leads_to(path, "/dev/tty"); }

static bool is_keyboard_name(const char *path) { return leads_to(path, "/dev/input/"); }

void kij_internal_port(kij_port *port, const char *name, const kij_serial_settings *serial, bool has_keys) {
    memset(port, 0, sizeof *port);
    port->name = name;
    port->serial = *serial;
    port->file = -1;
    if (begins_with(name, "tcp:")) port->kind = KIJ_PORT_TCP;
    else if (has_keys || is_keyboard_name(name)) port->kind = KIJ_PORT_KEYS;
    else port->kind = serial->is_serial || is_line_name(name) ? KIJ_PORT_SERIAL : KIJ_PORT_FILE;
}

/* Takes over how a serial line is set up. A byte whose parity is wrong, or whose stop bit is missing as at another
   speed, is dropped, or reads as 0 where that is kept. As a printer's answer a 0 would say that a line is printed, or
   that all is well. */
static void take_settings(struct termios *found, const kij_port *port) {
    const kij_serial_settings *serial = &port->serial;
    found->c_cflag &= ~(tcflag_t)(CSIZE | PARENB | PARODD | CMSPAR | CSTOPB | CRTSCTS);
    found->c_cflag |= serial->bits == 8 ? CS8 : CS7;
    found->c_iflag |= port->keeps_faults ? INPCK : INPCK | IGNPAR;
    if (serial->parity != KIJ_PARITY_NONE) found->c_cflag |= PARENB;
    if (serial->parity == KIJ_PARITY_ODD) found->c_cflag |= PARODD;
    if (serial->stops == 2) found->c_cflag |= CSTOPB;
    if (serial->flow == KIJ_FLOW_RTS_CTS) found->c_cflag |= CRTSCTS;
    if (serial->flow == KIJ_FLOW_XON_XOFF) {
        found->c_iflag |= IXON | IXOFF;
        /* A program that had the line before may have left it others, or none. */
        found->c_cc[VSTART] = XON;
        found->c_cc[VSTOP] = XOFF;
    }
    cfsetispeed(found, speed_of(serial->speed));
    cfsetospeed(found, speed_of(serial->speed));
}

/* Sets up a terminal line, so that bytes pass as they are: 0 or errno. A break, as when a device is plugged in, is
   ignored. */
static int set_up(int file, const kij_port *port) {
    struct termios found;
    bool is_serial = port->kind == KIJ_PORT_SERIAL;
    if (tcgetattr(file, &found) != 0) return errno;
    found.c_iflag = IGNBRK;
    found.c_oflag = found.c_lflag = 0;
    found.c_cflag = (found.c_cflag & ~(tcflag_t)(CSIZE | PARENB)) | CS8 | CREAD | CLOCAL;
    found.c_cc[VMIN] = 1;
    found.c_cc[VTIME] = 0;
    if (is_serial) take_settings(&found, port);
    if (tcsetattr(file, TCSANOW, &found) != 0) return errno;
    return !is_serial || tcflush(file, TCIOFLUSH) == 0 ? 0 : errno;
}

/* Keeps a terminal line to this till: 0, EBUSY if another program has it, or errno. Nothing of the line is changed
   then, since its bytes and settings are the other's. */
static int take_line(int file) {
    if (flock(file, LOCK_EX | LOCK_NB) != 0) return errno == EWOULDBLOCK ? EBUSY : errno;
    /* That keeps out programs that lock nothing, unless they are root's. */
    if (ioctl(file, TIOCEXCL) == 0) return 0;
    int why = errno;
    (void)flock(file, LOCK_UN);
    return why;
}

/* Lets others have a line again, though a process that was forked meanwhile has it too. */
static void give_line_back(int file) {
    if (isatty(file)) (void)ioctl(file, TIOCNXCL);
    (void)flock(file, LOCK_UN);
}

/* Sets up a terminal line that no other program has: 0 or errno. */
static int set_up_own(int file, const kij_port *port) {
    int why = take_line(file);
    if (why != 0) return why;
    why = set_up(file, port);
    if (why != 0) give_line_back(file);
    return why;
}

/* Leaves the scan code of each key out of a keyboard's events, a third of them: Linux keeps few that nobody reads. It
   takes masks in parts of 8 bytes. */
static void leave_out(int file) {
    const uint64_t none = 0;
    struct input_mask mask = {EV_MSC, sizeof none, (uintptr_t)&none};
    (void)ioctl(file, EVIOCSMASK, &mask);
}

/* Sets up a device that was opened: 0 or errno. */
static int prepare(kij_port *port, int file) {
    /* fstat would need glibc 2.33. */
    struct statx found;
    if (statx(file, "", AT_EMPTY_PATH, STATX_TYPE, &found) != 0) return errno;
    /* A file, a folder or a disk is no port. Nor is a pipe, of which this program would read what it writes. */
    bool may_be_pipe = port->kind == KIJ_PORT_KEYS;
    if (!S_ISCHR(found.stx_mode) && !(may_be_pipe && S_ISFIFO(found.stx_mode))) return ENODEV;
    if (port->kind == KIJ_PORT_KEYS) {
        /* A pipe or a terminal has no keys to keep from other programs. */
        if (S_ISCHR(found.stx_mode) && ioctl(file, EVIOCGRAB, 1) != 0 && errno != ENOTTY && errno != EINVAL)
            return errno;
        leave_out(file);
        port->ends_empty = true;
        return isatty(file) ? set_up_own(file, port) : 0;
    }
    /* A printer on USB may send packets with nothing in them. */
    port->ends_empty = isatty(file) != 0;
    return port->ends_empty ? set_up_own(file, port) : 0;
}

/* Opens a device file: 0 or errno. */
static int open_file(kij_port *port, int *file) {
    int way = port->kind == KIJ_PORT_KEYS ? O_RDONLY : O_RDWR;
    *file = kij_internal_off_streams(open(port->name, way | O_NONBLOCK | O_NOCTTY | O_CLOEXEC));
    if (*file < 0) return errno;
    int why = prepare(port, *file);
    if (why != 0) close(*file);
    return why;
}

/* How long the name and the number of a host may be, with the 0 at the end. */
enum { HOST_ROOM = 256, SERVICE_ROOM = 16 };

/* Whether a text is the number of a TCP port. */
static bool is_number(const char *text) {
    int number = 0;
    for (; *text >= '0' && *text <= '9' && number < 65536; text++) number = 10 * number + (*text - '0');
    return *text == 0 && number > 0 && number < 65536;
}

/* Whether a host is a name or an address. Only one of IPv6 has colons; behind it may stand % and an interface. */
static bool is_host(const char *host) {
    char text[HOST_ROOM];
    struct in6_addr found;
    if (strchr(host, ':') == NULL) return *host != 0;
    const char *zone = strchr(host, '%');
    bool has_zone = zone != NULL && zone[1] != 0 && strchr(zone + 1, '%') == NULL;
    snprintf(text, sizeof text, "%.*s", (int)strcspn(host, "%"), host);
    return inet_pton(AF_INET6, text, &found) == 1 && (zone == NULL || has_zone);
}

/* Reads tcp:HOST, tcp:HOST:PORT, and both with // behind the first colon. An address of IPv6 is in brackets: nothing
   says whether the end of a bare one is a number. */
static bool is_address(const char *name, char *host, size_t host_room, char *service, size_t service_room) {
    const char *from = name + strlen("tcp:");
    if (begins_with(from, "//")) from += 2;
    bool has_brackets = *from == '[';
    if (has_brackets) from++;
    size_t size = strcspn(from, has_brackets ? "[]" : ":[]");
    const char *end = from + size;
    if (size >= host_room || (has_brackets && *end++ != ']') || (*end != 0 && *end != ':')) return false;
    memcpy(host, from, size);
    host[size] = 0;
    if (!is_host(host)) return false;
    int written = snprintf(service, service_room, "%s", *end == 0 ? "9100" : end + 1);
    return written > 0 && (size_t)written < service_room && is_number(service);
}

bool kij_internal_is_port(const char *name) {
    char host[HOST_ROOM], service[SERVICE_ROOM];
    return !begins_with(name, "tcp:") || is_address(name, host, sizeof host, service, sizeof service);
}

/* Waits for a connection that was begun, until a time: 0, errno, or EINPROGRESS if it isn't made yet. */
static int finish(int file, int64_t end) {
    struct pollfd waiting = {file, POLLOUT, 0};
    int why = 0, ready;
    socklen_t size = sizeof why;
    do {
        int64_t left = end - kij_internal_now();
        ready = poll(&waiting, 1, (int)(left < 0 ? 0 : left));
    } while (ready < 0 && errno == EINTR && kij_internal_now() < end);
    if (ready <= 0) return EINPROGRESS;
    if (getsockopt(file, SOL_SOCKET, SO_ERROR, &why, &size) != 0) return errno;
    return why;
}

/* Sets up a connection, so that the system finds out that the other end lost its power: by default after hours, and
   after minutes if something was sent to it. 0 or errno. */
static int set_up_tcp(int file, bool is_patient) {
    const struct {
        int level, name, value;
    } options[] = {
        {IPPROTO_TCP, TCP_NODELAY, 1},
        {SOL_SOCKET, SO_KEEPALIVE, 1},
        {IPPROTO_TCP, TCP_KEEPIDLE, ASKED_EVERY},
        {IPPROTO_TCP, TCP_KEEPINTVL, ASKED_EVERY},
        {IPPROTO_TCP, TCP_USER_TIMEOUT, is_patient ? 0 : ACKNOWLEDGED_WITHIN},
    };
    for (size_t place = 0; place < sizeof options / sizeof options[0]; place++) {
        int value = options[place].value;
        if (setsockopt(file, options[place].level, options[place].name, &value, sizeof value) != 0) return errno;
    }
    return 0;
}

/* Lets go of a connection that isn't made. */
static void stop_joining(kij_port *port) {
    if (port->is_joining) close(port->joining);
    port->is_joining = false;
}

/* Begins to connect to the address whose turn it is. Each of those that are left has the same time, so that one that
   says nothing leaves some to the others. If no call has looked while they had it, they have it again. 0 or errno. */
static int begin_joining(kij_port *port) {
    const kij_address *address = &port->addresses[port->join_place];
    int64_t now = kij_internal_now(), left = (int64_t)(port->address_count - port->join_place);
    int64_t least = port->joins_time * left / (int64_t)port->address_count;
    if (port->joins_end_at - now < least) port->joins_end_at = now + least;
    port->join_ends_at = now + (port->joins_end_at - now) / left;
    int file = socket(address->place.ss_family, SOCK_STREAM | SOCK_NONBLOCK | SOCK_CLOEXEC, 0);
    port->joining = kij_internal_off_streams(file);
    if (port->joining < 0) return errno;
    port->is_joining = true;
    port->process = getpid();
    bool is_begun = connect(port->joining, (const struct sockaddr *)&address->place, address->size) == 0;
    return is_begun || errno == EINPROGRESS ? 0 : errno;
}

/* Whether a connection leads to itself. The system may give it the number of the port, if nobody listens there. */
static bool is_own(int file) {
    struct sockaddr_storage here, there;
    socklen_t size = sizeof here, other_size = sizeof there;
    memset(&here, 0, sizeof here);
    memset(&there, 0, sizeof there);
    return getsockname(file, (struct sockaddr *)&here, &size) == 0 &&
           getpeername(file, (struct sockaddr *)&there, &other_size) == 0 && memcmp(&here, &there, sizeof here) == 0;
}

/* Connects to the address whose turn it is: 0, errno, or EINPROGRESS if it has time left after the end. */
static int join(kij_port *port, int64_t end) {
    int why = port->is_joining ? 0 : begin_joining(port);
    if (why == 0) why = finish(port->joining, end < port->join_ends_at ? end : port->join_ends_at);
    if (why == EINPROGRESS && kij_internal_now() < port->join_ends_at) return why;
    if (why == 0 && is_own(port->joining)) why = ECONNREFUSED;
    if (why == 0) why = set_up_tcp(port->joining, port->is_patient);
    if (why != 0) stop_joining(port);
    return why == EINPROGRESS ? ETIMEDOUT : why;
}

/* Keeps addresses, as many as there is room for. */
static void keep_addresses(kij_port *port, const struct addrinfo *found) {
    port->address_count = 0;
    for (; found != NULL && port->address_count < KIJ_ADDRESS_ROOM; found = found->ai_next) {
        kij_address *address = &port->addresses[port->address_count];
        if (found->ai_addrlen > sizeof address->place) continue;
        memcpy(&address->place, found->ai_addr, found->ai_addrlen);
        address->size = found->ai_addrlen;
        port->address_count++;
    }
}

/* Looks the name of a TCP port up: 0 or errno. The addresses that are kept stay if there are no others. It isn't looked
   up again for a while, unless there is no address and that is known at once, as before there is a network. */
static int resolve(kij_port *port) {
    char host[HOST_ROOM], service[SERVICE_ROOM];
    struct addrinfo wanted, *found = NULL;
    if (!is_address(port->name, host, sizeof host, service, sizeof service)) return EINVAL;
    int64_t began = kij_internal_now();
    if (began < port->resolve_at) return EHOSTUNREACH;
    memset(&wanted, 0, sizeof wanted);
    wanted.ai_socktype = SOCK_STREAM;
    wanted.ai_flags = AI_NUMERICSERV;
    bool is_found = getaddrinfo(host, service, &wanted, &found) == 0;
    int64_t now = kij_internal_now();
    if (is_found || port->address_count > 0 || now - began > slowly) port->resolve_at = now + rarely;
    if (!is_found) return EHOSTUNREACH;
    keep_addresses(port, found);
    freeaddrinfo(found);
    return 0;
}

/* Opens a TCP port: 0, errno, or EINPROGRESS if a connection is being made. One that a call before has begun is looked
   at without waiting. */
static int open_tcp(kij_port *port, int64_t time, int *file) {
    /* That of the process from which this one was forked isn't its own. */
    if (port->is_joining && port->process != getpid()) stop_joining(port);
    int64_t now = kij_internal_now(), end = port->is_joining ? now : now + time;
    if (!port->is_joining) {
        int why = port->address_count > 0 ? 0 : resolve(port);
        if (why != 0) return why;
        port->join_place = 0;
        port->joins_time = time < answers ? answers : time;
        port->joins_end_at = kij_internal_now() + port->joins_time;
    }
    int why = EHOSTUNREACH;
    while (port->join_place < port->address_count) {
        why = join(port, end);
        if (why == 0 || why == EINPROGRESS) break;
        port->join_place++;
    }
    /* The name may have others by now, for the next time. */
    if (why != 0 && why != EINPROGRESS) (void)resolve(port);
    if (why != 0) return why;
    *file = port->joining;
    port->is_joining = false;
    port->ends_empty = true;
    return 0;
}

bool kij_internal_port_open(kij_port *port, int64_t time) {
    int file = -1;
    if (port->file >= 0) return true;
    /* A link to a serial line or to a keyboard may have been missing before. */
    if (port->kind == KIJ_PORT_FILE && is_line_name(port->name)) port->kind = KIJ_PORT_SERIAL;
    if (port->kind == KIJ_PORT_FILE && is_keyboard_name(port->name)) port->kind = KIJ_PORT_KEYS;
    int why = port->kind == KIJ_PORT_TCP ? open_tcp(port, time, &file) : open_file(port, &file);
    /* What a connection that is being made comes to isn't known yet. */
    if (why == EINPROGRESS) why = port->error == 0 ? ETIMEDOUT : port->error;
    if (why != 0) {
        port->error = why;
        return false;
    }
    port->file = file;
    port->process = getpid();
    port->was_empty = false;
    port->turns++;
    return true;
}

/* Drops what a terminal line couldn't send. Closing it would wait for that, by default for 30 seconds. Some drivers
   can't drop it, so nothing may hold it back any more. Of a pseudo terminal, which says that all is sent, it would drop
   what the program at its other end hasn't read yet. */
static void drop_unsent(int file) {
    struct termios found;
    int left = 0;
    if (!isatty(file)) return;
    if (ioctl(file, TIOCOUTQ, &left) != 0 || left > 0) (void)tcflush(file, TCOFLUSH);
    if (tcgetattr(file, &found) != 0) return;
    found.c_cflag &= ~(tcflag_t)CRTSCTS;
    found.c_iflag &= ~(tcflag_t)IXON;
    (void)tcsetattr(file, TCSANOW, &found);
}

/* Drops what has come over a connection and nobody has read: with that the system would drop what it hasn't sent yet.
   */
static void drop_unread(int file) {
    char bytes[1024];
    for (int part = 0; part < KIJ_MOST_PARTS && recv(file, bytes, sizeof bytes, MSG_DONTWAIT) > 0; part++) continue;
}

/* Ends what a process that was forked meanwhile would keep up: a connection, or that other programs get no keys or no
   line. */
static void let_go(const kij_port *port) {
    if (port->kind == KIJ_PORT_TCP) {
        drop_unread(port->file);
        (void)shutdown(port->file, SHUT_RDWR);
        return;
    }
    if (port->kind == KIJ_PORT_KEYS) (void)ioctl(port->file, EVIOCGRAB, 0);
    else drop_unsent(port->file);
    give_line_back(port->file);
}

void kij_internal_port_close(kij_port *port) {
    stop_joining(port);
    if (port->file >= 0) {
        if (port->process == getpid()) let_go(port);
        close(port->file);
    }
    port->file = -1;
}

bool kij_internal_port_holds_back(const kij_port *port) {
    return port->kind == KIJ_PORT_SERIAL && port->serial.flow != KIJ_FLOW_NONE;
}

bool kij_internal_port_is_holding(const kij_port *port) {
    int left = 0;
    return kij_internal_port_holds_back(port) && ioctl(port->file, TIOCOUTQ, &left) == 0 && left > 0;
}

void kij_internal_port_discard(const kij_port *port) {
    if (kij_internal_port_holds_back(port)) (void)tcflush(port->file, TCOFLUSH);
}

void kij_internal_port_resume(const kij_port *port) {
    if (!kij_internal_port_holds_back(port) || port->serial.flow != KIJ_FLOW_XON_XOFF) return;
    /* Linux goes on only from a stop of the same kind. */
    (void)tcflow(port->file, TCOOFF);
    (void)tcflow(port->file, TCOON);
}

struct pollfd kij_internal_port_waiting(const kij_port *port, bool is_writing) {
    struct pollfd waiting = {port->file, (short)(POLLIN | (is_writing ? POLLOUT : 0)), 0};
    return waiting;
}

void kij_internal_port_is_ready(const struct pollfd *found, bool *can_read, bool *can_write) {
    *can_read = (found->revents & (POLLIN | POLLHUP | POLLERR | POLLNVAL)) != 0;
    *can_write = (found->revents & POLLOUT) != 0;
}

void kij_internal_port_wait(const kij_port *port, bool is_writing, int64_t time, bool *can_read, bool *can_write) {
    struct pollfd waiting = kij_internal_port_waiting(port, is_writing);
    (void)poll(&waiting, 1, (int)(time < 0 ? 0 : time));
    kij_internal_port_is_ready(&waiting, can_read, can_write);
}

/* Whether reading or writing has failed, and not only as there is nothing to do now. */
static bool is_lost(ssize_t found) {
    return found < 0 && errno != EAGAIN && errno != EWOULDBLOCK && errno != EINTR;
}

bool kij_internal_port_read(kij_port *port, void *bytes, size_t room, size_t *count) {
    ssize_t found = read(port->file, bytes, room);
    port->was_empty = found == 0;
    *count = found > 0 ? (size_t)found : 0;
    if (!is_lost(found) && !(found == 0 && port->ends_empty)) return true;
    port->error = found < 0 ? errno : EPIPE;
    kij_internal_port_close(port);
    return false;
}

bool kij_internal_port_write(kij_port *port, const void *bytes, size_t size, size_t *count) {
    ssize_t found = port->kind == KIJ_PORT_TCP ? send(port->file, bytes, size, MSG_NOSIGNAL)
                                               : write(port->file, bytes, size);
    *count = found > 0 ? (size_t)found : 0;
    if (!is_lost(found)) return true;
    port->error = errno;
    return false;
}

/* Whether a device takes more, or is lost. /dev/usb/lp0 takes bytes at once, and more once those have left this
   machine. If it is closed before that, they are lost. */
static bool takes_more(const kij_port *port) {
    struct pollfd found = kij_internal_port_waiting(port, true);
    return poll(&found, 1, 0) > 0 && (found.revents & (POLLOUT | POLLHUP | POLLERR | POLLNVAL)) != 0;
}

bool kij_internal_port_is_draining(kij_port *port) {
    int left = 0;
    if (port->kind == KIJ_PORT_TCP) return false;
    if (ioctl(port->file, TIOCOUTQ, &left) == 0) return left > 0;
    /* Another device is no line, also if it was to be set up as one. */
    if (errno == ENOTTY || errno == EINVAL) return !takes_more(port);
    port->error = errno;
    kij_internal_port_close(port);
    return false;
}
