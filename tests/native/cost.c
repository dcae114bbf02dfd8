/* What an order costs through the driver in C, beside a bare round trip of the same bytes over the same port:
   printNormal of a line, against writing its bytes and reading the acknowledgement. They take turns, 20 rounds of 100
   each, and the medians of all count. Usage: cost PORT. It ends with 1 if an order costs more than 1.3 times as much.
   */
#ifndef _GNU_SOURCE
#define _GNU_SOURCE
#endif
#include "kij.h"
#include <fcntl.h>
#include <poll.h>
#include <stdio.h>
#include <stdlib.h>
#include <string.h>
#include <time.h>
#include <unistd.h>

enum { TIMES = 20 * 100 };

static const char profile[] = "[[device]]\nname = \"r1\"\ncategory = \"POSPrinter\"\nchars = 42\nlines = 1000\n"
                              "near = 20\n";
static const char line[] = "A line of the length that lines often have\n";

static void wants(const char *what, bool holds) {
    if (holds) return;
    printf("failed: %s\n", what);
    exit(2);
}

static double now(void) {
    struct timespec found;
    clock_gettime(CLOCK_MONOTONIC, &found);
    return (double)found.tv_sec * 1e6 + (double)found.tv_nsec / 1e3;
}

static void order(kij_control *printer) {
    wants("an order", kij_printer_print(printer, KIJ_PTR_S_RECEIPT, line, sizeof line - 1).code == KIJ_OK);
}

/* Writes the bytes of the order, and reads the acknowledgement, which has 7 bytes. */
static void round_trip(int port, const uint8_t *bytes, size_t size) {
    uint8_t room[64];
    wants("a round trip", write(port, bytes, size) == (ssize_t)size);
    for (size_t count = 0; count < 7;) {
        struct pollfd waiting = {port, POLLIN, 0};
        wants("an acknowledgement", poll(&waiting, 1, 60000) == 1);
        ssize_t found = read(port, room, sizeof room);
        if (found > 0) count += (size_t)found;
    }
}

static int compare(const void *one, const void *other) {
    double difference = *(const double *)one - *(const double *)other;
    return difference < 0 ? -1 : difference > 0;
}

static double median(double *times) {
    qsort(times, TIMES, sizeof *times, compare);
    return (times[TIMES / 2 - 1] + times[TIMES / 2]) / 2;
}

int main(int count, char **words) {
    kij_till *till;
    kij_control *printer;
    uint8_t bytes[128];
    size_t size = 0;
    static double orders[TIMES], bares[TIMES];
    wants("a port", count == 2);
    memcpy(bytes, "\x1b" "a\0", 3);
    memcpy(bytes + 3, line, sizeof line - 1);
    size = 3 + sizeof line - 1;
    memcpy(bytes + size, "\x1d(H\6\0" "00@@@A", 11);
    size += 11;
    wants("a till", kij_open(profile, NULL, KIJ_EXISTING, &till).code == KIJ_OK);
    wants("a printer", kij_escpos_printer_open(till, "r1", words[1], NULL).code == KIJ_OK);
    wants("a control", kij_start(till, KIJ_POS_PRINTER, "r1", KIJ_CLAIMED, &printer).code == KIJ_OK);
    int port = open(words[1], O_RDWR | O_NOCTTY | O_NONBLOCK | O_CLOEXEC);
    wants("the port", port >= 0);
    for (int time = 0; time < TIMES; time++) {
        double began = now();
        round_trip(port, bytes, size);
        double between = now();
        order(printer);
        bares[time] = between - began;
        orders[time] = now() - between;
    }
    double ordered = median(orders), bare = median(bares), ratio = ordered / bare;
    printf("an order in C: %.0f us; a bare round trip: %.0f us; %.2f times\n", ordered, bare, ratio);
    close(port);
    kij_close(till);
    return ratio > 1.3;
}
