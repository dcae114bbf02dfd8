/* Opens or creates a file of totals, and carries out lines over it. Usage: totals open|create FILE [LINE ..]. It prints
   what came of the file, and then the answer of each line. */
#include "kij.h"
#include <errno.h>
#include <stdio.h>
#include <stdlib.h>
#include <string.h>
#include <unistd.h>

static void print(const char *text) {
    size_t count = strlen(text);
    if (write(1, text, count) != (ssize_t)count) exit(3);
}

static const char *why(kij_result result) {
    if (result.code == KIJ_DISK_FAILED) return "failed\n";
    switch (result.extended) {
    case ENOENT: return "missing\n";
    case EEXIST: return "exists\n";
    case EWOULDBLOCK: return "in use\n";
    default: return "failed\n";
    }
}

int main(int count, char **words) {
    kij_till *till;
    const char *answer;
    if (count < 3) return 2;
    kij_result result =
        kij_open(NULL, words[2], strcmp(words[1], "create") == 0 ? KIJ_CREATE_NEW : KIJ_EXISTING, &till);
    if (result.code == KIJ_SYSTEM || result.code == KIJ_DISK_FAILED) return print(why(result)), 1;
    print("ready\n");
    if (result.code != KIJ_OK) {
        char text[32];
        snprintf(text, sizeof text, "library %d\n", result.code);
        return print(text), 1;
    }
    for (int place = 3; place < count && result.code == KIJ_OK; place++) {
        result = kij_carry_out(till, words[place], KIJ_ZERO_ENDED, &answer);
        print(result.code == KIJ_OK ? answer : "failed\n");
    }
    kij_close(till);
    return result.code != KIJ_OK;
}
