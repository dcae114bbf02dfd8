/* Two tills on two threads, at once: each call's code and answer is what one till gives. */
#include "kijolvar.h"
#include <pthread.h>
#include <stdbool.h>
#include <stdio.h>
#include <string.h>

enum { ROUNDS = 2000 };

/* How a till's day ended: how many of its calls gave what they should. */
struct day {
    int calls;
    char answer[128];
};

/* Carries out lines: whether the code is OK and the answer the one that is wanted. */
static bool gives(kijolvar_till *till, struct day *day, const char *lines, const char *wanted) {
    size_t needed = 0;
    uint32_t code = kijolvar_carry_out(*till, &till->at, (const uint8_t *)lines, strlen(lines), (uint8_t *)day->answer,
                                       sizeof day->answer - 1, &needed);
    day->answer[needed < sizeof day->answer ? needed : 0] = 0;
    if (code != KIJOLVAR_OK || strcmp(day->answer, wanted) != 0) return false;
    day->calls++;
    return true;
}

static void *runs(void *given) {
    static const char opening[] = "new d CashDrawer\nopen d d1\nset d DeviceEnabled true";
    static const char line[] = "call d openDrawer\ninput d1 closed\ndeliver d\ndeliver d\nshow d1";
    static const char wanted[] = "ok\nok\nevent StatusUpdateEvent 1\nevent StatusUpdateEvent 0\nok closed\n";
    struct day *day = given;
    kijolvar_till till = {NULL};
    if (kijolvar_open(NULL, 0, &till.at) != KIJOLVAR_OK) return NULL;
    if (gives(&till, day, opening, "ok\nok\nok\n"))
        while (day->calls <= ROUNDS && gives(&till, day, line, wanted)) continue;
    kijolvar_close(till);
    return NULL;
}

int main(void) {
    struct day days[2] = {{0, ""}, {0, ""}};
    pthread_t threads[2];
    for (int number = 0; number < 2; number++)
        if (pthread_create(&threads[number], NULL, runs, &days[number]) != 0) return puts("no thread"), 1;
    bool is_whole = true;
    for (int number = 0; number < 2; number++) {
        is_whole = pthread_join(threads[number], NULL) == 0 && days[number].calls == ROUNDS + 1 && is_whole;
        if (days[number].calls != ROUNDS + 1) printf("call %d gave:\n%s", days[number].calls, days[number].answer);
    }
    puts(is_whole ? "the same" : "another answer");
    return !is_whole;
}
