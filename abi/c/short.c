/* An answer that there is no room for is carried out once, its front is written, and it is given whole when it is asked
   for; a byte behind it stays. The same of what is said without a till. */
#include "kijolvar.h"
#include <stdio.h>
#include <stdlib.h>
#include <string.h>

static void wants(const char *what, int holds) {
    if (!holds) exit(printf("failed: %s\n", what));
}

/* Asks about a profile with less room than its answer has, and with enough. */
static void asks(const char *what, const char *profile, const char *told, uint32_t fine, int is_list) {
    const size_t whole = strlen(told);
    uint8_t text[128];
    for (size_t room = 0; room <= whole; room++) {
        size_t needed = 77;
        uint64_t at = 77;
        memset(text, 'x', sizeof text);
        const uint8_t *given = (const uint8_t *)profile;
        uint32_t code = is_list ? kijolvar_devices(given, strlen(profile), text, room, &needed)
                                : kijolvar_profile_mistake(given, strlen(profile), &at, text, room, &needed);
        wants(what, code == (room < whole ? KIJOLVAR_SHORT : fine) && needed == whole && at == 77);
        wants("a front", memcmp(text, told, room) == 0 && text[room] == 'x');
    }
}

int main(void) {
    asks("a mistake", "a = 1", "unknown key: a", KIJOLVAR_BAD_PROFILE, 0);
    asks("a device", "device = [{ name = 'x', category = 'Scanner' }]", "x Scanner\n", KIJOLVAR_OK, 1);
    static const char opening[] = "new d CashDrawer\nopen d d1\nset d DeviceEnabled true\ncall d openDrawer\ndeliver d";
    static const char wanted[] = "ok\nok\nok\nok\nevent StatusUpdateEvent 1\n";
    const size_t whole = strlen(wanted);
    kijolvar_till till = {NULL};
    uint8_t text[64];
    size_t needed = 77;
    wants("the version", kijolvar_version() == KIJOLVAR_VERSION);
    wants("a profile that is none", kijolvar_open((const uint8_t *)"nonsense", 8, &till.at) == KIJOLVAR_BAD_PROFILE);
    wants("no till is written then", till.at == NULL);
    wants("the built-in profile", kijolvar_open(NULL, 0, &till.at) == KIJOLVAR_OK);
    wants("no answer yet", kijolvar_answer(till, &till.at, NULL, 0, &needed) == KIJOLVAR_OK && needed == 0);
    for (size_t room = 0; room < whole; room++) {
        memset(text, 'x', sizeof text);
        const char *lines = room == 0 ? opening : "deliver d";
        uint32_t code = room == 0
            ? kijolvar_carry_out(till, &till.at, (const uint8_t *)lines, strlen(lines), text, room, &needed)
            : kijolvar_answer(till, &till.at, text, room, &needed);
        wants("short", code == KIJOLVAR_SHORT && needed == whole);
        wants("a front", memcmp(text, wanted, room) == 0 && text[room] == 'x');
    }
    memset(text, 'x', sizeof text);
    wants("whole", kijolvar_answer(till, &till.at, text, whole, &needed) == KIJOLVAR_OK && needed == whole);
    wants("whole, and no byte more", memcmp(text, wanted, whole) == 0 && text[whole] == 'x');
    uint32_t code = kijolvar_carry_out(till, &till.at, (const uint8_t *)"deliver d", 9, text, 64, &needed);
    wants("carried out once", code == KIJOLVAR_OK && needed == 5 && memcmp(text, "none\n", 5) == 0);
    wants("nothing", kijolvar_carry_out(till, &till.at, NULL, 0, NULL, 0, &needed) == KIJOLVAR_OK && needed == 0);
    kijolvar_close(till);
    printf("as they should be\n");
    return 0;
}
