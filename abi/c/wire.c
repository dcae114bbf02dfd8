/* The bytes of driven devices' orders, and what printers reply. The bytes wanted are those of the commands of ESC/POS
   and CD5220, and the lines those of a script. No call changes the till. Where memory runs out at any place of a call,
   it says so and writes nothing, and the same call again ends as if there had been enough. */
#include "shop.h"

enum { JOB_5 = 5, PAPER = 65536, DRAWER = 65537, NOTHING = 65538 };

typedef kijolvar_wire_settings hardware;

static const hardware usual = {48, 0, 3, 500, 2, 0x19, 0xfa, 1, 0};

/* The bytes of a text in hex, in which spaces count for nothing. */
static size_t unhexed(const char *text, uint8_t *bytes) {
    size_t size = 0;
    for (unsigned byte; *text != '\0'; text += 2) {
        while (*text == ' ') text++;
        wants("hex", sscanf(text, "%2x", &byte) == 1);
        bytes[size++] = (uint8_t)byte;
    }
    return size;
}

static uint32_t asks_bytes(shop *self, const hardware *settings, uint32_t is_new, uint32_t end, size_t room) {
    begins(self);
    return kijolvar_order_bytes(self->till, &self->till.at, settings, is_new, end, (uint8_t *)self->text, room,
                                &self->needed);
}

/* The bytes of the pending order are these, in hex. */
static void bytes(shop *self, const hardware *settings, uint32_t is_new, uint32_t end, const char *wanted) {
    uint8_t told[256];
    const size_t size = unhexed(wanted, told);
    const uint32_t code = asks_bytes(self, settings, is_new, end, sizeof self->text);
    if (code != KIJOLVAR_OK || self->needed != size || memcmp(self->text, told, size) != 0) {
        printf("code %u:", (unsigned)code);
        for (size_t place = 0; place < self->needed && place < sizeof told; place++)
            printf(" %02x", (unsigned)(uint8_t)self->text[place]);
        printf(" and not %s\n", wanted);
    }
    wants("the bytes of an order", code == KIJOLVAR_OK && self->needed == size && memcmp(self->text, told, size) == 0);
}

/* The bytes of the pending order aren't told, for this cause. Nothing is written. */
static void no_bytes(shop *self, const hardware *settings, uint32_t wanted) {
    ends(self, "no bytes of an order", asks_bytes(self, settings, 0, NOTHING, sizeof self->text), wanted, NULL);
    wants("nothing written", self->text[0] == '\0');
}

/* Lines wait with an order that has these bytes, before and after the host has it. It is done then. */
static void does(shop *self, const char *given, const hardware *settings, const char *told,
                 const char *wanted) {
    lines(self, given, KIJOLVAR_WAITS, "");
    bytes(self, settings, 0, NOTHING, wanted);
    order(self, told);
    bytes(self, settings, 0, NOTHING, wanted);
    done(self, "", KIJOLVAR_OK, "ok\n");
    no_bytes(self, settings, KIJOLVAR_NO_ORDER);
}

/* Whole lines with alignment and bold, what is in the line buffer, cuts, and what is asked around them. */
static void prints(void) {
    static const char bold[] = "1b6100 4142 1b4501 4344 1b4500 0a";
    hardware other = usual;
    char wanted[256];
    shop self;
    opens(&self);
    no_bytes(&self, &usual, KIJOLVAR_NO_ORDER);
    lines(&self, "call r printNormal 2 41421b7c624343440a\n", KIJOLVAR_WAITS, "");
    for (int has_it = 0; has_it < 2; has_it++) {
        bytes(&self, &usual, 0, NOTHING, bold);
        bytes(&self, &usual, 0, UINT32_MAX, bold);
        snprintf(wanted, sizeof wanted, "1b40 1d61ff %s 1d284806003030 40404045", bold);
        bytes(&self, &usual, 1, JOB_5, wanted);
        bytes(&self, &usual, UINT32_MAX, JOB_5, wanted);
        snprintf(wanted, sizeof wanted, "%s 1d284806003030 4f4f4f4f", bold);
        bytes(&self, &usual, 0, 65535, wanted);
        snprintf(wanted, sizeof wanted, "%s 1d7201", bold);
        bytes(&self, &usual, 0, PAPER, wanted);
        snprintf(wanted, sizeof wanted, "1b40 1d61ff %s 1d7202", bold);
        bytes(&self, &usual, 1, DRAWER, wanted);
        if (!has_it) order(&self, "r1 print 41421b7c624343440a");
    }
    done(&self, "", KIJOLVAR_OK, "ok\n");
    no_bytes(&self, &usual, KIJOLVAR_NO_ORDER);
    does(&self, "call r printNormal 2 4546\n", &usual, "r1 print 4546", "");
    does(&self, "call r printNormal 2 1b7c6341470a0a\n", &usual, "r1 print 1b7c6341470a0a",
         "1b6101 454647 0a 1b6101 0a");
    does(&self, "call r printNormal 2 1b7c72413132333435363738390a\n", &usual, "r1 print 1b7c72413132333435363738390a",
         "1b6102 3132333435363738 0a 1b6102 39 0a");
    does(&self, "call r cutPaper 100\n", &usual, "r1 cutPaper 100", "1d564103");
    does(&self, "call r cutPaper 50\n", &usual, "r1 cutPaper 50", "1d564203");
    other.cutter = 1;
    does(&self, "call r cutPaper 50\n", &other, "r1 cutPaper 50", "1d564103");
    other.cutter = 2;
    does(&self, "call r cutPaper 100\n", &other, "r1 cutPaper 100", "1d564203");
    other.cutter = 3;
    other.feed = 255;
    does(&self, "call r cutPaper 100\n", &other, "r1 cutPaper 100", "1b64ff");
    lines(&self, "show r1\n", KIJOLVAR_OK,
          "ok closed 95 -:- l:41424344:0011 c:454647:000 c:-:- r:3132333435363738:00000000 r:39:0 x:100 x:50 x:50 "
          "x:100 x:100\n");
    kijolvar_close(self.till);
}

static void opens_drawer(void) {
    hardware other = usual;
    shop self;
    opens(&self);
    does(&self, "call d openDrawer\n", &usual, "d1 openDrawer", "1b7000 19fa");
    other.pin = 5;
    other.on = 0;
    other.off = 255;
    lines(&self, "call d openDrawer\n", KIJOLVAR_WAITS, "");
    bytes(&self, &other, 0, NOTHING, "1b7001 00ff");
    bytes(&self, &other, 1, JOB_5, "1b40 1d61ff 1b7001 00ff 1d284806003030 40404045");
    bytes(&self, &other, 0, DRAWER, "1b7001 00ff 1d7202");
    kijolvar_close(self.till);
}

/* A new till with a display beside the drawer and the printer. */
static void opens_all(shop *self) {
    opens(self);
    lines(self, "new p LineDisplay\nopen p p1\nclaim p 0\nset p DeviceEnabled true\n", KIJOLVAR_OK, "ok\nok\nok\nok\n");
    drives(self, "p1", KIJOLVAR_OK);
}

/* Rows that change, from their beginnings; all that aren't blank if the connection is new. */
static void shows(void) {
    hardware other = usual;
    shop self;
    opens_all(&self);
    does(&self, "call p displayTextAt 0 0 4142 0\n", &usual, "p1 displayTextAt 0 0 4142 0", "1b6c0101 41422020");
    lines(&self, "call p displayTextAt 1 2 4344 0\n", KIJOLVAR_WAITS, "");
    bytes(&self, &usual, 0, NOTHING, "1b6c0102 20204344");
    bytes(&self, &usual, 0, JOB_5, "1b6c0102 20204344");
    bytes(&self, &usual, 1, NOTHING, "1b400c 1b6c0101 41422020 1b6c0102 20204344");
    other.protocol = 1;
    bytes(&self, &other, 1, NOTHING, "1b400c 1f240101 41422020 1f240102 20204344");
    order(&self, "p1 displayTextAt 1 2 4344 0");
    done(&self, "", KIJOLVAR_OK, "ok\n");
    does(&self, "call p clearText\n", &other, "p1 clearText", "1f240101 20202020 1f240102 20202020");
    lines(&self, "call p clearText\n", KIJOLVAR_WAITS, "");
    bytes(&self, &usual, 0, NOTHING, "");
    bytes(&self, &usual, 1, NOTHING, "1b400c");
    kijolvar_close(self.till);
}

/* Each setting counts for its kind alone, within its range. */
static void refuses_bytes(void) {
    static const struct {
        const char *line;
        hardware settings;
    } bad[] = {
        {"call r cutPaper 100\n", {7, 0, 3, 500, 2, 25, 250, 1, 0}},
        {"call r cutPaper 100\n", {48, 4, 3, 500, 2, 25, 250, 1, 0}},
        {"call r cutPaper 100\n", {48, 0, 256, 500, 2, 25, 250, 1, 0}},
        {"call r cutPaper 100\n", {48, 0, 3, 2, 2, 25, 250, 1, 0}},
        {"call r cutPaper 100\n", {48, 0, 3, 100001, 2, 25, 250, 1, 0}},
        {"call d openDrawer\n", {48, 0, 3, 500, 3, 25, 250, 1, 0}},
        {"call d openDrawer\n", {48, 0, 3, 500, 2, 256, 250, 1, 0}},
        {"call d openDrawer\n", {48, 0, 3, 500, 2, 25, 256, 1, 0}},
        {"call d openDrawer\n", {48, 0, 3, 500, 2, 25, 250, 2, 0}},
        {"call p clearText\n", {48, 0, 3, 500, 2, 25, 250, 1, 2}},
    };
    static const hardware printer = {8, 3, 0, 3, 9, 999, 999, 9, 9}, drawer = {0, 9, 999, 0, 5, 0, 0, 0, 9};
    shop self;
    for (size_t place = 0; place < sizeof bad / sizeof bad[0]; place++) {
        opens_all(&self);
        lines(&self, bad[place].line, KIJOLVAR_WAITS, "");
        no_bytes(&self, &bad[place].settings, KIJOLVAR_BAD_SETTINGS);
        kijolvar_close(self.till);
    }
    opens(&self);
    does(&self, "call r cutPaper 100\n", &printer, "r1 cutPaper 100", "1b6400");
    lines(&self, "call d openDrawer\n", KIJOLVAR_WAITS, "");
    bytes(&self, &drawer, 0, NOTHING, "1b7001 0000");
    for (size_t room = 0; room < 5; room++) {
        wants("too short", asks_bytes(&self, &usual, 0, NOTHING, room) == KIJOLVAR_SHORT && self.needed == 5);
        wants("nothing written", self.text[0] == '\0');
    }
    wants("just long enough", asks_bytes(&self, &usual, 0, NOTHING, 5) == KIJOLVAR_OK && self.needed == 5);
    kijolvar_close(self.till);
}

/* What a printer sent, what was asked of it, and what comes of it for a device. */
typedef struct sent {
    const char *name;
    uint32_t asked;
    const char *bytes;
    size_t used, skipped;
    const char *lines;
} sent;

static uint32_t reads(shop *self, const sent *one, const hardware *settings, size_t room, size_t *used,
                      size_t *skipped) {
    uint8_t given[64];
    const size_t size = unhexed(one->bytes, given);
    begins(self);
    *used = *skipped = 7777;
    return kijolvar_replies(self->till, &self->till.at, (const uint8_t *)one->name, strlen(one->name), settings,
                            one->asked, given, size, used, skipped, (uint8_t *)self->text, room, &self->needed);
}

static void replies(shop *self, const sent *one) {
    size_t used, skipped;
    ends(self, one->bytes, reads(self, one, &usual, sizeof self->text, &used, &skipped), KIJOLVAR_OK, one->lines);
    if (used != one->used || skipped != one->skipped) printf("%s: used %zu, skipped %zu\n", one->bytes, used, skipped);
    wants(one->bytes, used == one->used && skipped == one->skipped);
}

static void no_reply(shop *self, const sent *one, const hardware *settings, uint32_t wanted) {
    size_t used, skipped;
    ends(self, one->name, reads(self, one, settings, sizeof self->text, &used, &skipped), wanted, NULL);
    wants("nothing written", used == 7777 && skipped == 7777 && self->text[0] == '\0');
}

static void reads_replies(void) {
    static const sent each[] = {
        /* automatic statuses, whole, begun, behind what is no reply, and before more */
        {"r1", 0, "38000000", 4, 0, "input r1 cover open\nstatus pin low offline yes cover open paper good fault no\n"},
        {"r1", 0, "10000000", 4, 0, "status pin low offline no cover closed paper good fault no\n"},
        {"r1", 0, "10480000", 4, 0, "status pin low offline no cover closed paper good fault yes\n"},
        {"r1", 0, "10000300", 4, 0, "input r1 paper 2\nstatus pin low offline no cover closed paper near fault no\n"},
        {"r1", 0, "18000f00", 4, 0, "input r1 paper 0\nstatus pin low offline yes cover closed paper empty fault no\n"},
        {"r1", 0, "", 0, 0, ""},
        {"r1", 0, "380000", 0, 0, ""},
        {"r1", 0, "4142", 2, 2, ""},
        {"r1", 0, "41423800", 2, 2, ""},
        {"r1", 0, "4142380010000000 10000000", 8, 4, "status pin low offline no cover closed paper good fault no\n"},
        {"r1", 0, "380000003800", 4, 0,
         "input r1 cover open\nstatus pin low offline yes cover open paper good fault no\n"},
        /* acknowledgements */
        {"r1", 0, "37224040404500", 7, 0, "job 5\n"},
        {"r1", 0, "37224f4f4f4f00", 7, 0, "job 65535\n"},
        {"d1", 0, "37224041424300", 7, 0, "job 291\n"},
        {"r1", 0, "372240404045", 0, 0, ""},
        /* what was asked, and what wasn't */
        {"r1", 1, "1e", 1, 0, "status pin high offline yes\n"},
        {"r1", 2, "16", 1, 0, "input r1 cover open\nstatus cover open fault no\n"},
        {"r1", 2, "32", 1, 0, "input r1 paper 0\nstatus cover closed paper empty fault no\n"},
        {"r1", 3, "1a", 1, 0, "status fault yes\n"},
        {"r1", 4, "1e", 1, 0, "input r1 paper 2\nstatus paper near\n"},
        {"r1", 5, "00", 1, 0, "status paper good\n"},
        {"r1", 5, "0c", 1, 0, "input r1 paper 0\nstatus paper empty\n"},
        {"r1", 6, "01", 1, 0, "status pin high\n"},
        {"r1", 0, "1e", 1, 1, ""},
        {"r1", 7, "00", 1, 1, ""},
        {"r1", UINT32_MAX, "00", 1, 1, ""},
        /* the drawer on its connector */
        {"d1", 6, "01", 1, 0, "input d1 open\nstatus pin high\n"},
        {"d1", 6, "00", 1, 0, "status pin low\n"},
        {"d1", 0, "3c000000", 4, 0,
         "input d1 open\nstatus pin high offline yes cover open paper good fault no\n"},
    };
    shop self;
    opens(&self);
    for (size_t place = 0; place < sizeof each / sizeof each[0]; place++) replies(&self, &each[place]);
    /* of a device that is as the printer says, that is off, or whose order waits */
    lines(&self, "input r1 cover open\ninput d1 power off\n", KIJOLVAR_OK, "ok\nok\n");
    replies(&self, &(sent){"r1", 0, "38000000", 4, 0, "status pin low offline yes cover open paper good fault no\n"});
    replies(&self, &(sent){"r1", 0, "10000000", 4, 0,
                           "input r1 cover closed\nstatus pin low offline no cover closed paper good fault no\n"});
    replies(&self, &(sent){"d1", 6, "00", 1, 0, "input d1 power on\nstatus pin low\n"});
    lines(&self, "input r1 cover closed\ncall r cutPaper 100\n", KIJOLVAR_WAITS, "ok\n");
    replies(&self, &each[0]);
    order(&self, "r1 cutPaper 100");
    replies(&self, &each[0]);
    not_done(&self, "input r1 cover open\n", KIJOLVAR_OK, "ok\nerr 114 201\n");
    kijolvar_close(self.till);
}

static void refuses_replies(void) {
    static const char *const none[] = {"p1", "s1", "t1", "r2", ""};
    static const char text[] = "input r1 cover open\nstatus pin low offline yes cover open paper good fault no\n";
    static const sent cover = {"r1", 0, "38000000", 4, 0, text}, begun = {"r1", 0, "3800", 0, 0, ""};
    static const sent drawer = {"d1", 6, "01", 1, 0, "input d1 open\nstatus pin high\n"};
    const size_t size = strlen(text);
    hardware other = usual;
    size_t used, skipped;
    shop self;
    opens(&self);
    for (size_t place = 0; place < sizeof none / sizeof none[0]; place++)
        no_reply(&self, &(sent){none[place], 0, "38000000", 0, 0, ""}, &usual, KIJOLVAR_NO_DEVICE);
    other.width = 7;
    no_reply(&self, &cover, &other, KIJOLVAR_BAD_SETTINGS);
    no_reply(&self, &begun, &other, KIJOLVAR_BAD_SETTINGS);
    replies(&self, &drawer);
    other.pin = 4;
    no_reply(&self, &drawer, &other, KIJOLVAR_BAD_SETTINGS);
    for (size_t room = 0; room < size; room++) {
        wants("too short", reads(&self, &cover, &usual, room, &used, &skipped) == KIJOLVAR_SHORT);
        wants("its length", self.needed == size);
        wants("nothing used", used == 7777 && skipped == 7777 && self.text[0] == '\0');
    }
    wants("just long enough", reads(&self, &cover, &usual, size, &used, &skipped) == KIJOLVAR_OK && used == 4);
    other = usual;
    other.open_is_high = 0;
    wants("low", reads(&self, &drawer, &other, sizeof self.text, &used, &skipped) == KIJOLVAR_OK);
    wants("a pin that is high while the drawer is closed", memcmp(self.text, "status pin high\n", self.needed) == 0);
    lines(&self, "close r\ndetach r1\n", KIJOLVAR_OK, "ok\nok\n");
    no_reply(&self, &cover, &usual, KIJOLVAR_NO_DEVICE);
    kijolvar_close(self.till);
}

/* A call whose nth allocation is refused, and each later one, writes nothing and says so. Returns whether memory ran
   out. The same call again, with enough memory, ends as if there had been enough. */
static bool runs_out(shop *self, long n, bool is_reply) {
    static const sent cover = {"r1", 0, "38000000", 4, 0,
                               "input r1 cover open\nstatus pin low offline yes cover open paper good fault no\n"};
    bool ran_out;
    size_t used, skipped;
    may_come = n;
    const uint32_t code = is_reply ? reads(self, &cover, &usual, sizeof self->text, &used, &skipped)
                                   : asks_bytes(self, &usual, 1, JOB_5, sizeof self->text);
    may_come = 1L << 40;
    ran_out = code == KIJOLVAR_NO_MEMORY;
    wants("a code", ran_out || code == KIJOLVAR_OK);
    if (ran_out) wants("nothing written", self->needed == 7777 && self->text[0] == '\0');
    if (is_reply)
        replies(self, &cover);
    else
        bytes(self, &usual, 1, JOB_5, "1b40 1d61ff 1b6100 4142 0a 1d564103 1d284806003030 40404045");
    return ran_out;
}

static void finds_no_memory(void) {
    shop self;
    long n;
    opens(&self);
    lines(&self, "call r printNormal 2 41420a1b7c50\n", KIJOLVAR_WAITS, "");
    for (int is_reply = 0; is_reply < 2; is_reply++) {
        for (n = 0; runs_out(&self, n, is_reply != 0); n++) wants("an end", n < 1000);
        wants("an allocation", n > 0);
    }
    order(&self, "r1 print 41420a1b7c50");
    done(&self, "", KIJOLVAR_OK, "ok\n");
    kijolvar_close(self.till);
}

int main(void) {
    prints();
    opens_drawer();
    shows();
    refuses_bytes();
    reads_replies();
    refuses_replies();
    finds_no_memory();
    printf("as they should be\n");
    return 0;
}
