/* Driven devices: a drawer and a printer whose lines are answered only after the host has reported what became of their
   order. Each order is given once; what is done is answered ok, what isn't as the inputs say or as a failed line. Where
   memory runs out at any place of a report, it is kept, and the same call again ends as if there had been enough. */
#include "shop.h"

static void refuses(void) {
    static const char *const none[] = {"d", "d11", "t1", "", "r2"};
    static const char profile[] = "[[device]]\nname = \"d1\"\ncategory = \"CashDrawer\"\nflaky = [2, 1]\n"
                                  "[[spare]]\ncategory = \"CashDrawer\"\n"
                                  "[[spare]]\ncategory = \"CashDrawer\"\nflaky = [2, 1]\n";
    shop self;
    opens(&self);
    for (size_t place = 0; place < sizeof none / sizeof none[0]; place++)
        drives(&self, none[place], KIJOLVAR_NO_DEVICE);
    done(&self, "", KIJOLVAR_NO_ORDER, NULL);
    kijolvar_close(self.till);
    wants("a profile", kijolvar_open((const uint8_t *)profile, strlen(profile), &self.till.at) == KIJOLVAR_OK);
    drives(&self, "d1", KIJOLVAR_NO_DEVICE);
    lines(&self, "detach d1\n", KIJOLVAR_OK, "ok\n");
    drives(&self, "d1", KIJOLVAR_NO_DEVICE);
    lines(&self, "attach d1 1\n", KIJOLVAR_OK, "ok\n");
    drives(&self, "d1", KIJOLVAR_OK);
    lines(&self, "detach d1\nattach d1 2\n", KIJOLVAR_OK, "ok\nok\n");
    drives(&self, "d1", KIJOLVAR_NO_DEVICE);
    kijolvar_close(self.till);
}

/* A line waits, and nothing else is carried out. The order comes once, and only after it the report. */
static void waits(void) {
    shop self;
    opens(&self);
    lines(&self, "get d DrawerOpened\ncall d openDrawer\nget d DrawerOpened", KIJOLVAR_WAITS, "ok false\n");
    answer(&self, KIJOLVAR_WAITS, "ok false\n");
    lines(&self, "show d1\n", KIJOLVAR_WAITS, NULL);
    done(&self, "", KIJOLVAR_NO_ORDER, NULL);
    wants("no room", kijolvar_next_order(self.till, &self.till.at, NULL, 0, &self.needed) == KIJOLVAR_SHORT);
    done(&self, "", KIJOLVAR_NO_ORDER, NULL);
    order(&self, "d1 openDrawer");
    order(&self, "");
    lines(&self, "show d1\n", KIJOLVAR_WAITS, NULL);
    done(&self, "", KIJOLVAR_OK, "ok\nok true\n");
    answer(&self, KIJOLVAR_OK, "ok\nok true\n");
    done(&self, "", KIJOLVAR_NO_ORDER, NULL);
    lines(&self, "show d1\n", KIJOLVAR_OK, "ok open\n");
    kijolvar_close(self.till);
}

/* Several orders in one call: each waits in turn. Inputs of one that is done come after its line. */
static void goes_on(void) {
    shop self;
    opens(&self);
    lines(&self,
          "call r printNormal 2 410a\ncall d openDrawer\nget d DrawerOpened\ncall r printNormal 2 420a\nshow r1\n",
          KIJOLVAR_WAITS, "");
    order(&self, "r1 print 410a");
    done(&self, "", KIJOLVAR_WAITS, "ok\n");
    order(&self, "d1 openDrawer");
    done(&self, "input d1 closed\n", KIJOLVAR_WAITS, "ok\nok\nok false\n");
    order(&self, "r1 print 420a");
    done(&self, "", KIJOLVAR_OK, "ok\nok closed 98 -:- l:41:0 l:42:0\n");
    kijolvar_close(self.till);
}

/* What isn't done: with inputs that say why, without, and refused by the till itself, which asks no host. */
static void fails(void) {
    shop self;
    opens(&self);
    lines(&self, "call r printNormal 2 410a\nget r CoverOpen\n", KIJOLVAR_WAITS, "");
    order(&self, "r1 print 410a");
    not_done(&self, "input r1 cover open", KIJOLVAR_OK, "ok\nerr 114 201\nok true\n");
    lines(&self, "call r printNormal 2 410a\ninput r1 cover closed\n", KIJOLVAR_OK, "err 114 201\nok\n");
    order(&self, "");
    lines(&self, "call d openDrawer\n", KIJOLVAR_WAITS, "");
    order(&self, "d1 openDrawer");
    not_done(&self, "", KIJOLVAR_OK, "err 111\n");
    lines(&self, "call d openDrawer\nget d DrawerOpened\n", KIJOLVAR_WAITS, "");
    order(&self, "d1 openDrawer");
    not_done(&self, "input d1 power off\n", KIJOLVAR_OK, "ok\nerr 108\nok false\n");
    lines(&self, "show r1\n", KIJOLVAR_OK, "ok closed 100 -:-\n");
    kijolvar_close(self.till);
}

/* Asynchronous output: a request is done by `work`, and its event is there after the report alone. */
static void works(void) {
    shop self;
    opens(&self);
    lines(&self, "set r AsyncMode true\ncall r printNormal 2 410a\nwork r1\ndeliver r\n", KIJOLVAR_WAITS, "ok\nok\n");
    order(&self, "r1 print 410a");
    done(&self, "", KIJOLVAR_OK, "done 1\nevent OutputCompleteEvent 1\n");
    lines(&self, "call r printNormal 2 420a\nwork r1\ndeliver r retry\nwork r1\ndeliver r\nshow r1\n", KIJOLVAR_WAITS,
          "ok\n");
    order(&self, "r1 print 420a");
    not_done(&self, "", KIJOLVAR_WAITS, "failed 111 0\nevent ErrorEvent 111 0 1\n");
    order(&self, "r1 print 420a");
    done(&self, "", KIJOLVAR_OK, "done 2\nevent OutputCompleteEvent 2\nok closed 98 -:- l:41:0 l:42:0\n");
    kijolvar_close(self.till);
}

static int cuts;

/* A report whose nth allocation is refused, and each later one: it is made again until it is taken, with enough memory
   from then on. After one whose answer was cut the till goes on without its lines. Returns whether memory ran out. */
static bool runs_out(long n, uint32_t outcome, const char *inputs, const char *wanted, const char *shown) {
    shop self;
    char text[64] = "";
    uint32_t code;
    bool ran_out = false;
    opens(&self);
    lines(&self, "call r printNormal 2 41424344454647484950515253545556575859600a\nget r State\n", KIJOLVAR_WAITS, "");
    order(&self, "r1 print 41424344454647484950515253545556575859600a");
    may_come = n;
    while ((code = report(&self, outcome, inputs)) == KIJOLVAR_NO_MEMORY) {
        ran_out = true;
        if (self.needed != 7777) strcat(text, self.text);
        may_come = 1L << 40;
    }
    may_come = 1L << 40;
    if (code == KIJOLVAR_CUT) {
        cuts++;
        order(&self, "");
        done(&self, "", KIJOLVAR_NO_ORDER, NULL);
        lines(&self, "show d1\n", KIJOLVAR_OK, "ok closed\n");
        kijolvar_close(self.till);
        return true;
    }
    wants("a report in want of memory", code == KIJOLVAR_OK);
    strcat(text, self.text);
    if (strstr(text, "memory") == NULL) wants("its answer", strcmp(text, wanted) == 0);
    lines(&self, "show r1\n", KIJOLVAR_OK, shown);
    kijolvar_close(self.till);
    return ran_out;
}

int main(void) {
    long n;
    refuses();
    waits();
    goes_on();
    fails();
    works();
    for (n = 0; runs_out(n, 0, "input d1 closed\n", "ok\nok\nok 2\n",
                         "ok closed 97 -:- l:4142434445464748:00000000 l:4950515253545556:00000000 l:57585960:0000\n");
         n++)
        wants("an end", n < 1000);
    for (n = 0; runs_out(n, 1, "input r1 cover open\n", "ok\nerr 114 201\nok 2\n", "ok open 100 -:-\n"); n++)
        wants("an end", n < 1000);
    wants("a cut answer", cuts > 0);
    printf("as they should be\n");
    return 0;
}
