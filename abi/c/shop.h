/* What the tests of driven devices share: a heap whose nth allocation is refused, a till, and what its calls answer. */
#ifndef SHOP_H
#define SHOP_H

#include "kijolvar.h"
#include <stdbool.h>
#include <stdio.h>
#include <stdlib.h>
#include <string.h>

struct tried {
    bool ok;
    void *at;
};

static char nothing;
static long may_come = 1L << 40;

static inline struct tried tell(void *at) { return (struct tried){at != NULL, at != NULL ? at : &nothing}; }

static inline bool comes(void) { return may_come-- > 0; }

struct tried rattle_alloc(size_t size, size_t align) {
    return tell(comes() ? malloc(size != 0 ? size : align) : NULL);
}

struct tried rattle_realloc(void *at, size_t kept, size_t size, size_t align) {
    (void)kept;
    return tell(comes() ? realloc(at, size != 0 ? size : align) : NULL);
}

void rattle_dealloc(void *at) { free(at); }

/* A till, what its last call wrote, and how much that is. */
typedef struct shop {
    kijolvar_till till;
    char text[4096];
    size_t needed;
} shop;

static inline void wants(const char *what, bool holds) {
    if (!holds) exit(printf("failed: %s\n", what));
}

/* Whether a call had this code, and wrote this text; it wrote nothing if that is null. */
static inline void ends(shop *self, const char *what, uint32_t code, uint32_t wanted, const char *text) {
    if (code != wanted) printf("%s: code %u and not %u\n", what, (unsigned)code, (unsigned)wanted);
    wants(what, code == wanted);
    const size_t size = text != NULL ? strlen(text) : 0;
    if (text != NULL && (self->needed != size || memcmp(self->text, text, size) != 0))
        printf("%s: %.*s and not %s\n", what, (int)self->needed, self->text, text);
    wants(what, text == NULL ? self->needed == 7777 : self->needed == size && memcmp(self->text, text, size) == 0);
}

static inline void begins(shop *self) {
    self->needed = 7777;
    memset(self->text, 0, sizeof self->text);
}

static inline void lines(shop *self, const char *given, uint32_t wanted, const char *text) {
    begins(self);
    ends(self, given, kijolvar_carry_out(self->till, &self->till.at, (const uint8_t *)given, strlen(given),
                                         (uint8_t *)self->text, sizeof self->text, &self->needed), wanted, text);
}

static inline uint32_t report(shop *self, uint32_t outcome, const char *inputs) {
    begins(self);
    return kijolvar_order_done(self->till, &self->till.at, outcome, (const uint8_t *)inputs, strlen(inputs),
                               (uint8_t *)self->text, sizeof self->text, &self->needed);
}

static inline void done(shop *self, const char *inputs, uint32_t wanted, const char *text) {
    ends(self, "a report that it is done", report(self, 0, inputs), wanted, text);
}

static inline void not_done(shop *self, const char *inputs, uint32_t wanted, const char *text) {
    ends(self, "a report that it is not done", report(self, 1, inputs), wanted, text);
}

/* The next order is this one; there is none if it is empty. */
static inline void order(shop *self, const char *line) {
    begins(self);
    const uint32_t code = kijolvar_next_order(self->till, &self->till.at, (uint8_t *)self->text, sizeof self->text,
                                              &self->needed);
    ends(self, "the next order", code, *line != '\0' ? KIJOLVAR_ORDER : KIJOLVAR_OK, line);
}

static inline void answer(shop *self, uint32_t wanted, const char *text) {
    begins(self);
    ends(self, "the answer", kijolvar_answer(self->till, &self->till.at, (uint8_t *)self->text, sizeof self->text,
                                             &self->needed), wanted, text);
}

static inline void drives(shop *self, const char *name, uint32_t wanted) {
    wants(name, kijolvar_drive(self->till, &self->till.at, (const uint8_t *)name, strlen(name)) == wanted);
}

/* A new till with a drawer and a printer that are driven. */
static inline void opens(shop *self) {
    *self = (shop){{NULL}, "", 0};
    wants("a till", kijolvar_open(NULL, 0, &self->till.at) == KIJOLVAR_OK);
    lines(self, "new d CashDrawer\nopen d d1\nset d DeviceEnabled true\nnew r POSPrinter\nopen r r1\nclaim r 0\n"
                "set r DeviceEnabled true\ninput r1 paper 100\n",
          KIJOLVAR_OK, "ok\nok\nok\nok\nok\nok\nok\nok\n");
    drives(self, "d1", KIJOLVAR_OK);
    drives(self, "r1", KIJOLVAR_OK);
    drives(self, "r1", KIJOLVAR_OK);
}

#endif
