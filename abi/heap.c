/* The heap of the library: its three functions over malloc. Nothing is proved of it. A failed call answers ok = false
   and a pointer that isn't null. */
#include <stdbool.h>
#include <stddef.h>
#include <stdlib.h>

struct tried {
    bool ok;
    void *at;
};

static char nothing;

static struct tried tell(void *at) { return (struct tried){at != NULL, at != NULL ? at : &nothing}; }

struct tried rattle_alloc(size_t size, size_t align) { return tell(malloc(size != 0 ? size : align)); }

struct tried rattle_realloc(void *at, size_t kept, size_t size, size_t align) {
    (void)kept;
    return tell(realloc(at, size != 0 ? size : align));
}

void rattle_dealloc(void *at) { free(at); }
