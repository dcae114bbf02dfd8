/* A heap that refuses memory from some allocation on, or for a while. What is linked with it has
   -Wl,--wrap=malloc,--wrap=calloc,--wrap=realloc. With HEAP_OF_LIBRARY it is the library's alone, and what is linked
   with it has -Wl,--wrap=rattle_alloc,--wrap=rattle_realloc. */
#include <stdbool.h>
#include <stddef.h>

static long left = -1, refused = -1;

void heap_refuses(long number);
void heap_refuses_some(long number, long count);

/* Refuses so many allocations from that of this number on, counted from now on; all if the count is less than 0. */
void heap_refuses_some(long number, long count) {
    left = number > 0 ? number : -1;
    refused = count;
}

/* Refuses the allocation of this number, counted from now on, and all behind it. It gives all if the number is 0 or
   less. */
void heap_refuses(long number) { heap_refuses_some(number, -1); }

static bool comes(void) {
    if (left > 0) left--;
    if (left != 0) return true;
    if (refused == 0) left = -1;
    else if (refused > 0) refused--;
    return left != 0;
}

#ifdef HEAP_OF_LIBRARY

struct tried {
    bool ok;
    void *at;
};

struct tried __real_rattle_alloc(size_t size, size_t align);
struct tried __real_rattle_realloc(void *at, size_t kept, size_t size, size_t align);
struct tried __wrap_rattle_alloc(size_t size, size_t align);
struct tried __wrap_rattle_realloc(void *at, size_t kept, size_t size, size_t align);

static struct tried nothing(void) { return (struct tried){false, &left}; }

struct tried __wrap_rattle_alloc(size_t size, size_t align) {
    return comes() ? __real_rattle_alloc(size, align) : nothing();
}

struct tried __wrap_rattle_realloc(void *at, size_t kept, size_t size, size_t align) {
    return comes() ? __real_rattle_realloc(at, kept, size, align) : nothing();
}

#else

void *__real_malloc(size_t size);
void *__real_calloc(size_t count, size_t size);
void *__real_realloc(void *at, size_t size);
void *__wrap_malloc(size_t size);
void *__wrap_calloc(size_t count, size_t size);
void *__wrap_realloc(void *at, size_t size);

void *__wrap_malloc(size_t size) { return comes() ? __real_malloc(size) : NULL; }

void *__wrap_calloc(size_t count, size_t size) { return comes() ? __real_calloc(count, size) : NULL; }

void *__wrap_realloc(void *at, size_t size) { return comes() ? __real_realloc(at, size) : NULL; }

#endif
