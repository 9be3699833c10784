/* Allocations that are refused. A program that includes this is linked with --wrap of malloc, realloc and free. */
#ifndef REFUSING_H
#define REFUSING_H

#include <stdbool.h>
#include <stddef.h>

static long left = -1; /* how many are granted before one is refused; below 0, all */
static long live = 0;

void *__real_malloc(size_t n);
void *__real_realloc(void *p, size_t n);
void __real_free(void *p);

static bool is_refused(void) {
    return left >= 0 && left-- == 0;
}

void *__wrap_malloc(size_t n) {
    void *p = is_refused() ? NULL : __real_malloc(n);
    live += p != NULL;
    return p;
}

void *__wrap_realloc(void *p, size_t n) {
    if (is_refused()) return NULL;
    void *q = __real_realloc(p, n);
    live += p == NULL && q != NULL;
    return q;
}

void __wrap_free(void *p) {
    live -= p != NULL;
    __real_free(p);
}

#endif
