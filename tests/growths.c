/* Refuses one growth of memory to a program: the one whose number, from 1, REFUSED_GROWTH says. It is loaded before the C
 * library (LD_PRELOAD), and writes a byte to the descriptor REFUSAL_TO when it refuses. tests/growths.py builds it. */
#include <stddef.h>
#include <stdlib.h>
#include <unistd.h>

extern void *__libc_malloc(size_t);
extern void *__libc_calloc(size_t, size_t);
extern void *__libc_realloc(void *, size_t);
extern void *__libc_memalign(size_t, size_t);

static long seen, wanted = -1;

static int is_refused(void) {
    if (wanted < 0) wanted = getenv("REFUSED_GROWTH") ? atol(getenv("REFUSED_GROWTH")) : 0;
    return ++seen == wanted && write(atoi(getenv("REFUSAL_TO")), "!", 1) == 1;
}

void *malloc(size_t size) { return is_refused() ? NULL : __libc_malloc(size); }

void *calloc(size_t count, size_t size) { return is_refused() ? NULL : __libc_calloc(count, size); }

void *realloc(void *old, size_t size) {
    return size && is_refused() ? NULL : __libc_realloc(old, size);
}

void *aligned_alloc(size_t to, size_t size) { return is_refused() ? NULL : __libc_memalign(to, size); }

int posix_memalign(void **made, size_t to, size_t size) {
    void *here = is_refused() ? NULL : __libc_memalign(to, size);
    if (here) *made = here;
    return here ? 0 : 12;
}
