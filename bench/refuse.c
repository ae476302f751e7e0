/* A malloc before that of the C library, for bench/refuse: it answers null at its call REFUSE_AT, counted from 1 and with
   realloc together, and where REFUSE_ALL is set at each later call too. At the first refusal it writes a byte to the file
   descriptor REFUSE_TELLS. */
#include <errno.h>
#include <stdatomic.h>
#include <stdlib.h>
#include <unistd.h>

extern void *__libc_malloc(size_t);
extern void *__libc_realloc(void *, size_t);

static atomic_long calls;

static int refused(void) {
    static long at, all, tells;
    long call = atomic_fetch_add(&calls, 1) + 1;
    if (call == 1) {
        const char *told = getenv("REFUSE_AT");
        all = getenv("REFUSE_ALL") != NULL;
        tells = getenv("REFUSE_TELLS") ? atol(getenv("REFUSE_TELLS")) : -1;
        at = told ? atol(told) : 0;
    }
    if (at == 0 || call < at || (call > at && !all))
        return 0;
    if (call == at && write((int)tells, "r", 1) != 1)
        _exit(99);
    errno = ENOMEM;
    return 1;
}

void *malloc(size_t size) {
    return refused() ? NULL : __libc_malloc(size);
}

void *realloc(void *old, size_t size) {
    return refused() ? NULL : __libc_realloc(old, size);
}
