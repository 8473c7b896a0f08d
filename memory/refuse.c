/* Preloaded into a program, it refuses the allocation whose number stands in REFUSE, counted from 1, and says so on
   standard error. */
#define _GNU_SOURCE
#include <dlfcn.h>
#include <errno.h>
#include <stdatomic.h>
#include <stdlib.h>
#include <unistd.h>

static atomic_long count;
static long refused = -1;

static int is_refused(void)
{
    if (refused < 0) {
        const char *number = getenv("REFUSE");
        refused = number ? atol(number) : 0;
    }
    if (atomic_fetch_add(&count, 1) + 1 != refused)
        return 0;
    if (write(2, "allocation refused\n", 19) < 0)
        _exit(1);
    errno = ENOMEM;
    return 1;
}

#define NEXT(name) (next ? next : (next = dlsym(RTLD_NEXT, name)))

void *malloc(size_t size)
{
    static void *(*next)(size_t);
    return is_refused() ? NULL : NEXT("malloc")(size);
}

void *realloc(void *old, size_t size)
{
    static void *(*next)(void *, size_t);
    return is_refused() ? NULL : NEXT("realloc")(old, size);
}

void *aligned_alloc(size_t alignment, size_t size)
{
    static void *(*next)(size_t, size_t);
    return is_refused() ? NULL : NEXT("aligned_alloc")(alignment, size);
}

int posix_memalign(void **to, size_t alignment, size_t size)
{
    static int (*next)(void **, size_t, size_t);
    return is_refused() ? ENOMEM : NEXT("posix_memalign")(to, alignment, size);
}
