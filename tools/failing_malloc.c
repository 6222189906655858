/* Preloaded by wanting_memory.py: the N-th call of malloc and realloc that asks for memory fails, N from FAIL_AT. */
#define _GNU_SOURCE
#include <dlfcn.h>
#include <stdlib.h>

static unsigned long calls;
static unsigned long fail_at;

static int fails(void)
{
    if (fail_at == 0) { /* not read yet; 0 in FAIL_AT stands for none */
        const char *text = getenv("FAIL_AT");
        fail_at = text ? strtoul(text, NULL, 10) : 0;
        if (fail_at == 0)
            fail_at = -1UL;
    }
    return ++calls == fail_at;
}

void *malloc(size_t size)
{
    static void *(*next)(size_t);
    if (!next)
        next = (void *(*)(size_t))dlsym(RTLD_NEXT, "malloc");
    return fails() ? NULL : next(size);
}

void *realloc(void *old, size_t size)
{
    static void *(*next)(void *, size_t);
    if (!next)
        next = (void *(*)(void *, size_t))dlsym(RTLD_NEXT, "realloc");
    return fails() ? NULL : next(old, size);
}
