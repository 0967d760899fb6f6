/* Refuses one allocation of a program: the one of the number in REFUSE_AT, from 1. Preloaded by tools/fail-allocs and
 * tests/test_memory.py. Where it refuses one it makes the file that REFUSED names, and where the program tries to start a thread the one
 * that THREADED names. The programs that are started from it aren't touched. */
#define _GNU_SOURCE
#include <dlfcn.h>
#include <errno.h>
#include <fcntl.h>
#include <pthread.h>
#include <stdatomic.h>
#include <stddef.h>
#include <stdlib.h>
#include <unistd.h>

static atomic_long calls;
static long at;
static const char *mark, *threaded;
static int (*real_create)(pthread_t *, const pthread_attr_t *, void *(*)(void *), void *);
static int (*real_memalign)(void **, size_t, size_t);
static void *(*real_aligned)(size_t, size_t);

extern void *__libc_malloc(size_t);
extern void *__libc_calloc(size_t, size_t);
extern void *__libc_realloc(void *, size_t);

__attribute__((constructor)) static void begin(void)
{
    const char *number = getenv("REFUSE_AT");
    mark = getenv("REFUSED");
    threaded = getenv("THREADED");
    real_create = dlsym(RTLD_NEXT, "pthread_create");
    real_memalign = dlsym(RTLD_NEXT, "posix_memalign");
    real_aligned = dlsym(RTLD_NEXT, "aligned_alloc");
    unsetenv("LD_PRELOAD");
    at = number ? atol(number) : 0;
}

static void make(const char *name)
{
    int file = name ? open(name, O_CREAT | O_WRONLY, 0600) : -1;
    if (file >= 0)
        close(file);
}

static int is_refused(void)
{
    if (at == 0 || atomic_fetch_add(&calls, 1) + 1 != at)
        return 0;
    make(mark);
    errno = ENOMEM;
    return 1;
}

int pthread_create(pthread_t *thread, const pthread_attr_t *how, void *(*body)(void *), void *of)
{
    make(threaded);
    return real_create(thread, how, body, of);
}

void *malloc(size_t size) { return is_refused() ? NULL : __libc_malloc(size); }
void *calloc(size_t count, size_t size) { return is_refused() ? NULL : __libc_calloc(count, size); }
void *realloc(void *old, size_t size) { return is_refused() ? NULL : __libc_realloc(old, size); }
void *aligned_alloc(size_t align, size_t size) { return is_refused() ? NULL : real_aligned(align, size); }
int posix_memalign(void **out, size_t align, size_t size) { return is_refused() ? ENOMEM : real_memalign(out, align, size); }
