/* Fails calls of a program by their number, from 1: the read of a pipe of the number in FAIL_READ, the write to a pipe of the number in
 * FAIL_WRITE, the call on a file of the number in FAIL_FILE, and each start of a thread after the first MOST_THREADS. A call that fails on
 * a file makes the file that FAILED names. The program's own input and output don't count. Preloaded by tests/test_refused.py. The
 * programs that are started from it aren't touched. */
#define _GNU_SOURCE
#include <dlfcn.h>
#include <errno.h>
#include <fcntl.h>
#include <pthread.h>
#include <stdarg.h>
#include <stdatomic.h>
#include <stdlib.h>
#include <sys/stat.h>
#include <sys/syscall.h>
#include <unistd.h>

static atomic_long reads, writes, files, threads;
static long bad_read, bad_write, bad_file, most_threads;
static const char *mark;
static int (*real_create)(pthread_t *, const pthread_attr_t *, void *(*)(void *), void *);

static long number(const char *name, long otherwise)
{
    const char *text = getenv(name);
    return text ? atol(text) : otherwise;
}

__attribute__((constructor)) static void begin(void)
{
    bad_read = number("FAIL_READ", 0);
    bad_write = number("FAIL_WRITE", 0);
    bad_file = number("FAIL_FILE", 0);
    most_threads = number("MOST_THREADS", -1);
    mark = getenv("FAILED");
    real_create = dlsym(RTLD_NEXT, "pthread_create");
    unsetenv("LD_PRELOAD");
}

static int fails(atomic_long *calls, long bad)
{
    if (bad == 0 || atomic_fetch_add(calls, 1) + 1 != bad)
        return 0;
    errno = EIO;
    return 1;
}

static int file_fails(void)
{
    if (!fails(&files, bad_file))
        return 0;
    if (mark)
        syscall(SYS_close, (int)syscall(SYS_open, mark, O_CREAT | O_WRONLY, 0600));
    errno = EIO;
    return 1;
}

/* Whether a read or a write of it fails: of a pipe by the one number, of a file by the other. */
static int transfer_fails(int file, atomic_long *calls, long bad)
{
    struct stat what;
    if (file <= 2 || fstat(file, &what) != 0)
        return 0;
    return S_ISFIFO(what.st_mode) ? fails(calls, bad) : S_ISREG(what.st_mode) && file_fails();
}

ssize_t read(int file, void *bytes, size_t size)
{
    return transfer_fails(file, &reads, bad_read) ? -1 : syscall(SYS_read, file, bytes, size);
}

ssize_t write(int file, const void *bytes, size_t size)
{
    return transfer_fails(file, &writes, bad_write) ? -1 : syscall(SYS_write, file, bytes, size);
}

int open(const char *name, int flags, ...)
{
    va_list rest;
    va_start(rest, flags);
    int mode = va_arg(rest, int);
    va_end(rest);
    return file_fails() ? -1 : (int)syscall(SYS_open, name, flags, mode);
}

int statx(int at, const char *name, int flags, unsigned mask, struct statx *out)
{
    return file_fails() ? -1 : (int)syscall(SYS_statx, at, name, flags, mask, out);
}

int rename(const char *from, const char *to) { return file_fails() ? -1 : (int)syscall(SYS_rename, from, to); }
int unlink(const char *name) { return file_fails() ? -1 : (int)syscall(SYS_unlink, name); }
int mkdir(const char *name, mode_t mode) { return file_fails() ? -1 : (int)syscall(SYS_mkdir, name, mode); }
int fsync(int file) { return file_fails() ? -1 : (int)syscall(SYS_fsync, file); }
int fdatasync(int file) { return file_fails() ? -1 : (int)syscall(SYS_fdatasync, file); }
int ftruncate(int file, off_t size) { return file_fails() ? -1 : (int)syscall(SYS_ftruncate, file, size); }

int pthread_create(pthread_t *thread, const pthread_attr_t *how, void *(*body)(void *), void *of)
{
    if (most_threads >= 0 && atomic_fetch_add(&threads, 1) >= most_threads)
        return EAGAIN;
    return real_create(thread, how, body, of);
}
