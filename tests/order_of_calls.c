/* Notes in the file that ORDER names, a line each and in their order: the bytes that a program writes to files, what it puts on the disk,
 * the names that it gives, the folders that it makes, and what it says on its standard output. Preloaded by tests/test_syncs.py. The
 * programs that are started from it aren't touched. */
#define _GNU_SOURCE
#include <fcntl.h>
#include <stdio.h>
#include <stdlib.h>
#include <string.h>
#include <sys/stat.h>
#include <sys/syscall.h>
#include <unistd.h>

static int order = -1;
static char here[4096];

__attribute__((constructor)) static void begin(void)
{
    const char *name = getenv("ORDER");
    if (name)
        order = (int)syscall(SYS_open, name, O_CREAT | O_WRONLY | O_APPEND, 0600);
    unsetenv("LD_PRELOAD");
    if (!getcwd(here, sizeof here))
        here[0] = 0;
}

/* One line, in one write. */
static void note(const char *what, const char *one, const char *other, int length)
{
    char line[9000];
    if (order < 0)
        return;
    while (length > 0 && length <= (int)strnlen(one, (size_t)length) && one[length - 1] == '\n')
        length--;
    int size = snprintf(line, sizeof line, "%s\t%.*s\t%s\n", what, length, one, other);
    syscall(SYS_write, order, line, (size_t)size);
}

/* The whole path of a name. */
static const char *whole(const char *name, char *room)
{
    if (name[0] == '/')
        return name;
    snprintf(room, 8192, "%s/%s", here, name);
    return room;
}

static void note_file(const char *what, int file)
{
    char link[64], name[4096];
    struct stat kind;
    if (fstat(file, &kind) != 0 || S_ISFIFO(kind.st_mode) || S_ISSOCK(kind.st_mode) || S_ISCHR(kind.st_mode))
        return;
    snprintf(link, sizeof link, "/proc/self/fd/%d", file);
    ssize_t size = readlink(link, name, sizeof name - 1);
    if (size < 0)
        return;
    name[size] = 0;
    note(what, name, "", 4095);
}

ssize_t write(int file, const void *bytes, size_t size)
{
    if (file == 1 && !(size == 1 && *(const char *)bytes == '\n'))
        note("say", bytes, "", size < 4000 ? (int)size : 4000);
    else
        note_file("write", file);
    return syscall(SYS_write, file, bytes, size);
}

int fsync(int file)
{
    int done = (int)syscall(SYS_fsync, file);
    note_file("sync", file);
    return done;
}

int fdatasync(int file)
{
    int done = (int)syscall(SYS_fdatasync, file);
    note_file("sync", file);
    return done;
}

int rename(const char *from, const char *to)
{
    char one[8200], other[8200];
    int done = (int)syscall(SYS_rename, from, to);
    if (done == 0)
        note("rename", whole(from, one), whole(to, other), 8190);
    return done;
}

int mkdir(const char *name, mode_t mode)
{
    char one[8200];
    int done = (int)syscall(SYS_mkdir, name, mode);
    if (done == 0)
        note("mkdir", whole(name, one), "", 8190);
    return done;
}
