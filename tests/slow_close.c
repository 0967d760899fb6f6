/* Waits a tenth of a second after each end of a pipe that a program closes, so that what is closed first can be seen first. Preloaded by
 * tests/test_memory.py. The programs that are started from it aren't touched. */
#define _GNU_SOURCE
#include <stdlib.h>
#include <sys/stat.h>
#include <sys/syscall.h>
#include <time.h>
#include <unistd.h>

__attribute__((constructor)) static void begin(void) { unsetenv("LD_PRELOAD"); }

int close(int file)
{
    struct stat what;
    int is_pipe = fstat(file, &what) == 0 && S_ISFIFO(what.st_mode);
    int result = (int)syscall(SYS_close, file);
    struct timespec tenth = {0, 100000000};
    if (is_pipe)
        nanosleep(&tenth, NULL);
    return result;
}
