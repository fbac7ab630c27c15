/* Kills the host of scripts in Lua at a flush of its file. It is linked with --wrap=fflush, and replaces the C library's. KILL_AT is
   the number of the flush, from 1 on. With KILL_CUTS the file loses so many of its last bytes before, as after a write that wasn't
   whole. Without KILL_AT nothing is killed, and the number of flushes goes to standard error if KILL_COUNTS is set. */
#define _POSIX_C_SOURCE 200809L
#include <signal.h>
#include <stdio.h>
#include <stdlib.h>
#include <unistd.h>

int __real_fflush(FILE *file);
int __wrap_fflush(FILE *file);

static long number_in(const char *name) {
    const char *text = getenv(name);
    return text == NULL ? 0 : atol(text);
}

static long flushes;

static void tell(void) {
    fprintf(stderr, "%ld\n", flushes);
}

int __wrap_fflush(FILE *file) {
    const int status = __real_fflush(file);
    if (file == stdout)
        return status;
    if (flushes++ == 0 && getenv("KILL_COUNTS") != NULL)
        atexit(tell);
    if (flushes == number_in("KILL_AT")) {
        const long size = ftell(file) - number_in("KILL_CUTS");
        __real_fflush(stdout);
        if (ftruncate(fileno(file), size) == 0)
            raise(SIGKILL);
    }
    return status;
}
