/* A library for LD_PRELOAD, which records a run. It appends each call that changes a file, or syncs it, to the file
   that RECORD names. A write to standard output is recorded as an answer, before it is made. crashes.py makes
   the files of the record that a crash of the machine may leave.

   A record is a line and then its bytes. The line has a letter, a number, how many bytes follow, and a path:

     A  an answer                       O  a file was opened for writing. The number is 1 if it was emptied
     W  a write at the number           T  the length of a file is the number now
     S  a file or a folder was synced   R  a file got another name. The bytes are the new path
     U  a name was removed              F  a sync failed

   FAIL_SYNC=N has the sync of this number fail with EIO. The first sync has the number 1. */
#define _GNU_SOURCE
#include <dlfcn.h>
#include <errno.h>
#include <fcntl.h>
#include <limits.h>
#include <pthread.h>
#include <stdarg.h>
#include <stdio.h>
#include <stdlib.h>
#include <string.h>
#include <sys/uio.h>
#include <unistd.h>

#define MOST 1024

static int record = -1;
static long failing, syncs;
static char *paths[MOST];
static pthread_mutex_t lock = PTHREAD_MUTEX_INITIALIZER;

#define REAL(name) static __typeof__(&name) real; if (!real) real = (__typeof__(&name))dlsym(RTLD_NEXT, #name)

static ssize_t really_write(int file, const void *bytes, size_t count) {
    REAL(write);
    return real(file, bytes, count);
}

/* Appends one call to the record. */
static void note(char letter, long long number, const void *bytes, size_t count, const char *path) {
    char line[PATH_MAX + 100];
    int length = snprintf(line, sizeof line, "%c %lld %zu %s\n", letter, number, count, path);
    struct iovec parts[2] = {{line, length}, {(void *)bytes, count}};
    static ssize_t (*real)(int, const struct iovec *, int);
    if (!real) real = (ssize_t (*)(int, const struct iovec *, int))dlsym(RTLD_NEXT, "writev");
    if (real(record, parts, count ? 2 : 1) != (ssize_t)(length + count)) abort();
}

__attribute__((constructor)) static void begin(void) {
    const char *name = getenv("RECORD"), *number = getenv("FAIL_SYNC");
    if (!name) return;
    int found = open(name, O_WRONLY | O_CREAT | O_APPEND | O_CLOEXEC, 0644);
    if (found < 0) abort();
    /* A program may look at its lowest descriptors. */
    record = fcntl(found, F_DUPFD_CLOEXEC, 900);
    close(found);
    failing = number ? atol(number) : 0;
}

static int is_noted(int file) { return record >= 0 && file >= 0 && file < MOST && paths[file]; }

/* Remembers the path of a file that was opened. */
static void opened(int file, const char *path, int flags) {
    char whole[PATH_MAX];
    if (record < 0 || file < 3 || file >= MOST || file == record) return;
    free(paths[file]);
    paths[file] = strdup(realpath(path, whole) ? whole : path);
    if (flags & (O_WRONLY | O_RDWR)) note('O', !!(flags & O_TRUNC), NULL, 0, paths[file]);
}

static int open_at(int folder, const char *path, int flags, mode_t mode) {
    static int (*real)(int, const char *, int, ...);
    if (!real) real = (int (*)(int, const char *, int, ...))dlsym(RTLD_NEXT, "openat");
    pthread_mutex_lock(&lock);
    int file = real(folder, path, flags, mode);
    opened(file, path, flags);
    pthread_mutex_unlock(&lock);
    return file;
}

#define MODE(flags) mode_t mode = 0; if ((flags) & (O_CREAT | O_TMPFILE)) { va_list more; va_start(more, flags); mode = va_arg(more, mode_t); va_end(more); }

int open(const char *path, int flags, ...) { MODE(flags) return open_at(AT_FDCWD, path, flags, mode); }
int open64(const char *path, int flags, ...) { MODE(flags) return open_at(AT_FDCWD, path, flags, mode); }
int openat(int folder, const char *path, int flags, ...) { MODE(flags) return open_at(folder, path, flags, mode); }
int openat64(int folder, const char *path, int flags, ...) { MODE(flags) return open_at(folder, path, flags, mode); }

int close(int file) {
    REAL(close);
    pthread_mutex_lock(&lock);
    if (is_noted(file)) { free(paths[file]); paths[file] = NULL; }
    int result = real(file);
    pthread_mutex_unlock(&lock);
    return result;
}

static ssize_t write_at(int file, const void *bytes, size_t count, off_t at) {
    static ssize_t (*real)(int, const void *, size_t, off_t);
    if (!real) real = (ssize_t (*)(int, const void *, size_t, off_t))dlsym(RTLD_NEXT, "pwrite");
    pthread_mutex_lock(&lock);
    ssize_t done = real(file, bytes, count, at);
    if (is_noted(file) && done > 0) note('W', at, bytes, done, paths[file]);
    pthread_mutex_unlock(&lock);
    return done;
}

ssize_t pwrite(int file, const void *bytes, size_t count, off_t at) { return write_at(file, bytes, count, at); }
ssize_t pwrite64(int file, const void *bytes, size_t count, off64_t at) { return write_at(file, bytes, count, at); }

ssize_t write(int file, const void *bytes, size_t count) {
    pthread_mutex_lock(&lock);
    if (record >= 0 && file == STDOUT_FILENO) note('A', 0, bytes, count, "-");
    off_t at = is_noted(file) ? lseek(file, 0, SEEK_CUR) : 0;
    ssize_t done = really_write(file, bytes, count);
    if (is_noted(file) && done > 0) note('W', at, bytes, done, paths[file]);
    pthread_mutex_unlock(&lock);
    return done;
}

static int set_length(int file, off_t length) {
    static int (*real)(int, off_t);
    if (!real) real = (int (*)(int, off_t))dlsym(RTLD_NEXT, "ftruncate");
    pthread_mutex_lock(&lock);
    int result = real(file, length);
    if (is_noted(file) && !result) note('T', length, NULL, 0, paths[file]);
    pthread_mutex_unlock(&lock);
    return result;
}

int ftruncate(int file, off_t length) { return set_length(file, length); }
int ftruncate64(int file, off64_t length) { return set_length(file, length); }

/* Syncs by the call that is given, or fails if it is the sync's turn. */
static int sync_by(int (*real)(int), int file) {
    pthread_mutex_lock(&lock);
    int fails = is_noted(file) && ++syncs == failing;
    int result = fails ? -1 : real(file);
    if (is_noted(file)) note(result ? 'F' : 'S', 0, NULL, 0, paths[file]);
    pthread_mutex_unlock(&lock);
    if (fails) errno = EIO;
    return result;
}

int fsync(int file) { REAL(fsync); return sync_by(real, file); }
int fdatasync(int file) { REAL(fdatasync); return sync_by(real, file); }

/* Gives the descriptors of a file its new path. */
static void renamed(const char *old, const char *new) {
    for (int file = 0; file < MOST; file++)
        if (paths[file] && !strcmp(paths[file], old)) { free(paths[file]); paths[file] = strdup(new); }
}

static int rename_by(const char *old, const char *new) {
    static int (*real)(const char *, const char *);
    if (!real) real = (int (*)(const char *, const char *))dlsym(RTLD_NEXT, "rename");
    char from[PATH_MAX], to[PATH_MAX];
    pthread_mutex_lock(&lock);
    int is_there = record >= 0 && realpath(old, from);
    int result = real(old, new);
    if (is_there && !result && realpath(new, to)) { note('R', 0, to, strlen(to), from); renamed(from, to); }
    pthread_mutex_unlock(&lock);
    return result;
}

int rename(const char *old, const char *new) { return rename_by(old, new); }
int renameat(int one, const char *old, int other, const char *new) { (void)one; (void)other; return rename_by(old, new); }

static int remove_by(const char *path) {
    static int (*real)(const char *);
    if (!real) real = (int (*)(const char *))dlsym(RTLD_NEXT, "unlink");
    char whole[PATH_MAX];
    pthread_mutex_lock(&lock);
    int is_there = record >= 0 && realpath(path, whole);
    int result = real(path);
    if (is_there && !result) note('U', 0, NULL, 0, whole);
    pthread_mutex_unlock(&lock);
    return result;
}

int unlink(const char *path) { return remove_by(path); }
int unlinkat(int folder, const char *path, int flags) { (void)folder; (void)flags; return remove_by(path); }
