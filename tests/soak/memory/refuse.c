/* It is loaded into a program (LD_PRELOAD), and refuses requests of the program. It refuses the requests with the numbers in
   REFUSE_AT, from 1 on, as "7", "7,8,12", or "7-" for all from there on. A request is a call for memory, for the start of a
   thread, or for the attributes that it is started with. The counts are in the file that REFUSE_TELL names. The file exists
   before and has room for them, so they can be read however the program ended. */
#define _GNU_SOURCE
#include <dlfcn.h>
#include <errno.h>
#include <fcntl.h>
#include <pthread.h>
#include <stdatomic.h>
#include <stddef.h>
#include <stdlib.h>
#include <sys/mman.h>
#include <unistd.h>

void *__libc_malloc(size_t size);
void *__libc_calloc(size_t many, size_t size);
void *__libc_realloc(void *at, size_t size);
void *__libc_memalign(size_t alignment, size_t size);
void __libc_free(void *at);

/* As many numbers as refused.py reads, in its order. */
struct told {
    _Atomic long requests; /* how many there were */
    _Atomic long refused;  /* how many were refused */
    _Atomic long starts;   /* how many of these were for a thread */
    _Atomic long beside;   /* how many came from another thread than the first */
    _Atomic long held;     /* how many pieces of memory were taken and not given back */
    _Atomic long started;  /* how many threads were started */
    _Atomic long joined;   /* and how many of them were joined */
};

enum { MOST = 8 };

static struct told *told;
static long refuse_at[MOST]; /* 0 from the first that isn't asked for on */
static long refuse_from;     /* all from this one on, or 0 */

static int (*real_attributes)(pthread_attr_t *);
static int (*real_guard)(pthread_attr_t *, size_t);
static int (*real_create)(pthread_t *, const pthread_attr_t *, void *(*)(void *), void *);
static int (*real_join)(pthread_t, void **);

/* Reads which requests are refused. */
static void read_numbers(const char *at) {
    for (int count = 0; *at && count < MOST; count++) {
        char *end;
        refuse_at[count] = strtol(at, &end, 10);
        if (*end == '-')
            refuse_from = refuse_at[count];
        at = *end ? end + 1 : end;
    }
}

__attribute__((constructor)) static void begin(void) {
    const char *at = getenv("REFUSE_AT"), *path = getenv("REFUSE_TELL");
    int file = path ? open(path, O_RDWR) : -1;
    if (!at || file < 0)
        _exit(70);
    read_numbers(at);
    real_attributes = dlsym(RTLD_NEXT, "pthread_attr_init");
    real_guard = dlsym(RTLD_NEXT, "pthread_attr_setguardsize");
    real_create = dlsym(RTLD_NEXT, "pthread_create");
    real_join = dlsym(RTLD_NEXT, "pthread_join");
    void *room = mmap(NULL, sizeof *told, PROT_READ | PROT_WRITE, MAP_SHARED, file, 0);
    close(file);
    if (room == MAP_FAILED)
        _exit(70);
    told = room;
}

static int is_asked_for(long number) {
    for (int i = 0; i < MOST && refuse_at[i]; i++)
        if (refuse_at[i] == number)
            return 1;
    return refuse_from && refuse_from <= number;
}

static int is_refused(int is_for_thread) {
    if (!told || !is_asked_for(atomic_fetch_add(&told->requests, 1) + 1))
        return 0;
    atomic_fetch_add(&told->refused, 1);
    atomic_fetch_add(&told->starts, is_for_thread);
    atomic_fetch_add(&told->beside, gettid() != getpid());
    return 1;
}

static void *held(void *at) {
    if (told && at)
        atomic_fetch_add(&told->held, 1);
    return at;
}

static void *refused(void) {
    errno = ENOMEM;
    return NULL;
}

void *malloc(size_t size) {
    return is_refused(0) ? refused() : held(__libc_malloc(size));
}

void *calloc(size_t many, size_t size) {
    return is_refused(0) ? refused() : held(__libc_calloc(many, size));
}

void *realloc(void *at, size_t size) {
    if (is_refused(0))
        return refused();
    return at ? __libc_realloc(at, size) : held(__libc_realloc(at, size));
}

void *memalign(size_t alignment, size_t size) {
    return is_refused(0) ? refused() : held(__libc_memalign(alignment, size));
}

void *aligned_alloc(size_t alignment, size_t size) {
    return memalign(alignment, size);
}

int posix_memalign(void **at, size_t alignment, size_t size) {
    *at = memalign(alignment, size);
    return *at ? 0 : ENOMEM;
}

void free(void *at) {
    if (told && at)
        atomic_fetch_sub(&told->held, 1);
    __libc_free(at);
}

int pthread_attr_init(pthread_attr_t *how) {
    return is_refused(1) ? ENOMEM : real_attributes(how);
}

int pthread_attr_setguardsize(pthread_attr_t *how, size_t size) {
    return is_refused(1) ? EINVAL : real_guard(how, size);
}

int pthread_create(pthread_t *thread, const pthread_attr_t *how, void *(*run)(void *), void *with) {
    if (is_refused(1))
        return EAGAIN;
    int status = real_create(thread, how, run, with);
    if (told && status == 0)
        atomic_fetch_add(&told->started, 1);
    return status;
}

int pthread_join(pthread_t thread, void **result) {
    if (told)
        atomic_fetch_add(&told->joined, 1);
    return real_join(thread, result);
}
