/* It is loaded into a program (LD_PRELOAD), and counts the requests of the program to malloc and for threads. It writes
   the counts into the file that HELD_TELL names, as the numbers of struct told. It refuses the request whose number
   HELD_REFUSE has, from 1 on. It has the read of standard input fail whose number HELD_READ has, and the write to standard
   output that HELD_WRITE has. Each piece has a header of its own with the bytes that were asked for, so the counts are the
   same with every C library. A piece that was taken before is given back as it is. */
#define _GNU_SOURCE
#include <dlfcn.h>
#include <errno.h>
#include <fcntl.h>
#include <malloc.h>
#include <pthread.h>
#include <stdatomic.h>
#include <stdint.h>
#include <stdlib.h>
#include <string.h>
#include <sys/mman.h>
#include <unistd.h>

void *__libc_malloc(size_t size);
void *__libc_calloc(size_t many, size_t size);
void *__libc_realloc(void *at, size_t size);
void *__libc_memalign(size_t alignment, size_t size);
void __libc_free(void *at);

/* The header in front of each piece. It is as long as malloc's own alignment. */
struct header {
    uint64_t size;
    uint64_t mark; /* MARK, and how far in front of the piece its room begins */
};

#define MARK 0x68656c6400000000u
enum { HEADER = sizeof(struct header) };

/* As many numbers as the run of these reads, in its order. */
static struct told {
    _Atomic uint64_t requests;    /* how many there were, refused ones too */
    _Atomic uint64_t bytes;       /* how much they asked for in all, but refused ones */
    _Atomic uint64_t greatest;    /* the greatest single request, refused ones too */
    _Atomic uint64_t peak_blocks; /* the most pieces that were held at a time */
    _Atomic uint64_t peak_bytes;  /* and the most bytes */
    _Atomic uint64_t left_blocks; /* what is held when standard input was read to its end */
    _Atomic uint64_t left_bytes;
    _Atomic uint64_t end_blocks; /* what is held still */
    _Atomic uint64_t end_bytes;
    _Atomic uint64_t threads; /* how many were started */
} first, *told = &first;

static uint64_t refuse_at; /* the number of the one that is refused, or 0 */
static uint64_t read_at, write_at; /* of the read and of the write that fail, or 0 */
static _Atomic uint64_t reads, writes;
static ssize_t (*real_read)(int, void *, size_t);
static ssize_t (*real_write)(int, const void *, size_t);
static int (*real_create)(pthread_t *, const pthread_attr_t *, void *(*)(void *), void *);

static void raise_to(_Atomic uint64_t *most, uint64_t value) {
    uint64_t known = atomic_load(most);
    while (known < value && !atomic_compare_exchange_weak(most, &known, value))
        ;
}

static struct header *header_of(void *at) {
    return (struct header *)at - 1;
}

static int is_ours(void *at) {
    return (header_of(at)->mark & 0xffffffff00000000u) == MARK;
}

/* Counts a request, and answers whether it is refused. */
static int is_refused(size_t size) {
    uint64_t number = atomic_fetch_add(&told->requests, 1) + 1;
    raise_to(&told->greatest, size);
    return size > PTRDIFF_MAX || number == refuse_at;
}

/* The piece after its header, that begins so far after the room. */
static void *taken(char *room, size_t front, size_t size) {
    if (!room)
        return NULL;
    void *at = room + front;
    *header_of(at) = (struct header){ size, MARK | front };
    atomic_fetch_add(&told->bytes, size);
    raise_to(&told->peak_blocks, atomic_fetch_add(&told->end_blocks, 1) + 1);
    raise_to(&told->peak_bytes, atomic_fetch_add(&told->end_bytes, size) + size);
    return at;
}

/* Counts the piece as given back. Where its room begins. */
static void *given_back(void *at) {
    struct header *header = header_of(at);
    size_t front = header->mark & 0xffffffffu;
    atomic_fetch_sub(&told->end_blocks, 1);
    atomic_fetch_sub(&told->end_bytes, header->size);
    header->mark = 0;
    return (char *)at - front;
}

static void *refused(void) {
    errno = ENOMEM;
    return NULL;
}

void *malloc(size_t size) {
    return is_refused(size) ? refused() : taken(__libc_malloc(size + HEADER), HEADER, size);
}

/* (a compiler makes calloc of malloc and memset) */
void *calloc(size_t many, size_t size) {
    size_t all;
    if (__builtin_mul_overflow(many, size, &all))
        all = SIZE_MAX;
    return is_refused(all) ? refused() : taken(__libc_calloc(1, all + HEADER), HEADER, all);
}

void *memalign(size_t alignment, size_t size) {
    size_t front = alignment < HEADER ? HEADER : alignment;
    return is_refused(size) ? refused() : taken(__libc_memalign(alignment, size + front), front, size);
}

void *aligned_alloc(size_t alignment, size_t size) {
    return memalign(alignment, size);
}

int posix_memalign(void **at, size_t alignment, size_t size) {
    *at = memalign(alignment, size);
    return *at ? 0 : ENOMEM;
}

void free(void *at) {
    if (at)
        __libc_free(is_ours(at) ? given_back(at) : at);
}

/* Pieces of malloc grow where they are, as they do without this. */
void *realloc(void *at, size_t size) {
    if (!at || !is_ours(at) || (header_of(at)->mark & 0xffffffffu) != HEADER)
        return at ? refused() : malloc(size);
    if (is_refused(size))
        return refused();
    struct header before = *header_of(at);
    char *room = __libc_realloc(given_back(at), size + HEADER);
    if (room)
        return taken(room, HEADER, size);
    /* (the piece stays, so it is counted again) */
    *header_of(at) = before;
    atomic_fetch_add(&told->end_blocks, 1);
    atomic_fetch_add(&told->end_bytes, before.size);
    return NULL;
}

static ssize_t failed(void) {
    errno = EIO;
    return -1;
}

ssize_t write(int file, const void *bytes, size_t size) {
    return file == 1 && ++writes == write_at ? failed() : real_write(file, bytes, size);
}

ssize_t read(int file, void *room, size_t size) {
    if (file == 0 && ++reads == read_at)
        return failed();
    ssize_t got = real_read(file, room, size);
    if (file == 0 && got == 0 && size) {
        told->left_blocks = told->end_blocks;
        told->left_bytes = told->end_bytes;
    }
    return got;
}

int pthread_create(pthread_t *thread, const pthread_attr_t *how, void *(*run)(void *), void *with) {
    int status = real_create(thread, how, run, with);
    if (!status)
        atomic_fetch_add(&told->threads, 1);
    return status;
}

/* The number in this variable, or 0. */
static uint64_t number_in(const char *name) {
    const char *text = getenv(name);
    return text ? strtoull(text, NULL, 10) : 0;
}

/* The program may end without any destructor, so the counts are in the file from the first on. */
__attribute__((constructor)) static void begin(void) {
    const char *path = getenv("HELD_TELL");
    int file = path ? open(path, O_RDWR) : -1;
    void *room = file < 0 ? MAP_FAILED : mmap(NULL, sizeof first, PROT_READ | PROT_WRITE, MAP_SHARED, file, 0);
    if (room == MAP_FAILED)
        _exit(70);
    close(file);
    refuse_at = number_in("HELD_REFUSE");
    read_at = number_in("HELD_READ");
    write_at = number_in("HELD_WRITE");
    real_read = dlsym(RTLD_NEXT, "read");
    real_write = dlsym(RTLD_NEXT, "write");
    real_create = dlsym(RTLD_NEXT, "pthread_create");
    told = memcpy(room, &first, sizeof first);
}
