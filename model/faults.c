/* A library that stands between a program and the C library (LD_PRELOAD; faults.py). It counts what the program asks for, and gives less:
   it refuses memory and threads, moves a few bytes at a time, lets reads and writes fail, and makes threads wait. What it gives, and what
   it counted, stands in a file that both sides map, named by AXCORE_FAULTS. The fields are those of faults.py, in the same order. */
#define _GNU_SOURCE
#include <dlfcn.h>
#include <errno.h>
#include <fcntl.h>
#include <malloc.h>
#include <pthread.h>
#include <stdint.h>
#include <stdlib.h>
#include <sys/mman.h>
#include <sys/syscall.h>
#include <time.h>
#include <unistd.h>

struct faults {
    /* What is given. A number of a call counts from 1, and 0 is none. */
    uint64_t refuse;      /* the first allocation that is refused */
    uint64_t for_good;    /* whether all after it are refused too */
    uint64_t no_thread;   /* whether no thread can be had */
    uint64_t read_fault;  /* the read that fails */
    uint64_t read_most;   /* how many bytes a read moves at most */
    uint64_t write_fault; /* the write that fails */
    uint64_t write_most;  /* how many bytes a write moves at most */
    uint64_t seed;        /* what the waits of threads are drawn from */
    uint64_t every;       /* one call in so many is followed by a wait */
    /* What was counted. */
    uint64_t allocations, refused, reads, writes, threads, waits;
    uint64_t held, most_held; /* bytes that are allocated, and the most that were at once */
};

extern void *__libc_malloc(size_t), *__libc_calloc(size_t, size_t), *__libc_realloc(void *, size_t), *__libc_memalign(size_t, size_t);
extern void __libc_free(void *);
extern ssize_t __read(int, void *, size_t), __write(int, const void *, size_t);

static struct faults *told;
static int (*create)(pthread_t *, const pthread_attr_t *, void *(*)(void *), void *);
static uint64_t sides, steps[64];
static __thread uint64_t drawn, side;

__attribute__((constructor)) static void begin(void) {
    const char *name = getenv("AXCORE_FAULTS");
    int file = name ? open(name, O_RDWR | O_CLOEXEC) : -1;
    create = (int (*)(pthread_t *, const pthread_attr_t *, void *(*)(void *), void *))dlsym(RTLD_NEXT, "pthread_create");
    if (file < 0)
        return;
    void *at = mmap(NULL, sizeof *told, PROT_READ | PROT_WRITE, MAP_SHARED, file, 0);
    close(file);
    told = at == MAP_FAILED ? NULL : at;
}

static uint64_t add(uint64_t *to, uint64_t count) { return __atomic_add_fetch(to, count, __ATOMIC_SEQ_CST); }

static uint64_t look(uint64_t *at) { return __atomic_load_n(at, __ATOMIC_SEQ_CST); }

/* At a call a thread may let others go first, go round for a while, sleep, or hold until another thread has made some calls. */
static void wait_a_little(void) {
    if (!told || !told->seed || !told->every)
        return;
    if (!side) {
        side = add(&sides, 1);
        drawn = told->seed * 0x9e3779b97f4a7c15u + side * 0xbf58476d1ce4e5b9u;
    }
    drawn ^= drawn << 13, drawn ^= drawn >> 7, drawn ^= drawn << 17;
    uint64_t mine = side % 64, kind = drawn >> 8 & 7, length = drawn >> 11 & 255;
    add(&steps[mine], 1);
    if ((drawn >> 20) % told->every)
        return;
    add(&told->waits, 1);
    struct timespec some = {0, (long)length * 500};
    if (kind == 7) {
        syscall(SYS_sched_yield);
    } else if (kind > 3) {
        for (volatile uint64_t round = 0; round < length * 16; round++) {
        }
    } else if (kind > 1) {
        nanosleep(&some, NULL);
    } else {
        uint64_t other = mine == 1 ? 2 : 1, until = look(&steps[other]) + 1 + length % 16;
        for (int round = 0; round < 20 && look(&steps[other]) < until; round++)
            nanosleep(&some, NULL);
    }
}

static int is_refused(void) {
    wait_a_little();
    if (!told)
        return 0;
    uint64_t number = add(&told->allocations, 1), first = told->refuse;
    if (!first || number < first || (number > first && !told->for_good))
        return 0;
    add(&told->refused, 1);
    errno = ENOMEM;
    return 1;
}

static void *had(void *at) {
    if (told && at) {
        uint64_t held = add(&told->held, malloc_usable_size(at)), most = look(&told->most_held);
        while (held > most && !__atomic_compare_exchange_n(&told->most_held, &most, held, 0, __ATOMIC_SEQ_CST, __ATOMIC_SEQ_CST)) {
        }
    }
    return at;
}

static void given_back(size_t size) {
    if (told)
        add(&told->held, -(uint64_t)size);
}

void *malloc(size_t size) { return is_refused() ? NULL : had(__libc_malloc(size)); }

void *calloc(size_t count, size_t size) { return is_refused() ? NULL : had(__libc_calloc(count, size)); }

void *realloc(void *at, size_t size) {
    if (is_refused())
        return NULL;
    size_t before = at ? malloc_usable_size(at) : 0;
    void *now = __libc_realloc(at, size);
    if (now || !size)
        given_back(before);
    return had(now);
}

void *memalign(size_t align, size_t size) { return is_refused() ? NULL : had(__libc_memalign(align, size)); }

void *aligned_alloc(size_t align, size_t size) { return memalign(align, size); }

int posix_memalign(void **to, size_t align, size_t size) {
    void *at = memalign(align, size);
    if (!at)
        return ENOMEM;
    *to = at;
    return 0;
}

void free(void *at) {
    wait_a_little();
    if (at)
        given_back(malloc_usable_size(at));
    __libc_free(at);
}

static size_t least(uint64_t most, size_t size) { return most && size > most ? most : size; }

ssize_t read(int file, void *to, size_t size) {
    if (told && add(&told->reads, 1) == told->read_fault) {
        errno = EIO;
        return -1;
    }
    return __read(file, to, told ? least(told->read_most, size) : size);
}

ssize_t write(int file, const void *from, size_t size) {
    if (told && add(&told->writes, 1) == told->write_fault) {
        errno = EIO;
        return -1;
    }
    return __write(file, from, told ? least(told->write_most, size) : size);
}

int sched_yield(void) {
    wait_a_little();
    return (int)syscall(SYS_sched_yield);
}

int pthread_create(pthread_t *thread, const pthread_attr_t *how, void *(*work)(void *), void *with) {
    if (told && add(&told->threads, 1) && told->no_thread)
        return EAGAIN;
    return create(thread, how, work, with);
}
