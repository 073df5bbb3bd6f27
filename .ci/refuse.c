// Refuses memory in turn: preloaded into a program, it counts the requests for memory and for threads, refuses the one whose number is
// asked for, and with REFUSE_ON all behind it too. With REFUSE_THREADS it counts those for threads alone. Requests count from 1, from
// where `main` begins.
//
//   cc -O2 -shared -fPIC -o refuse.so refuse.c
//   REFUSE_AT=N [REFUSE_ON=1] [REFUSE_THREADS=1] REFUSE_TOLD=FILE LD_PRELOAD=./refuse.so PROGRAM
//
// FILE, of 32 bytes, tells what came of it as four numbers: it is mapped, so it tells them however the program ends.
#define _GNU_SOURCE
#include <dlfcn.h>
#include <errno.h>
#include <fcntl.h>
#include <pthread.h>
#include <stdatomic.h>
#include <stdbool.h>
#include <stdlib.h>
#include <sys/mman.h>
#include <unistd.h>

struct told {
    _Atomic unsigned long requests, blocks_refused, threads_refused, threads_made;
};

// The C library's own, which also serve before any constructor has run.
extern void *__libc_malloc(size_t);
extern void *__libc_calloc(size_t, size_t);
extern void *__libc_realloc(void *, size_t);
extern void *__libc_memalign(size_t, size_t);

static struct told *told; // none before main
static unsigned long at;
static bool on, threads_alone;
static int (*create)(pthread_t *, const pthread_attr_t *, void *(*)(void *), void *);
static _Thread_local bool in_create; // what a thread needs is part of the request for it

__attribute__((constructor)) static void begin(void) {
    create = dlsym(RTLD_NEXT, "pthread_create");
    const char *name = getenv("REFUSE_TOLD"), *number = getenv("REFUSE_AT");
    int file = name && number && create ? open(name, O_RDWR | O_CLOEXEC) : -1;
    void *shared = file < 0 ? MAP_FAILED : mmap(NULL, sizeof *told, PROT_READ | PROT_WRITE, MAP_SHARED, file, 0);
    if (shared == MAP_FAILED)
        _exit(125);
    close(file);
    at = strtoul(number, NULL, 10);
    on = getenv("REFUSE_ON") != NULL;
    threads_alone = getenv("REFUSE_THREADS") != NULL;
    told = shared;
}

static bool is_refused(void) {
    unsigned long now = atomic_fetch_add(&told->requests, 1) + 1;
    return at && (now == at || (on && now > at));
}

static bool is_block_refused(void) {
    if (!told || threads_alone || in_create || !is_refused())
        return false;
    atomic_fetch_add(&told->blocks_refused, 1);
    errno = ENOMEM;
    return true;
}

void *malloc(size_t size) { return is_block_refused() ? NULL : __libc_malloc(size); }

void *calloc(size_t count, size_t size) { return is_block_refused() ? NULL : __libc_calloc(count, size); }

void *realloc(void *old, size_t size) { return is_block_refused() ? NULL : __libc_realloc(old, size); }

void *memalign(size_t align, size_t size) { return is_block_refused() ? NULL : __libc_memalign(align, size); }

void *aligned_alloc(size_t align, size_t size) { return memalign(align, size); }

int posix_memalign(void **made, size_t align, size_t size) {
    void *block = memalign(align, size);
    if (!block)
        return ENOMEM;
    *made = block;
    return 0;
}

int pthread_create(pthread_t *thread, const pthread_attr_t *attributes, void *(*run)(void *), void *argument) {
    if (is_refused()) {
        atomic_fetch_add(&told->threads_refused, 1);
        return EAGAIN;
    }
    in_create = true;
    int status = create(thread, attributes, run, argument);
    in_create = false;
    if (status == 0)
        atomic_fetch_add(&told->threads_made, 1);
    return status;
}
