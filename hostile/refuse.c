/* Refuses one request for memory of a program: LD_PRELOAD of hostile/try. The request of the number HOSTILE_REFUSE, from 1, gets none; 0 refuses none.
   A new thread is a request too. The number of requests, and behind it that of the threads that were made, stand in the file HOSTILE_COUNT, which the program has in its memory: it ends without the calls that C makes
   at an end. */
#define _GNU_SOURCE
#include <dlfcn.h>
#include <errno.h>
#include <pthread.h>
#include <stdatomic.h>
#include <stdlib.h>
#include <sys/mman.h>
#include <unistd.h>

extern void *__libc_malloc(size_t), *__libc_calloc(size_t, size_t), *__libc_realloc(void *, size_t), *__libc_memalign(size_t, size_t);

struct counts { atomic_long requests, threads; };

static struct counts own_counts, *counts = &own_counts;
static long refused;
static int is_counting;

/* Whether this request is the one that is refused. What is asked for before the program's own start is not counted. */
static int is_refused(void) {
    return is_counting && atomic_fetch_add(&counts->requests, 1) + 1 == refused;
}

__attribute__((constructor)) static void begin(void) {
    const char *number = getenv("HOSTILE_REFUSE"), *file = getenv("HOSTILE_COUNT");
    refused = number ? atol(number) : 0;
    if (file && !ftruncate(atoi(file), sizeof *counts)) {
        void *shared = mmap(NULL, sizeof *counts, PROT_READ | PROT_WRITE, MAP_SHARED, atoi(file), 0);
        if (shared != MAP_FAILED) counts = shared;
    }
    is_counting = 1;
}

static void *none(void) {
    errno = ENOMEM;
    return NULL;
}

void *malloc(size_t size) { return is_refused() ? none() : __libc_malloc(size); }
void *calloc(size_t count, size_t size) { return is_refused() ? none() : __libc_calloc(count, size); }
void *realloc(void *old, size_t size) { return is_refused() ? none() : __libc_realloc(old, size); }
void *aligned_alloc(size_t alignment, size_t size) { return is_refused() ? none() : __libc_memalign(alignment, size); }

int posix_memalign(void **out, size_t alignment, size_t size) {
    void *part = is_refused() ? NULL : __libc_memalign(alignment, size);
    if (!part) return ENOMEM;
    *out = part;
    return 0;
}

int pthread_create(pthread_t *thread, const pthread_attr_t *attributes, void *(*start)(void *), void *argument) {
    static int (*real)(pthread_t *, const pthread_attr_t *, void *(*)(void *), void *);
    if (is_refused()) return EAGAIN;
    if (!real) real = dlsym(RTLD_NEXT, "pthread_create");
    int failed = real(thread, attributes, start, argument);
    if (!failed) atomic_fetch_add(&counts->threads, 1);
    return failed;
}
