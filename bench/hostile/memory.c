/* Refuses the N-th request for memory of the program it is loaded before, or each from the N-th on.
   REFUSE_AT is N (0: none), REFUSE_ON is set for each from there on, COUNTS the file of two numbers: how many
   were made, and how many before this library was started (by the loader and the C library, never refused). */
#define _GNU_SOURCE
#include "forks.h"
#include <dlfcn.h>
#include <errno.h>
#include <pthread.h>
#include <stdatomic.h>

extern void *__libc_malloc(size_t), *__libc_calloc(size_t, size_t), *__libc_realloc(void *, size_t), *__libc_memalign(size_t, size_t);

static atomic_long before_start;
static atomic_long *made = &before_start;
static long refuse_at;
static int refuse_on;

__attribute__((constructor)) static void start(void) {
    long early = before_start;
    serve_forks();
    const char *at = getenv("REFUSE_AT"), *path = getenv("COUNTS");
    int file = path ? syscall(SYS_openat, AT_FDCWD, path, O_RDWR) : -1;
    if (file < 0) return;
    void *page = (void *)syscall(SYS_mmap, 0, 2 * sizeof(long), PROT_READ | PROT_WRITE, MAP_SHARED, file, 0);
    syscall(SYS_close, file);
    if (page == MAP_FAILED) return;
    ((long *)page)[1] = early;
    made = page;
    refuse_on = getenv("REFUSE_ON") != 0;
    refuse_at = at ? atol(at) : 0;
}

static int is_refused(void) {
    long number = atomic_fetch_add(made, 1) + 1;
    if (refuse_at == 0 || (refuse_on ? number < refuse_at : number != refuse_at)) return 0;
    errno = ENOMEM;
    return 1;
}

void *malloc(size_t size) { return is_refused() ? 0 : __libc_malloc(size); }
void *calloc(size_t count, size_t size) { return is_refused() ? 0 : __libc_calloc(count, size); }
void *realloc(void *old, size_t size) { return is_refused() ? 0 : __libc_realloc(old, size); }
void *memalign(size_t align, size_t size) { return is_refused() ? 0 : __libc_memalign(align, size); }
void *aligned_alloc(size_t align, size_t size) { return is_refused() ? 0 : __libc_memalign(align, size); }

int posix_memalign(void **place, size_t align, size_t size) {
    void *got = is_refused() ? 0 : __libc_memalign(align, size);
    if (got) *place = got;
    return got ? 0 : ENOMEM;
}

void *mmap(void *at, size_t size, int rights, int how, int file, off_t place) {
    return is_refused() ? MAP_FAILED : (void *)syscall(SYS_mmap, at, size, rights, how, file, place);
}

/* A thread asks for its stack within the C library, where no preloaded call stands before it: so it is a request here. */
int pthread_create(pthread_t *thread, const pthread_attr_t *how, void *(*run)(void *), void *with) {
    static __typeof__(pthread_create) *real;
    if (is_refused()) return EAGAIN;
    if (!real) real = (__typeof__(real))dlsym(RTLD_NEXT, "pthread_create");
    return real(thread, how, run, with);
}
