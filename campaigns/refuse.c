/* Refuses the Nth request for memory of the program that it is loaded into, N from the environment's REFUSE, and with
   LASTING each one after it. When it does, it makes the file that REFUSED names. */
#define _GNU_SOURCE
#include <dlfcn.h>
#include <errno.h>
#include <fcntl.h>
#include <stddef.h>
#include <stdlib.h>
#include <unistd.h>

static long left = -1;
static int lasts;

static int refuse(void) {
    const char *mark = getenv("REFUSED");
    if (mark) close(creat(mark, 0600));
    if (!lasts) left = 0;
    return 1;
}

static int is_refused(void) {
    if (left < 0) {
        const char *number = getenv("REFUSE");
        left = number ? atol(number) : 0;
        lasts = getenv("LASTING") != NULL;
    }
    if (left > 1) left--;
    else if (left == 1) return refuse();
    return 0;
}

void *malloc(size_t size) {
    static void *(*next)(size_t);
    if (!next) next = dlsym(RTLD_NEXT, "malloc");
    return is_refused() ? NULL : next(size);
}

void *realloc(void *old, size_t size) {
    static void *(*next)(void *, size_t);
    if (!next) next = dlsym(RTLD_NEXT, "realloc");
    return is_refused() ? NULL : next(old, size);
}

void *aligned_alloc(size_t align, size_t size) {
    static void *(*next)(size_t, size_t);
    if (!next) next = dlsym(RTLD_NEXT, "aligned_alloc");
    return is_refused() ? NULL : next(align, size);
}

int posix_memalign(void **to, size_t align, size_t size) {
    static int (*next)(void **, size_t, size_t);
    if (!next) next = dlsym(RTLD_NEXT, "posix_memalign");
    return is_refused() ? ENOMEM : next(to, align, size);
}
