/* Has the Nth read or write at a place of the program that it is loaded into move one byte, N from the environment's SHORTEN. */
#define _GNU_SOURCE
#include <dlfcn.h>
#include <stdlib.h>
#include <unistd.h>

static long left = -1;

static size_t shortened(size_t length) {
    if (left < 0) {
        const char *number = getenv("SHORTEN");
        left = number ? atol(number) : 0;
    }
    return left > 0 && --left == 0 && length > 1 ? 1 : length;
}

#define READS(name, offset_type)                                              \
    ssize_t name(int file, void *to, size_t length, offset_type at) {         \
        static ssize_t (*next)(int, void *, size_t, offset_type);             \
        if (!next) next = dlsym(RTLD_NEXT, #name);                            \
        return next(file, to, shortened(length), at);                         \
    }
#define WRITES(name, offset_type)                                             \
    ssize_t name(int file, const void *from, size_t length, offset_type at) { \
        static ssize_t (*next)(int, const void *, size_t, offset_type);       \
        if (!next) next = dlsym(RTLD_NEXT, #name);                            \
        return next(file, from, shortened(length), at);                       \
    }

READS(pread, off_t)
READS(pread64, off64_t)
WRITES(pwrite, off_t)
WRITES(pwrite64, off64_t)
