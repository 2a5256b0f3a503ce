/* Each read gives an octet at most: it is loaded before the C library. */
#define _GNU_SOURCE
#include <dlfcn.h>
#include <unistd.h>

typedef ssize_t read_fn(int, void *, size_t);

ssize_t read(int file, void *into, size_t count) {
    static read_fn *next;
    if (!next) {
        next = (read_fn *)dlsym(RTLD_NEXT, "read");
    }
    return next(file, into, count > 1 ? 1 : count);
}
