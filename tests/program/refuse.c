/* Refuses one growth of a program, or each from one on: REFUSE is its number, counted from 1, and REFUSE_ALL says that those after it are
   refused too. It is loaded before the C library. A file that REFUSED names is made where a growth was refused. */
#define _GNU_SOURCE
#include <dlfcn.h>
#include <errno.h>
#include <fcntl.h>
#include <stdatomic.h>
#include <stdlib.h>
#include <unistd.h>

static atomic_long growths;
static long refused_at;
static int all_after;

__attribute__((constructor)) static void set_up(void) {
    const char *number = getenv("REFUSE");
    all_after = getenv("REFUSE_ALL") != NULL;
    refused_at = number ? atol(number) : 0;
    atomic_store(&growths, 0);
}

static int is_refused(void) {
    if (refused_at == 0) {
        return 0;
    }
    long number = atomic_fetch_add(&growths, 1) + 1;
    if (number != refused_at && !(all_after && number > refused_at)) {
        return 0;
    }
    const char *name = getenv("REFUSED");
    if (name) {
        int file = open(name, O_CREAT | O_WRONLY, 0644);
        if (file >= 0) {
            close(file);
        }
    }
    errno = ENOMEM;
    return 1;
}

/* The C library's own names, so that looking for them needs no growth. */
extern void *__libc_malloc(size_t);
extern void *__libc_calloc(size_t, size_t);
extern void *__libc_realloc(void *, size_t);

void *malloc(size_t size) {
    return is_refused() ? NULL : __libc_malloc(size);
}

void *calloc(size_t count, size_t size) {
    return is_refused() ? NULL : __libc_calloc(count, size);
}

void *realloc(void *block, size_t size) {
    return is_refused() ? NULL : __libc_realloc(block, size);
}
