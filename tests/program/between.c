/* Another program beside the one that is run: it makes each file just before that one is to make it; and as the file that CHANGED names is opened
   for the second time, it puts the file "later" in its place. Where GONE is there it makes none, but deletes each file that is opened to be gone on
   with. It is loaded before the C library. */
#undef _FORTIFY_SOURCE
#define _GNU_SOURCE
#include <fcntl.h>
#include <stdarg.h>
#include <stdio.h>
#include <stdlib.h>
#include <string.h>
#include <unistd.h>

static int openings;

/* Just before the file is opened. */
static void meddle(const char *path, int flags) {
    const char *changed = getenv("CHANGED");
    int gone = getenv("GONE") != NULL;
    if (gone && flags & O_APPEND) {
        unlink(path);
    }
    if (changed && !(flags & O_CREAT) && strcmp(path, changed) == 0 && ++openings == 2) {
        rename("later", path);
    }
    if (flags & O_CREAT && !changed && !gone) {
        int file = openat(AT_FDCWD, path, O_CREAT | O_EXCL | O_WRONLY, 0644);
        if (file >= 0) {
            ssize_t written = write(file, "mine", 4);
            (void)written;
            close(file);
        }
    }
}

int open(const char *path, int flags, ...) {
    va_list rest;
    va_start(rest, flags);
    mode_t mode = flags & O_CREAT ? va_arg(rest, mode_t) : 0;
    va_end(rest);
    meddle(path, flags);
    return openat(AT_FDCWD, path, flags, mode);
}
