/* Counts the threads that a program starts: it is loaded before the C library, and for each thread puts an octet to the end of the file that THREADS
   names, and one to that which MOST names where there are more at once than ever before. */
#define _GNU_SOURCE
#include <dlfcn.h>
#include <fcntl.h>
#include <pthread.h>
#include <stdlib.h>
#include <unistd.h>

typedef void *start_fn(void *);
typedef int create_fn(pthread_t *, const pthread_attr_t *, start_fn *, void *);

struct work {
    start_fn *start;
    void *argument;
};

static pthread_mutex_t lock = PTHREAD_MUTEX_INITIALIZER;
static int running, most;

static void tell(const char *setting) {
    const char *name = getenv(setting);
    int file = name ? open(name, O_CREAT | O_WRONLY | O_APPEND, 0644) : -1;
    if (file >= 0) {
        ssize_t written = write(file, "t", 1);
        (void)written;
        close(file);
    }
}

static void *run(void *argument) {
    struct work work = *(struct work *)argument;
    free(argument);
    void *result = work.start(work.argument);
    pthread_mutex_lock(&lock);
    running--;
    pthread_mutex_unlock(&lock);
    return result;
}

int pthread_create(pthread_t *thread, const pthread_attr_t *attributes, start_fn *start, void *argument) {
    create_fn *next = (create_fn *)dlsym(RTLD_NEXT, "pthread_create");
    struct work *work = malloc(sizeof *work);
    *work = (struct work){start, argument};
    pthread_mutex_lock(&lock);
    tell("THREADS");
    if (++running > most) {
        most = running;
        tell("MOST");
    }
    pthread_mutex_unlock(&lock);
    return next(thread, attributes, run, work);
}
