/* A clock that goes on by STEP milliseconds each time it is asked: it is loaded before the C library. So a test says how long a run takes. */
#define _GNU_SOURCE
#include <stdlib.h>
#include <time.h>

static long long now;

int clock_gettime(clockid_t id, struct timespec *time) {
    (void)id;
    const char *step = getenv("STEP");
    now += step ? atoll(step) : 0;
    time->tv_sec = now / 1000;
    time->tv_nsec = now % 1000 * 1000000;
    return 0;
}
