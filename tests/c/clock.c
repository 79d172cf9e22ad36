/* A clock for the program that it is preloaded to: each time that it is asked for the time of day a
 * second more has passed since the beginning of 1970. */
#define _GNU_SOURCE
#include <stdatomic.h>
#include <sys/syscall.h>
#include <time.h>
#include <unistd.h>

static atomic_long asked;

int clock_gettime(clockid_t clock, struct timespec *now)
{
    if (clock != CLOCK_REALTIME)
        return (int)syscall(SYS_clock_gettime, clock, now);
    *now = (struct timespec){.tv_sec = atomic_fetch_add(&asked, 1)};
    return 0;
}
