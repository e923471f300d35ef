/* Makes each fdatasync of a program take at least SYNC_US microseconds, as that of a slower disk does: who
   syncs sleeps meanwhile.

       cc -O2 -shared -fPIC -o slow_sync.so slow_sync.c
       SYNC_US=500 LD_PRELOAD=./slow_sync.so PROGRAM ..
*/
#define _GNU_SOURCE
#include <errno.h>
#include <stdlib.h>
#include <sys/prctl.h>
#include <sys/syscall.h>
#include <time.h>
#include <unistd.h>

static const long NANOSECONDS = 1000000000L;

/* When a sync that begins now is to end. */
static struct timespec end_of(long microseconds)
{
    struct timespec end;
    clock_gettime(CLOCK_MONOTONIC, &end);
    end.tv_nsec += microseconds % 1000000 * 1000;
    end.tv_sec += microseconds / 1000000 + end.tv_nsec / NANOSECONDS;
    end.tv_nsec %= NANOSECONDS;
    return end;
}

int fdatasync(int file)
{
    const char *said = getenv("SYNC_US");
    struct timespec end = end_of(said ? atol(said) : 0);
    int status = (int)syscall(SYS_fdatasync, file);
    int error = errno;
    /* A sleep is to end within a microsecond of its time, and not within 50. */
    prctl(PR_SET_TIMERSLACK, 1UL);
    while (clock_nanosleep(CLOCK_MONOTONIC, TIMER_ABSTIME, &end, NULL) == EINTR) {
    }
    errno = error;
    return status;
}
