/* Slows the monotonic clock of a program: a hundredth of its processor time passes, and none while it waits for a processor. So
   a service takes all requests that wait in one round, however busy the machine is. It must be loaded before the C library. */
#define _GNU_SOURCE
#include <sys/syscall.h>
#include <time.h>
#include <unistd.h>

int clock_gettime(clockid_t clock, struct timespec *time) {
    static struct timespec began;
    if (clock != CLOCK_MONOTONIC)
        return (int)syscall(SYS_clock_gettime, clock, time);
    if (!began.tv_sec)
        syscall(SYS_clock_gettime, CLOCK_MONOTONIC, &began);
    struct timespec used;
    syscall(SYS_clock_gettime, CLOCK_PROCESS_CPUTIME_ID, &used);
    long long passed = began.tv_nsec + (used.tv_sec * 1000000000LL + used.tv_nsec) / 100;
    time->tv_sec = began.tv_sec + passed / 1000000000;
    time->tv_nsec = passed % 1000000000;
    return 0;
}
