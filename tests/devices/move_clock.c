/* Moves the system clock of a program. The file CLOCK_FILE has the seconds that are added to it, as a 64-bit number.
 *
 * Use: LD_PRELOAD=./move_clock.so CLOCK_FILE=file program */
#define _GNU_SOURCE
#include <fcntl.h>
#include <stdlib.h>
#include <sys/mman.h>
#include <sys/syscall.h>
#include <time.h>
#include <unistd.h>

static volatile long long *moved;

static void find(void) {
    const char *name = getenv("CLOCK_FILE");
    int file = name ? open(name, O_RDONLY) : -1;
    if (file < 0) abort();
    moved = mmap(NULL, sizeof *moved, PROT_READ, MAP_SHARED, file, 0);
    if (moved == MAP_FAILED) abort();
    close(file);
}

int clock_gettime(clockid_t clock, struct timespec *time) {
    int done = (int)syscall(SYS_clock_gettime, clock, time);
    if (clock == CLOCK_REALTIME) {
        if (!moved) find();
        time->tv_sec += *moved;
    }
    return done;
}
