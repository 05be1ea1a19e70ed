/* Makes standard input and output give and take few bytes a call, and makes them and the clock fail.
   Numbers in the environment control this: READ_BYTES and WRITE_BYTES, the maximum of a call; READ_FIRST, that of the
   first read; READ_FAILS, WRITE_FAILS and CLOCK_FAILS, the number of the failing call; WRITE_STOPS, that of the first
   call that takes no byte. While the file CLOCK_FAILS_WHILE exists, the clock fails. It must be loaded before the C
   library. */
#define _GNU_SOURCE
#include <errno.h>
#include <stdlib.h>
#include <sys/syscall.h>
#include <time.h>
#include <unistd.h>

static long set(const char *name) {
    const char *text = getenv(name);
    return text ? atol(text) : 0;
}

static size_t at_most(size_t size, long most) { return most > 0 && (size_t)most < size ? (size_t)most : size; }

ssize_t read(int file, void *bytes, size_t size) {
    static long calls;
    if (file == STDIN_FILENO) {
        calls += 1;
        if (calls == set("READ_FAILS")) {
            errno = EIO;
            return -1;
        }
        size = at_most(size, set("READ_BYTES"));
        if (calls == 1)
            size = at_most(size, set("READ_FIRST"));
    }
    return syscall(SYS_read, file, bytes, size);
}

ssize_t write(int file, const void *bytes, size_t size) {
    static long calls;
    if (file == STDOUT_FILENO) {
        calls += 1;
        if (calls == set("WRITE_FAILS")) {
            errno = EIO;
            return -1;
        }
        if (set("WRITE_STOPS") && calls >= set("WRITE_STOPS"))
            return 0;
        size = at_most(size, set("WRITE_BYTES"));
    }
    return syscall(SYS_write, file, bytes, size);
}

int clock_gettime(clockid_t clock, struct timespec *time) {
    static long calls;
    if (clock == CLOCK_REALTIME) {
        calls += 1;
        const char *file = getenv("CLOCK_FAILS_WHILE");
        if (calls == set("CLOCK_FAILS") || (file && access(file, F_OK) == 0)) {
            errno = EINVAL;
            return -1;
        }
    }
    return (int)syscall(SYS_clock_gettime, clock, time);
}
