/* Changes the time of a file after each read of it, as if another process wrote to it all the time.
   It must be loaded before the C library. */
#define _GNU_SOURCE
#include <sys/stat.h>
#include <sys/syscall.h>
#include <unistd.h>

ssize_t pread(int file, void *bytes, size_t count, off_t at) {
    static long second;
    ssize_t got = syscall(SYS_pread64, file, bytes, count, at);
    struct timespec times[2] = {{.tv_sec = ++second}, {.tv_sec = second}};
    futimens(file, times);
    return got;
}

ssize_t pread64(int file, void *bytes, size_t count, off_t at) { return pread(file, bytes, count, at); }
