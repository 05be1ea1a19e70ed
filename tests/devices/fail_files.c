/* Makes calls on files fail.
   FAIL_AT is the number of the first failing call, and FAIL_ROW the number of failing calls in a row [default: 1]. A page (page.h)
   can give these numbers instead. Reads, writes, changes of size and syncs are counted, except those of standard streams. With a page
   it is possible to count only the writes and changes of size by which a file grows, which a full disk refuses. The number of calls
   goes to the file that FAIL_CALLS names. It must be loaded before the C library. */
#define _GNU_SOURCE
#include "page.h"
#include <stdio.h>
#include <sys/stat.h>
#include <sys/syscall.h>

enum { READS = 1, WRITES = 2, SIZES = 4, SYNCS = 8, GROWTHS = 16 };

static struct page *told(void) { return page("FAIL_AT", "FAIL_ROW"); }

/* Counts a call of these kinds; returns 1 and sets errno if it fails. */
static int fails(int kinds) {
    struct page *it = told();
    if ((it->kinds && !(it->kinds & kinds)) || !is_hit(it))
        return 0;
    errno = (int)it->error;
    return 1;
}

/* Returns GROWTHS if a call that extends a file to this length makes it larger, otherwise 0. */
static int growth(int file, off_t length) {
    struct stat found;
    return fstat(file, &found) == 0 && length > found.st_size ? GROWTHS : 0;
}

ssize_t pread(int file, void *bytes, size_t count, off_t at) {
    return fails(READS) ? -1 : syscall(SYS_pread64, file, bytes, count, at);
}

ssize_t pread64(int file, void *bytes, size_t count, off_t at) { return pread(file, bytes, count, at); }

ssize_t pwrite(int file, const void *bytes, size_t count, off_t at) {
    return fails(WRITES | growth(file, at + (off_t)count)) ? -1 : syscall(SYS_pwrite64, file, bytes, count, at);
}

ssize_t pwrite64(int file, const void *bytes, size_t count, off_t at) { return pwrite(file, bytes, count, at); }

int ftruncate(int file, off_t size) { return fails(SIZES | growth(file, size)) ? -1 : syscall(SYS_ftruncate, file, size); }

int ftruncate64(int file, off_t size) { return ftruncate(file, size); }

static int sync_by(long call, int file) {
    int does_nothing = is_sync_told(told());
    if (fails(SYNCS))
        return -1;
    return does_nothing ? 0 : syscall(call, file);
}

int fsync(int file) { return sync_by(SYS_fsync, file); }

int fdatasync(int file) { return sync_by(SYS_fdatasync, file); }

__attribute__((destructor)) static void ended(void) {
    const char *name = getenv("FAIL_CALLS");
    int file = name ? open(name, O_CREAT | O_WRONLY | O_TRUNC, 0600) : -1;
    if (file >= 0) {
        dprintf(file, "%ld\n", told()->calls);
        close(file);
    }
}
