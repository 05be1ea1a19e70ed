/* The numbers that control which calls of a program fail.
   They come from the environment, or from a file that DEVICE_PAGE names. A test maps that file, too, and reads and changes the
   numbers while the program runs. */
#include <errno.h>
#include <fcntl.h>
#include <stdlib.h>
#include <sys/mman.h>
#include <unistd.h>

/* The calls counted; the first that fails, if it is not 0, and how many in a row; the error; the sum of the kinds that are
   counted, or 0 for all; the syncs begun, whether they wait, and whether they do nothing. */
struct page {
    volatile long calls, at, row, error, kinds, syncs, waits, lies;
};

/* Returns the page. Without DEVICE_PAGE it has the numbers of the environment variables `at` and `row`. */
static struct page *page(const char *at, const char *row) {
    static struct page own, *known;
    if (known)
        return known;
    const char *name = getenv("DEVICE_PAGE");
    int file = name ? open(name, O_RDWR) : -1;
    void *mapped = file < 0 ? MAP_FAILED : mmap(NULL, sizeof own, PROT_READ | PROT_WRITE, MAP_SHARED, file, 0);
    if (file >= 0)
        close(file);
    if (mapped != MAP_FAILED)
        return known = mapped;
    own.at = getenv(at) ? atol(getenv(at)) : 0;
    own.row = getenv(row) ? atol(getenv(row)) : 1;
    own.error = EIO;
    return known = &own;
}

/* Counts a call; returns 1 if it fails. */
static int is_hit(struct page *it) {
    long call = ++it->calls;
    return it->at > 0 && call >= it->at && call - it->at < it->row;
}

/* Counts a sync and waits while syncs wait; returns 1 if syncs do nothing. */
static inline int is_sync_told(struct page *it) {
    it->syncs += 1;
    while (it->waits)
        usleep(200);
    return it->lies != 0;
}
