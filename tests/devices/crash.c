/* Stops the machine at a call that changes a file.
   CRASH_AT is the number of the call. The call has no effect, and the program exits with status 99. CRASH_KEEPS says what
   the disk has persisted: `all` that was written; only what was `synced`, file by file; or additionally `half` of the
   call's own bytes. A page (page.h) can also give the number of the call. At a normal exit the number of calls goes to the
   file that CRASH_CALLS names. It must be loaded before the C library. */
#define _GNU_SOURCE
#include "page.h"
#include <stdio.h>
#include <string.h>
#include <sys/stat.h>
#include <sys/syscall.h>

/* The bytes of a file that a call replaced, and the file's size before it. The newest change is first. */
struct change {
    struct change *before;
    int file;
    off_t at, size;
    size_t count;
    char bytes[];
};

static struct change *unsynced;

static struct page *told(void) { return page("CRASH_AT", "CRASH_ROW"); }

static int keeps(const char *what) {
    const char *kept = getenv("CRASH_KEEPS");
    return kept && strcmp(kept, what) == 0;
}

static off_t size_of(int file) {
    struct stat status;
    return fstat(file, &status) == 0 ? status.st_size : 0;
}

static void note(int file, off_t at, size_t count) {
    struct change *change = malloc(sizeof *change + count);
    if (!change)
        _exit(98);
    change->before = unsynced;
    change->file = file;
    change->at = at;
    change->size = size_of(file);
    ssize_t had = syscall(SYS_pread64, file, change->bytes, count, at);
    change->count = had > 0 ? had : 0;
    unsynced = change;
}

static void stop(void) {
    for (struct change *it = unsynced; it && keeps("synced"); it = it->before) {
        if (it->file < 0)
            continue;
        syscall(SYS_pwrite64, it->file, it->bytes, it->count, it->at);
        syscall(SYS_ftruncate, it->file, it->size);
    }
    _exit(99);
}

/* Returns 1 if the current call is the last. */
static int is_last(void) { return is_hit(told()); }

ssize_t pwrite(int file, const void *bytes, size_t count, off_t at) {
    int last = is_last();
    if (last && !keeps("half"))
        stop();
    note(file, at, count);
    ssize_t put = syscall(SYS_pwrite64, file, bytes, last ? count / 2 : count, at);
    if (last)
        stop();
    return put;
}

ssize_t pwrite64(int file, const void *bytes, size_t count, off_t at) { return pwrite(file, bytes, count, at); }

int ftruncate(int file, off_t size) {
    if (is_last())
        stop();
    off_t old = size_of(file);
    note(file, size, old > size ? old - size : 0);
    return syscall(SYS_ftruncate, file, size);
}

int ftruncate64(int file, off_t size) { return ftruncate(file, size); }

static void synced(int file) {
    for (struct change *it = unsynced; it; it = it->before)
        if (it->file == file)
            it->file = -1;
}

static int sync_by(long call, int file) {
    if (is_last())
        stop();
    if (is_sync_told(told()))
        return 0;
    synced(file);
    return syscall(call, file);
}

int fsync(int file) { return sync_by(SYS_fsync, file); }

int fdatasync(int file) { return sync_by(SYS_fdatasync, file); }

__attribute__((destructor)) static void ended(void) {
    const char *name = getenv("CRASH_CALLS");
    FILE *file = name ? fopen(name, "w") : NULL;
    if (file) {
        fprintf(file, "%ld\n", told()->calls);
        fclose(file);
    }
}
