/* Records the calls of a program that change its database, and its responses, in their order.
   It appends a record to the file that RECORDED names for each write, change of size and sync of a file whose name ends in
   `.db` or `.db-wal`, and for each send on a socket. A file that gets such a name by a link, which was synced under another
   one, is a write of all its bytes and a sync. A record is a header, and the bytes of a write. It must be loaded before the C
   library. */
#define _GNU_SOURCE
#include <fcntl.h>
#include <limits.h>
#include <stdint.h>
#include <stdio.h>
#include <stdlib.h>
#include <string.h>
#include <sys/socket.h>
#include <sys/syscall.h>
#include <sys/uio.h>
#include <unistd.h>

/* The kind is w (write), t (change of size), s (sync) or a (send); the file is d (database), l (log) or - (none). */
struct header {
    char kind, file;
    int64_t at, count;
} __attribute__((packed));

static int record = -1;

static void note(char kind, char file, int64_t at, int64_t count, const void *bytes) {
    if (record < 0)
        record = open(getenv("RECORDED"), O_WRONLY | O_APPEND | O_CREAT | O_CLOEXEC, 0600);
    struct header header = {kind, file, at, count};
    struct iovec parts[2] = {{&header, sizeof header}, {(void *)bytes, bytes ? count : 0}};
    if (record < 0 || writev(record, parts, 2) != (ssize_t)(sizeof header + parts[1].iov_len))
        _exit(98);
}

static int ends_with(const char *name, const char *end) {
    size_t has = strlen(name), wanted = strlen(end);
    return has >= wanted && strcmp(name + has - wanted, end) == 0;
}

/* Returns which file this is. */
static char which(int file) {
    char link[64], name[PATH_MAX];
    snprintf(link, sizeof link, "/proc/self/fd/%d", file);
    ssize_t has = readlink(link, name, sizeof name - 1);
    name[has < 0 ? 0 : has] = 0;
    return ends_with(name, ".db") ? 'd' : ends_with(name, ".db-wal") ? 'l' : '-';
}

int link(const char *from, const char *to) {
    char bytes[4096];
    int status = syscall(SYS_link, from, to);
    int file = status == 0 && ends_with(to, ".db") ? open(to, O_RDONLY | O_CLOEXEC) : -1;
    ssize_t count = file < 0 ? -1 : read(file, bytes, sizeof bytes);
    if (file < 0)
        return status;
    close(file);
    if (count < 0 || count == sizeof bytes)
        _exit(97);
    note('w', 'd', 0, count, bytes);
    note('s', 'd', 0, 0, NULL);
    return status;
}

ssize_t pwrite(int file, const void *bytes, size_t count, off_t at) {
    ssize_t put = syscall(SYS_pwrite64, file, bytes, count, at);
    if (put > 0 && which(file) != '-')
        note('w', which(file), at, put, bytes);
    return put;
}

ssize_t pwrite64(int file, const void *bytes, size_t count, off_t at) { return pwrite(file, bytes, count, at); }

int ftruncate(int file, off_t size) {
    int status = syscall(SYS_ftruncate, file, size);
    if (status == 0 && which(file) != '-')
        note('t', which(file), size, 0, NULL);
    return status;
}

int ftruncate64(int file, off_t size) { return ftruncate(file, size); }

static int sync_by(long call, int file) {
    int status = syscall(call, file);
    if (status == 0 && which(file) != '-')
        note('s', which(file), 0, 0, NULL);
    return status;
}

int fsync(int file) { return sync_by(SYS_fsync, file); }

int fdatasync(int file) { return sync_by(SYS_fdatasync, file); }

ssize_t send(int socket, const void *bytes, size_t count, int flags) {
    note('a', '-', 0, 0, NULL);
    return syscall(SYS_sendto, socket, bytes, count, flags, NULL, 0);
}
