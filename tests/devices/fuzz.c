/* Prepares each run of the program below afl-fuzz. tests/fuzz links it into an instrumented program, after afl's own object, so that
   it runs in each forked process.
   FUZZ_STATUSES lists the digits of the documented statuses; the program aborts if it would exit with another one. FUZZ_ARGUMENT is
   the index of an argument, which standard input replaces. FUZZ_DATABASE names a file whose logs are removed first. */
#define _GNU_SOURCE
#include <stdio.h>
#include <stdlib.h>
#include <string.h>
#include <unistd.h>

static const char *statuses;

static void check_status(int status, void *unused) {
    (void)unused;
    if (status < 0 || status > 9 || !strchr(statuses, '0' + status))
        abort();
}

static void remove_log(const char *database, const char *ending) {
    char name[4096];
    if (snprintf(name, sizeof name, "%s%s", database, ending) < (int)sizeof name)
        unlink(name);
}

/* Returns standard input up to its first NUL, as an argument can hold no more. */
static char *read_argument(void) {
    static char text[65536];
    size_t length = 0;
    ssize_t got;
    while (length < sizeof text - 1 && (got = read(0, text + length, sizeof text - 1 - length)) > 0)
        length += (size_t)got;
    return text;
}

__attribute__((constructor)) static void prepare(int count, char **arguments) {
    const char *database = getenv("FUZZ_DATABASE"), *at = getenv("FUZZ_ARGUMENT");
    statuses = getenv("FUZZ_STATUSES");
    if (statuses)
        on_exit(check_status, NULL);
    if (database) {
        remove_log(database, "-wal");
        remove_log(database, "-shm");
        remove_log(database, "-journal");
    }
    if (at && atoi(at) < count)
        arguments[atoi(at)] = read_argument();
}
