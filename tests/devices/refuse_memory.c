/* Refuses memory allocations.
   REFUSE_AT is the number of the first refused call of malloc or realloc, and REFUSE_ROW the number of refused calls in a row
   [default: 1]. A page (page.h) can give these numbers instead. The file that REFUSED names is made at the first refused call. The
   number of all such calls goes to the file that GROWTHS names. It must be loaded before the C library. */
#include "page.h"
#include <stdio.h>

extern void *__libc_malloc(size_t size);
extern void *__libc_realloc(void *old, size_t size);

static struct page *told(void) { return page("REFUSE_AT", "REFUSE_ROW"); }

static int is_refused(void) {
    struct page *it = told();
    const char *mark = getenv("REFUSED");
    if (!is_hit(it))
        return 0;
    int file = mark && it->calls == it->at ? open(mark, O_CREAT | O_WRONLY, 0600) : -1;
    if (file >= 0)
        close(file);
    errno = ENOMEM;
    return 1;
}

void *malloc(size_t size) { return is_refused() ? NULL : __libc_malloc(size); }

void *realloc(void *old, size_t size) { return is_refused() ? NULL : __libc_realloc(old, size); }

__attribute__((destructor)) static void ended(void) {
    const char *name = getenv("GROWTHS");
    int file = name ? open(name, O_CREAT | O_WRONLY | O_TRUNC, 0600) : -1;
    if (file >= 0) {
        char text[32];
        int length = snprintf(text, sizeof text, "%ld\n", told()->calls);
        if (write(file, text, length) != length)
            unlink(name);
        close(file);
    }
}
