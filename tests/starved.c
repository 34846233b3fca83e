/* Put before the C library (LD_PRELOAD), it refuses the allocation of the number in STARVED, counted from 1, whether it takes memory or
   makes it larger; and where there is STARVED_ON, all after it. Where that one comes, the file named by STARVED_MARK is made, so
   that it can be known. */

#include <errno.h>
#include <fcntl.h>
#include <stddef.h>
#include <stdlib.h>
#include <unistd.h>

extern void *__libc_malloc(size_t size);
extern void *__libc_calloc(size_t count, size_t size);
extern void *__libc_realloc(void *old, size_t size);

static int is_refused(void) {
    static unsigned long done, first, last;
    if (done == 0) {
        const char *number = getenv("STARVED");
        first = number ? strtoul(number, NULL, 10) : 0;
        last = getenv("STARVED_ON") ? (unsigned long)-1 : first;
    }
    if (first == 0 || ++done < first || done > last) return 0;
    const char *mark = getenv("STARVED_MARK");
    int file = mark ? open(mark, O_CREAT | O_WRONLY, 0600) : -1;
    if (file >= 0) close(file);
    errno = ENOMEM;
    return 1;
}

void *malloc(size_t size) { return is_refused() ? NULL : __libc_malloc(size); }

void *calloc(size_t count, size_t size) { return is_refused() ? NULL : __libc_calloc(count, size); }

void *realloc(void *old, size_t size) { return is_refused() ? NULL : __libc_realloc(old, size); }
