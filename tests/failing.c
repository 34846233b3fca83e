/* Put before the C library (LD_PRELOAD), it fails the call of the number in FAILING, counted from 1, as FAILING_AS says, of those on files
   that may be written and that read, write, or bring one to the disk:

   device        the call fails with EIO
   part          of a write at a place a half is taken, and what is left of it fails with EIO; other calls as by `device`
   interrupted   the call fails with EINTR; calls that read or write any file count

   Where that one comes, the file named by FAILING_MARK is made, so that it can be known, and the call's name is written into it. */

#define _GNU_SOURCE
#include <dlfcn.h>
#include <errno.h>
#include <fcntl.h>
#include <stddef.h>
#include <stdio.h>
#include <stdlib.h>
#include <string.h>
#include <sys/types.h>
#include <unistd.h>

static unsigned long done, number;
static int is_part, is_interrupted;

static void begin(void) {
    if (number) return;
    const char *given = getenv("FAILING"), *how = getenv("FAILING_AS");
    number = given ? strtoul(given, NULL, 10) : ~0UL;
    is_part = how && !strcmp(how, "part");
    is_interrupted = how && !strcmp(how, "interrupted");
}

static int counts(int file) {
    begin();
    return is_interrupted || (fcntl(file, F_GETFL) & O_ACCMODE) == O_RDWR;
}

static int fails(int file, const char *call) {
    if (!counts(file) || ++done != number) return 0;
    FILE *mark = getenv("FAILING_MARK") ? fopen(getenv("FAILING_MARK"), "w") : NULL;
    if (mark) {
        fputs(call, mark);
        fclose(mark);
    }
    errno = is_interrupted ? EINTR : EIO;
    return 1;
}

ssize_t read(int file, void *bytes, size_t size) {
    ssize_t (*next)(int, void *, size_t) = dlsym(RTLD_NEXT, "read");
    return fails(file, "read") ? -1 : next(file, bytes, size);
}

ssize_t write(int file, const void *bytes, size_t size) {
    ssize_t (*next)(int, const void *, size_t) = dlsym(RTLD_NEXT, "write");
    return fails(file, "write") ? -1 : next(file, bytes, size);
}

ssize_t pwrite(int file, const void *bytes, size_t size, off_t place) {
    ssize_t (*next)(int, const void *, size_t, off_t) = dlsym(RTLD_NEXT, "pwrite");
    if (!fails(file, "pwrite")) return next(file, bytes, size, place);
    if (!is_part || number != done) return -1;
    number++;
    return next(file, bytes, size / 2, place);
}

int fsync(int file) {
    int (*next)(int) = dlsym(RTLD_NEXT, "fsync");
    return fails(file, "fsync") ? -1 : next(file);
}

int fdatasync(int file) {
    int (*next)(int) = dlsym(RTLD_NEXT, "fdatasync");
    return fails(file, "fdatasync") ? -1 : next(file);
}
