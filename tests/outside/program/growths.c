/* Preloaded before the program: counts its growths and its reads, and refuses growths.
 *
 * A growth is a call for a new block, or for more bytes than a block has. They count from the start of
 * the program (GROWTHS_FROM=start), or from the first file that it is given (GROWTHS_FROM=open), behind those
 * of the command line's words. GROWTHS_REFUSED=N refuses the Nth, and with GROWTHS_ALL=1 all after it too.
 * GROWTHS_SHRINKS=1 refuses every call that makes a block smaller. At the end the counts are written to
 * the file GROWTHS_REPORT: of growths, of calls that were refused, and of reads. */

#define _GNU_SOURCE
#include <errno.h>
#include <fcntl.h>
#include <stdarg.h>
#include <stdio.h>
#include <stdlib.h>
#include <string.h>
#include <sys/syscall.h>
#include <unistd.h>

extern void *__libc_malloc(size_t), *__libc_calloc(size_t, size_t), *__libc_realloc(void *, size_t);
extern void __libc_free(void *);

static long growths, refused, reads, first;
static int counts, all, shrinks;

__attribute__((constructor)) static void begin(void) {
    const char *number = getenv("GROWTHS_REFUSED");
    first = number ? atol(number) : 0;
    all = getenv("GROWTHS_ALL") != NULL;
    shrinks = getenv("GROWTHS_SHRINKS") != NULL;
    counts = strcmp(getenv("GROWTHS_FROM"), "start") == 0;
}

__attribute__((destructor)) static void end(void) {
    int report = syscall(SYS_openat, AT_FDCWD, getenv("GROWTHS_REPORT"), O_WRONLY | O_CREAT | O_TRUNC, 0600);
    dprintf(report, "%ld %ld %ld\n", growths, refused, reads);
    close(report);
}

static int refuse(int is_refused) {
    refused += is_refused;
    if (is_refused)
        errno = ENOMEM;
    return is_refused;
}

static int refuse_growth(void) {
    growths += counts;
    return refuse(counts && first && (growths == first || (all && growths > first)));
}

/* A block has its size in front of it. */
static void *keep(size_t *block, size_t size) {
    if (block)
        *block = size;
    return block ? block + 2 : NULL;
}

void *malloc(size_t size) {
    return refuse_growth() ? NULL : keep(__libc_malloc(size + 16), size);
}

void *calloc(size_t count, size_t size) {
    return refuse_growth() ? NULL : keep(__libc_calloc(count * size + 16, 1), count * size);
}

void *realloc(void *block, size_t size) {
    if (!block)
        return malloc(size);
    size_t *old = (size_t *)block - 2;
    if (size > *old ? refuse_growth() : refuse(counts && shrinks && size < *old))
        return NULL;
    return keep(__libc_realloc(old, size + 16), size);
}

void free(void *block) {
    if (block)
        __libc_free((size_t *)block - 2);
}

int open(const char *path, int flags, ...) {
    va_list rest;
    va_start(rest, flags);
    int mode = flags & O_CREAT ? va_arg(rest, int) : 0;
    va_end(rest);
    counts |= strcmp(path, "/proc/self/limits") != 0;
    return syscall(SYS_openat, AT_FDCWD, path, flags, mode);
}

ssize_t read(int file, void *bytes, size_t size) {
    reads++;
    return syscall(SYS_read, file, bytes, size);
}

ssize_t pread(int file, void *bytes, size_t size, off_t from) {
    reads++;
    return syscall(SYS_pread64, file, bytes, size, from);
}
