/* Makes one call of a program fail, or has each read and write take few bytes. For tools/failing.py, by LD_PRELOAD.
 *
 * FAIL_ALLOCATION, FAIL_OPEN, FAIL_READ, FAIL_WRITE: the number of the call that fails, counted from 1 and by kind.
 * SHORT: how many bytes a read or a write takes at most.
 * COUNTS: the file that is told at the end how many calls of each kind there were.
 */
#define _GNU_SOURCE
#include <errno.h>
#include <fcntl.h>
#include <stdarg.h>
#include <stdio.h>
#include <stdlib.h>
#include <sys/syscall.h>
#include <sys/types.h>
#include <unistd.h>

extern void *__libc_malloc(size_t size);
extern void *__libc_realloc(void *old, size_t size);

enum kind { ALLOCATION, OPEN, READ, WRITE, KINDS };

static const char *const names[KINDS] = {"FAIL_ALLOCATION", "FAIL_OPEN", "FAIL_READ", "FAIL_WRITE"};
static long failing[KINDS], calls[KINDS];
static size_t most = (size_t)-1;

static long number_of(const char *name) {
    const char *word = getenv(name);
    return word ? atol(word) : 0;
}

__attribute__((constructor)) static void begin(void) {
    for (int kind = 0; kind < KINDS; kind++) {
        calls[kind] = 0;
        failing[kind] = number_of(names[kind]);
    }
    if (number_of("SHORT"))
        most = (size_t)number_of("SHORT");
}

__attribute__((destructor)) static void end(void) {
    const char *path = getenv("COUNTS");
    char line[100];
    if (!path)
        return;
    int file = (int)syscall(SYS_openat, AT_FDCWD, path, O_WRONLY | O_CREAT | O_TRUNC, 0600);
    int length = snprintf(line, sizeof line, "%ld %ld %ld %ld\n", calls[0], calls[1], calls[2], calls[3]);
    if (file < 0 || syscall(SYS_write, file, line, (size_t)length) != length)
        abort();
    syscall(SYS_close, file);
}

static int fails(enum kind kind) { return ++calls[kind] == failing[kind]; }

static ssize_t failed(int error) {
    errno = error;
    return -1;
}

void *malloc(size_t size) { return fails(ALLOCATION) ? NULL : __libc_malloc(size); }

void *realloc(void *old, size_t size) { return fails(ALLOCATION) ? NULL : __libc_realloc(old, size); }

int open(const char *path, int flags, ...) {
    va_list more;
    va_start(more, flags);
    int mode = flags & O_CREAT ? va_arg(more, int) : 0;
    va_end(more);
    return fails(OPEN) ? (int)failed(EIO) : (int)syscall(SYS_openat, AT_FDCWD, path, flags, mode);
}

ssize_t read(int file, void *to, size_t size) {
    return fails(READ) ? failed(EIO) : syscall(SYS_read, file, to, size < most ? size : most);
}

ssize_t write(int file, const void *from, size_t size) {
    return fails(WRITE) ? failed(ENOSPC) : syscall(SYS_write, file, from, size < most ? size : most);
}
