// Loaded into a program (LD_PRELOAD), this refuses one of its calls: FAULT_KIND tells of which kind, FAULT_NUMBER
// which of them, counted from 1. At the end it writes how many calls of each kind there were to FAULT_COUNTS.
//
// `allocation`: the call gives no memory. `call`: an opening, a read, a write or a sync fails. `short`: a read or a
// write of several bytes moves one.
#define _GNU_SOURCE
#include <errno.h>
#include <fcntl.h>
#include <stdarg.h>
#include <stdio.h>
#include <stdlib.h>
#include <string.h>
#include <sys/syscall.h>
#include <unistd.h>

extern void *__libc_malloc(size_t);
extern void *__libc_calloc(size_t, size_t);
extern void *__libc_realloc(void *, size_t);
extern void *__libc_memalign(size_t, size_t);

static long allocations, calls, shorts, number;
static char kind, counts[4096];

__attribute__((constructor)) static void begin(void) {
    const char *told = getenv("FAULT_KIND"), *which = getenv("FAULT_NUMBER"), *path = getenv("FAULT_COUNTS");
    kind = told ? told[0] : 0;
    number = which ? atol(which) : 0;
    snprintf(counts, sizeof counts, "%s", path ? path : "");
    allocations = calls = shorts = 0;
}

__attribute__((destructor)) static void end(void) {
    char line[128];
    int length = snprintf(line, sizeof line, "%ld %ld %ld\n", allocations, calls, shorts);
    int file = (int)syscall(SYS_openat, AT_FDCWD, counts, O_WRONLY | O_CREAT | O_TRUNC, 0600);
    if (file >= 0) {
        syscall(SYS_write, file, line, length);
        syscall(SYS_close, file);
    }
}

static int is_refused(char which, long *count) { return ++*count == number && kind == which; }

void *malloc(size_t size) { return is_refused('a', &allocations) ? NULL : __libc_malloc(size); }
void *calloc(size_t n, size_t size) { return is_refused('a', &allocations) ? NULL : __libc_calloc(n, size); }
void *realloc(void *old, size_t size) { return is_refused('a', &allocations) ? NULL : __libc_realloc(old, size); }
void *memalign(size_t to, size_t size) { return is_refused('a', &allocations) ? NULL : __libc_memalign(to, size); }
void *aligned_alloc(size_t to, size_t size) { return memalign(to, size); }

int posix_memalign(void **place, size_t to, size_t size) {
    void *got = memalign(to, size);
    if (!got) return ENOMEM;
    *place = got;
    return 0;
}

static int fails(void) {
    if (!is_refused('c', &calls)) return 0;
    errno = EIO;
    return 1;
}

static size_t moved(size_t size) { return size > 1 && is_refused('s', &shorts) ? 1 : size; }

ssize_t read(int file, void *into, size_t size) {
    if (fails()) return -1;
    return syscall(SYS_read, file, into, moved(size));
}

ssize_t write(int file, const void *from, size_t size) {
    if (fails()) return -1;
    return syscall(SYS_write, file, from, moved(size));
}

ssize_t __write(int file, const void *from, size_t size) { return write(file, from, size); }
ssize_t __read(int file, void *into, size_t size) { return read(file, into, size); }

int fsync(int file) { return fails() ? -1 : (int)syscall(SYS_fsync, file); }
int fdatasync(int file) { return fails() ? -1 : (int)syscall(SYS_fdatasync, file); }

static int opened(int folder, const char *path, int flags, int mode) {
    return fails() ? -1 : (int)syscall(SYS_openat, folder, path, flags, mode);
}

#define OPENED(folder)                  \
    va_list rest;                       \
    va_start(rest, flags);              \
    int mode = va_arg(rest, int);       \
    va_end(rest);                       \
    return opened(folder, path, flags, mode)

int open(const char *path, int flags, ...) { OPENED(AT_FDCWD); }
int open64(const char *path, int flags, ...) { OPENED(AT_FDCWD); }
int openat(int folder, const char *path, int flags, ...) { OPENED(folder); }
int openat64(int folder, const char *path, int flags, ...) { OPENED(folder); }
