// Makes one call of a program fail. It is loaded before the C library (LD_PRELOAD), and FAILING says which call:
// `KIND:N`, the Nth call of a kind, from 1.
//
//   alloc        malloc, calloc or realloc finds no memory
//   open         a file can't be opened
//   seek, read   EIO
//   write        ENOSPC
//   short-read   a read of several octets gives one; short-write, a write of several writes one
//
// If FAILING_COUNTS names a file, it gets a line for each kind at the end, with the number of its calls.
#define _GNU_SOURCE
#include <errno.h>
#include <fcntl.h>
#include <stdarg.h>
#include <stdio.h>
#include <stdlib.h>
#include <string.h>
#include <sys/syscall.h>
#include <sys/types.h>
#include <unistd.h>

enum kind { ALLOC, OPEN, SEEK, READ, WRITE, SHORT_READ, SHORT_WRITE, KINDS };

static const char *const names[KINDS] = {"alloc", "open", "seek", "read", "write", "short-read", "short-write"};
static unsigned long calls[KINDS];
static enum kind failing = KINDS;
static unsigned long failing_call;

// The C library's own functions, which have other names there.
extern void *__libc_malloc(size_t);
extern void *__libc_calloc(size_t, size_t);
extern void *__libc_realloc(void *, size_t);

__attribute__((constructor)) static void begin(void) {
    const char *wanted = getenv("FAILING");
    const char *colon = wanted ? strchr(wanted, ':') : NULL;
    for (int kind = 0; colon && kind < KINDS; kind++) {
        if (strlen(names[kind]) == (size_t)(colon - wanted) && !strncmp(names[kind], wanted, colon - wanted)) {
            failing = kind;
            failing_call = strtoul(colon + 1, NULL, 10);
        }
    }
    memset(calls, 0, sizeof calls);
}

__attribute__((destructor)) static void end(void) {
    const char *name = getenv("FAILING_COUNTS");
    char text[256];
    int length = 0;
    for (int kind = 0; kind < KINDS; kind++)
        length += snprintf(text + length, sizeof text - length, "%s %lu\n", names[kind], calls[kind]);
    int file = name ? syscall(SYS_openat, AT_FDCWD, name, O_WRONLY | O_CREAT | O_TRUNC, 0600) : -1;
    if (file >= 0) {
        syscall(SYS_write, file, text, length);
        syscall(SYS_close, file);
    }
}

// Counts a call, and says whether it is the one that fails.
static int fails(enum kind kind) {
    calls[kind]++;
    return kind == failing && calls[kind] == failing_call;
}

void *malloc(size_t size) {
    return fails(ALLOC) ? errno = ENOMEM, NULL : __libc_malloc(size);
}

void *calloc(size_t count, size_t size) {
    return fails(ALLOC) ? errno = ENOMEM, NULL : __libc_calloc(count, size);
}

void *realloc(void *old, size_t size) {
    return fails(ALLOC) ? errno = ENOMEM, NULL : __libc_realloc(old, size);
}

int openat(int folder, const char *name, int flags, ...) {
    va_list rest;
    va_start(rest, flags);
    int mode = va_arg(rest, int);
    va_end(rest);
    return fails(OPEN) ? errno = EIO, -1 : syscall(SYS_openat, folder, name, flags, mode);
}

int open(const char *name, int flags, ...) {
    va_list rest;
    va_start(rest, flags);
    int mode = va_arg(rest, int);
    va_end(rest);
    return openat(AT_FDCWD, name, flags, mode);
}

int open64(const char *name, int flags, ...) __attribute__((alias("open")));
int openat64(int folder, const char *name, int flags, ...) __attribute__((alias("openat")));

off_t lseek(int file, off_t offset, int whence) {
    return fails(SEEK) ? errno = EIO, -1 : syscall(SYS_lseek, file, offset, whence);
}

off64_t lseek64(int file, off64_t offset, int whence) __attribute__((alias("lseek")));

ssize_t read(int file, void *octets, size_t count) {
    if (fails(READ))
        return errno = EIO, -1;
    return syscall(SYS_read, file, octets, count > 1 && fails(SHORT_READ) ? 1 : count);
}

ssize_t pread(int file, void *octets, size_t count, off_t offset) {
    if (fails(READ))
        return errno = EIO, -1;
    return syscall(SYS_pread64, file, octets, count > 1 && fails(SHORT_READ) ? 1 : count, offset);
}

ssize_t pread64(int file, void *octets, size_t count, off64_t offset) __attribute__((alias("pread")));

ssize_t write(int file, const void *octets, size_t count) {
    if (fails(WRITE))
        return errno = ENOSPC, -1;
    return syscall(SYS_write, file, octets, count > 1 && fails(SHORT_WRITE) ? 1 : count);
}
