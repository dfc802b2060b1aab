// A library for LD_PRELOAD that makes one call of a program fail, for tools/hostile. The environment says which:
// REFUSE_GROWTH=N the Nth call that asks for memory, REFUSE_CALL=N the Nth open, read or write, REFUSE_SYNC=N the Nth sync of a
// file or a folder, each counted from 1.
// REFUSE_SHORT=1 has each read and write move one byte. REFUSE_COUNTS=FILE gets the three counts when the program ends.
// A call that is to fail is asked of no other library, so the program sees what a full machine or a broken disk gives.
#define _GNU_SOURCE
#include <dlfcn.h>
#include <errno.h>
#include <fcntl.h>
#include <stdarg.h>
#include <stdio.h>
#include <stdlib.h>
#include <sys/syscall.h>
#include <unistd.h>

static unsigned long growths, calls, syncs, refused_growth, refused_call, refused_sync;
static int is_short, is_ready;
static const char *counts;

static unsigned long number_of(const char *name) {
    const char *text = getenv(name);
    return text ? strtoul(text, 0, 10) : 0;
}

// The count begins here, so what the loader and the C library ask for before isn't counted.
__attribute__((constructor)) static void begin(void) {
    refused_growth = number_of("REFUSE_GROWTH");
    refused_call = number_of("REFUSE_CALL");
    refused_sync = number_of("REFUSE_SYNC");
    is_short = number_of("REFUSE_SHORT") != 0;
    counts = getenv("REFUSE_COUNTS");
    is_ready = 1;
}

// A program that leaves by _exit runs no destructor, so that call is taken too.
__attribute__((destructor)) static void end(void) {
    is_ready = 0;
    if (counts) {
        char text[96];
        int length = snprintf(text, sizeof text, "%lu %lu %lu\n", growths, calls, syncs);
        int file = open(counts, O_WRONLY | O_CREAT | O_TRUNC, 0644);
        if (file >= 0 && write(file, text, length) == length)
            close(file);
    }
}

void _exit(int status) {
    if (is_ready)
        end();
    for (;;)
        syscall(SYS_exit_group, status);
}

static int is_refused(unsigned long *count, unsigned long refused) {
    return is_ready && __atomic_add_fetch(count, 1, __ATOMIC_RELAXED) == refused;
}

#define REAL(type, name, ...) ((type(*)(__VA_ARGS__))dlsym(RTLD_NEXT, #name))
#define NO_GROWTH(answer)                          \
    if (is_refused(&growths, refused_growth)) {    \
        errno = ENOMEM;                            \
        return answer;                             \
    }
#define NO_CALL                                \
    if (is_refused(&calls, refused_call)) {    \
        errno = EIO;                           \
        return -1;                             \
    }
#define NO_SYNC                                \
    if (is_refused(&syncs, refused_sync)) {    \
        errno = EIO;                           \
        return -1;                             \
    }

extern void *__libc_malloc(size_t), *__libc_calloc(size_t, size_t), *__libc_realloc(void *, size_t);
extern void *__libc_memalign(size_t, size_t);

void *malloc(size_t size) {
    NO_GROWTH(0)
    return __libc_malloc(size);
}

void *calloc(size_t count, size_t size) {
    NO_GROWTH(0)
    return __libc_calloc(count, size);
}

void *realloc(void *at, size_t size) {
    NO_GROWTH(0)
    return __libc_realloc(at, size);
}

void *aligned_alloc(size_t align, size_t size) {
    NO_GROWTH(0)
    return __libc_memalign(align, size);
}

int posix_memalign(void **at, size_t align, size_t size) {
    NO_GROWTH(ENOMEM)
    *at = __libc_memalign(align, size);
    return *at ? 0 : ENOMEM;
}

ssize_t read(int file, void *into, size_t size) {
    NO_CALL
    return REAL(ssize_t, read, int, void *, size_t)(file, into, is_short && size ? 1 : size);
}

ssize_t write(int file, const void *from, size_t size) {
    NO_CALL
    return REAL(ssize_t, write, int, const void *, size_t)(file, from, is_short && size ? 1 : size);
}

ssize_t __read(int file, void *into, size_t size) {
    return read(file, into, size);
}

ssize_t __write(int file, const void *from, size_t size) {
    return write(file, from, size);
}

int fsync(int file) {
    NO_SYNC
    return REAL(int, fsync, int)(file);
}

int fdatasync(int file) {
    NO_SYNC
    return REAL(int, fdatasync, int)(file);
}

static mode_t mode_of(int flags, va_list rest) {
    return flags & (O_CREAT | O_TMPFILE) ? va_arg(rest, mode_t) : 0;
}

int open(const char *name, int flags, ...) {
    NO_CALL
    va_list rest;
    va_start(rest, flags);
    mode_t mode = mode_of(flags, rest);
    va_end(rest);
    return REAL(int, open, const char *, int, ...)(name, flags, mode);
}

int openat(int folder, const char *name, int flags, ...) {
    NO_CALL
    va_list rest;
    va_start(rest, flags);
    mode_t mode = mode_of(flags, rest);
    va_end(rest);
    return REAL(int, openat, int, const char *, int, ...)(folder, name, flags, mode);
}
