/* Refuses calls of a program, to see what it makes of that. For LD_PRELOAD, as hostile.py does it.
 *
 * REFUSE has the name of a kind of call and a number from 1, as in memory:17: this call fails. With a plus sign behind
 * it, those after it fail too. The kinds are memory (malloc, calloc and realloc), thread, open, read and write. With
 * REFUSE=short each read and each write takes one byte at most. At its end the program says on standard error how many
 * calls of each kind there were.
 */
#define _GNU_SOURCE
#include <errno.h>
#include <fcntl.h>
#include <pthread.h>
#include <stdarg.h>
#include <stdio.h>
#include <stdlib.h>
#include <string.h>
#include <sys/syscall.h>
#include <sys/uio.h>
#include <threads.h>
#include <dlfcn.h>
#include <unistd.h>

enum { MEMORY, THREAD, OPEN, READ, WRITE, KINDS };
static const char *const names[KINDS] = {"memory", "thread", "open", "read", "write"};
static const int errors[KINDS] = {ENOMEM, EAGAIN, EIO, EIO, ENOSPC};
static unsigned long counts[KINDS], refused;
static int is_on, is_short, goes_on, kind = KINDS;

extern void *__libc_malloc(size_t), *__libc_calloc(size_t, size_t), *__libc_realloc(void *, size_t);

__attribute__((constructor)) static void begin(void) {
    const char *words = getenv("REFUSE");
    is_on = 1;
    if (!words)
        return;
    is_short = !strcmp(words, "short");
    for (int k = 0; k < KINDS; k++) {
        size_t size = strlen(names[k]);
        if (!strncmp(words, names[k], size) && words[size] == ':') {
            char *end;
            kind = k;
            refused = strtoul(words + size + 1, &end, 10);
            goes_on = *end == '+';
        }
    }
}

__attribute__((destructor)) static void end(void) {
    if (!is_on)
        return;
    is_on = 0;
    for (int k = 0; k < KINDS; k++)
        dprintf(2, "%s %lu\n", names[k], counts[k]);
}

static int fails(int k) {
    if (!is_on)
        return 0;
    unsigned long number = __atomic_add_fetch(&counts[k], 1, __ATOMIC_RELAXED);
    if (k != kind || (goes_on ? number < refused : number != refused))
        return 0;
    errno = errors[k];
    return 1;
}

/* A program may end by this, without what is to be done at its end. */
void _exit(int status) {
    end();
    for (;;)
        syscall(SYS_exit_group, status);
}

void *malloc(size_t n) { return fails(MEMORY) ? NULL : __libc_malloc(n); }

void *calloc(size_t n, size_t size) { return fails(MEMORY) ? NULL : __libc_calloc(n, size); }

void *realloc(void *block, size_t n) { return fails(MEMORY) ? NULL : __libc_realloc(block, n); }

int pthread_create(pthread_t *thread, const pthread_attr_t *how, void *(*work)(void *), void *given) {
    static int (*make)(pthread_t *, const pthread_attr_t *, void *(*)(void *), void *);
    if (!make)
        make = dlsym(RTLD_NEXT, "pthread_create");
    return fails(THREAD) ? EAGAIN : make(thread, how, work, given);
}

int thrd_create(thrd_t *thread, thrd_start_t work, void *given) {
    static int (*make)(thrd_t *, thrd_start_t, void *);
    if (!make)
        make = dlsym(RTLD_NEXT, "thrd_create");
    return fails(THREAD) ? thrd_error : make(thread, work, given);
}

static int open_with(const char *path, int flags, va_list rest) {
    mode_t mode = flags & O_CREAT ? va_arg(rest, mode_t) : 0;
    return fails(OPEN) ? -1 : (int)syscall(SYS_openat, AT_FDCWD, path, flags, mode);
}

int open(const char *path, int flags, ...) {
    va_list rest;
    va_start(rest, flags);
    int fd = open_with(path, flags, rest);
    va_end(rest);
    return fd;
}

int open64(const char *path, int flags, ...) {
    va_list rest;
    va_start(rest, flags);
    int fd = open_with(path, flags, rest);
    va_end(rest);
    return fd;
}

static size_t part(size_t n) { return is_short && n > 1 ? 1 : n; }

ssize_t read(int fd, void *into, size_t n) { return fails(READ) ? -1 : syscall(SYS_read, fd, into, part(n)); }

ssize_t write(int fd, const void *from, size_t n) { return fails(WRITE) ? -1 : syscall(SYS_write, fd, from, part(n)); }

ssize_t writev(int fd, const struct iovec *parts, int count) {
    return fails(WRITE) ? -1 : syscall(SYS_writev, fd, parts, count);
}
