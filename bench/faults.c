/* Loaded before the C library by faults.sh: makes one call of a program fail.
 *
 * FAULT names the calls that are counted, FAULT_AT the one that fails, from 1; with 0 none fails. FAULT_TAKEN is how
 * many bytes a read or a write may still move: with 0, or at the end of a file, the call itself fails, else the next
 * one does. As the program ends, the count is written to descriptor 9. Where calls are made by several threads their
 * order, and so the one that fails, may differ from run to run.
 *
 *     alloc   malloc and realloc answer that there is no memory
 *     open    a file is not opened: input or output error
 *     read    likewise a read
 *     write   likewise a write
 */
#define _GNU_SOURCE
#include <errno.h>
#include <fcntl.h>
#include <stdarg.h>
#include <stdio.h>
#include <stdlib.h>
#include <string.h>
#include <sys/syscall.h>
#include <unistd.h>

extern void *__libc_malloc(size_t size);
extern void *__libc_realloc(void *block, size_t size);

static const char *kind = "";
static long at, taken, count;
static int on, next_fails;

__attribute__((constructor)) static void begin(void)
{
    const char *text = getenv("FAULT");
    if (!text)
        return;
    kind = text;
    text = getenv("FAULT_AT");
    at = text ? atol(text) : 0;
    text = getenv("FAULT_TAKEN");
    taken = text ? atol(text) : 0;
    on = 1;
}

__attribute__((destructor)) static void end(void)
{
    char line[32];
    if (!on)
        return;
    on = 0;
    syscall(SYS_write, 9, line, snprintf(line, sizeof line, "%ld\n", count));
}

/* A program with threads ends by this call, and runs no destructor. */
void _exit(int status)
{
    end();
    for (;;)
        syscall(SYS_exit_group, status);
}

/* Whether this call is of the kind that is counted. */
static int counts(const char *name)
{
    return on && !strcmp(kind, name);
}

void *malloc(size_t size)
{
    if (counts("alloc") && __atomic_add_fetch(&count, 1, __ATOMIC_SEQ_CST) == at) {
        errno = ENOMEM;
        return NULL;
    }
    return __libc_malloc(size);
}

void *realloc(void *block, size_t size)
{
    if (counts("alloc") && __atomic_add_fetch(&count, 1, __ATOMIC_SEQ_CST) == at) {
        errno = ENOMEM;
        return NULL;
    }
    return __libc_realloc(block, size);
}

/* How many bytes of so many a read or a write may move; -1 where it is to fail. */
static long moves(const char *name, size_t size)
{
    if (!counts(name))
        return size;
    if (next_fails) {
        next_fails = 0;
        return -1;
    }
    if (++count != at)
        return size;
    if (!taken)
        return -1;
    next_fails = 1;
    return size < (size_t)taken ? (long)size : taken;
}

ssize_t read(int from, void *to, size_t size)
{
    long some = moves("read", size);
    if (some < 0) {
        errno = EIO;
        return -1;
    }
    some = syscall(SYS_read, from, to, some);
    if (some || !next_fails)
        return some;
    next_fails = 0;
    errno = EIO;
    return -1;
}

ssize_t write(int to, const void *from, size_t size)
{
    long some = moves("write", size);
    if (some < 0) {
        errno = EIO;
        return -1;
    }
    return syscall(SYS_write, to, from, some);
}

int open(const char *name, int flags, ...)
{
    va_list more;
    va_start(more, flags);
    mode_t mode = va_arg(more, mode_t);
    va_end(more);
    if (counts("open") && ++count == at) {
        errno = EIO;
        return -1;
    }
    return syscall(SYS_openat, AT_FDCWD, name, flags, mode);
}

int openat(int folder, const char *name, int flags, ...)
{
    va_list more;
    va_start(more, flags);
    mode_t mode = va_arg(more, mode_t);
    va_end(more);
    if (counts("open") && ++count == at) {
        errno = EIO;
        return -1;
    }
    return syscall(SYS_openat, folder, name, flags, mode);
}
