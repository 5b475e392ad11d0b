/* Refuses one call of a program, for `refused_calls.py`. It is loaded before the C library (LD_PRELOAD).
 *
 * REFUSE is the kind of the call, a colon and its number among the calls of its kind, counted from 1. The
 * kinds: `alloc` gives no memory; `alloc-from` gives none from that call on; `open`, `read` and `write`
 * fail; `short-read` and `short-write` move one byte where more were asked for, and count those calls alone.
 * Where the call came, the file that REFUSED names is made, with the number of the call's descriptor in it.
 *
 * `alloc-each:1` does for all allocations of a run at once what `alloc` does for one: at each, a copy of the process
 * is made (fork), which gets no memory there and runs to its end, and then the process itself goes on with memory. Of
 * each copy the file that REFUSED names gets a line with its status, a signal's number below 0, and the length of what
 * follows: the first bytes that it wrote on standard error. So a test of 200,000 allocations takes minutes, not hours.
 */
#define _GNU_SOURCE
#include <errno.h>
#include <fcntl.h>
#include <stdarg.h>
#include <stdio.h>
#include <stdlib.h>
#include <string.h>
#include <sys/mman.h>
#include <sys/syscall.h>
#include <sys/wait.h>
#include <unistd.h>

extern void *__libc_malloc(size_t size);
extern void *__libc_realloc(void *old, size_t size);

/* Whether this is the call to refuse. */
static int is_refused(const char *kind, int descriptor)
{
    static long calls;
    const char *refuse = getenv("REFUSE"), *mark = getenv("REFUSED");
    size_t length = strlen(kind);
    if (!refuse || !mark || strncmp(refuse, kind, length) || refuse[length] != ':')
        return 0;
    long number = atol(refuse + length + 1);
    ++calls;
    if (calls < number || (calls > number && strcmp(kind, "alloc-from")))
        return 0;
    char digit = (char)('0' + descriptor);
    long made = syscall(SYS_openat, AT_FDCWD, mark, O_WRONLY | O_CREAT, 0600);
    syscall(SYS_write, made, &digit, 1);
    syscall(SYS_close, made);
    return 1;
}

static long failed(int error)
{
    errno = error;
    return -1;
}

/* Writes down how a copy ended. */
static void tell_copy(int status, int errors)
{
    char line[64], said[200];
    int ended = WIFSIGNALED(status) ? -WTERMSIG(status) : WEXITSTATUS(status);
    long length = syscall(SYS_pread64, errors, said, sizeof said, 0L);
    int marks = snprintf(line, sizeof line, "%d %ld\n", ended, length);
    long told = syscall(SYS_openat, AT_FDCWD, getenv("REFUSED"), O_WRONLY | O_CREAT | O_APPEND, 0600);
    syscall(SYS_write, told, line, (long)marks);
    syscall(SYS_write, told, said, length);
    syscall(SYS_close, told);
}

/* Whether this process is a copy, and the allocation the one that is refused to it. */
static int is_refused_to_a_copy(void)
{
    static int is_copy, errors = -1;
    const char *refuse = getenv("REFUSE");
    if (is_copy || !refuse || strncmp(refuse, "alloc-each:", 11) || !getenv("REFUSED"))
        return 0;
    if (errors < 0)
        errors = memfd_create("errors", 0);
    if (ftruncate(errors, 0) || lseek(errors, 0, SEEK_SET))
        abort();
    pid_t copy = fork();
    if (copy < 0)
        abort();
    if (copy == 0) {
        is_copy = 1;
        long nowhere = syscall(SYS_openat, AT_FDCWD, "/dev/null", O_WRONLY);
        dup2((int)nowhere, 1);
        dup2(errors, 2);
        alarm(120);
        return 1;
    }
    int status;
    while (waitpid(copy, &status, 0) < 0)
        if (errno != EINTR)
            abort();
    tell_copy(status, errors);
    return 0;
}

static int is_memory_refused(void)
{
    int is_so = is_refused("alloc", 0) || is_refused("alloc-from", 0) || is_refused_to_a_copy();
    if (is_so)
        errno = ENOMEM;
    return is_so;
}

void *malloc(size_t size)
{
    return is_memory_refused() ? NULL : __libc_malloc(size);
}

void *realloc(void *old, size_t size)
{
    return is_memory_refused() ? NULL : __libc_realloc(old, size);
}

int open(const char *path, int flags, ...)
{
    va_list rest;
    va_start(rest, flags);
    mode_t mode = va_arg(rest, mode_t);
    va_end(rest);
    if (is_refused("open", 0))
        return (int)failed(EMFILE);
    return (int)syscall(SYS_openat, AT_FDCWD, path, flags, mode);
}

ssize_t read(int from, void *to, size_t size)
{
    if (is_refused("read", from))
        return failed(EIO);
    if (size > 1 && is_refused("short-read", from))
        size = 1;
    return syscall(SYS_read, from, to, size);
}

ssize_t write(int to, const void *from, size_t size)
{
    if (is_refused("write", to))
        return failed(EIO);
    if (size > 1 && is_refused("short-write", to))
        size = 1;
    return syscall(SYS_write, to, from, size);
}

ssize_t __write(int to, const void *from, size_t size)
{
    return write(to, from, size);
}
