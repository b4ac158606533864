/* Makes calls of the system fail in a program that this is loaded before: those on files and on what is open, but for standard error.
   Calls are counted from 1. FAIL_AT names one that fails, with the error of the number in FAIL_WITH, and FAIL_TOO a later one that fails
   as well; where FAIL_ON is set, all after it fail; where STOP is set, the process ends there at once. Where PIECE is set, a call reads or writes so many bytes at most. Into
   the file that CALLS_TO names goes a line for each call: its name, and a path or the number of what is open. tests/failing uses it. */
#define _GNU_SOURCE
#include <dlfcn.h>
#include <errno.h>
#include <fcntl.h>
#include <stdarg.h>
#include <stdio.h>
#include <stdlib.h>
#include <string.h>
#include <sys/stat.h>
#include <sys/syscall.h>
#include <sys/types.h>
#include <unistd.h>

static long count;
static int log_to = -2; /* what is open for the lines; -1 where none are wanted */

static long number_in(const char *name, long otherwise)
{
    const char *said = getenv(name);
    return said ? atol(said) : otherwise;
}

static void note(const char *call, const char *path, int open)
{
    char line[4200];
    if (log_to == -2) {
        const char *name = getenv("CALLS_TO");
        log_to = name ? (int)syscall(SYS_openat, AT_FDCWD, name, O_WRONLY | O_CREAT | O_TRUNC | O_CLOEXEC, 0666) : -1;
    }
    if (log_to >= 0) {
        int length = path ? snprintf(line, sizeof line, "%s %s\n", call, path) : snprintf(line, sizeof line, "%s %d\n", call, open);
        (void)!syscall(SYS_write, log_to, line, (size_t)length);
    }
}

/* Whether the next call fails. */
static int fails(const char *call, const char *path, int open)
{
    long at = number_in("FAIL_AT", 0);
    count++;
    note(call, path, open);
    if (at == 0 || count < at || (count > at && count != number_in("FAIL_TOO", 0) && !getenv("FAIL_ON")))
        return 0;
    if (getenv("STOP"))
        syscall(SYS_exit_group, 99);
    errno = (int)number_in("FAIL_WITH", EIO);
    return 1;
}

static size_t piece(size_t size)
{
    size_t most = (size_t)number_in("PIECE", 0);
    return most && size > most ? most : size;
}

static int opened(const char *path, int flags, unsigned mode)
{
    const char *call = (flags & O_ACCMODE) == O_RDONLY ? "open-to-read" : flags & O_CREAT ? "open-new" : "open-to-write";
    return fails(call, path, -1) ? -1 : (int)syscall(SYS_openat, AT_FDCWD, path, flags, mode);
}

static unsigned mode_after(int flags, va_list rest) { return flags & O_CREAT ? va_arg(rest, unsigned) : 0; }

int open(const char *path, int flags, ...)
{
    va_list rest;
    va_start(rest, flags);
    unsigned mode = mode_after(flags, rest);
    va_end(rest);
    return opened(path, flags, mode);
}

int open64(const char *path, int flags, ...)
{
    va_list rest;
    va_start(rest, flags);
    unsigned mode = mode_after(flags, rest);
    va_end(rest);
    return opened(path, flags, mode);
}

ssize_t read(int from, void *bytes, size_t size)
{
    return fails("read", NULL, from) ? -1 : syscall(SYS_read, from, bytes, piece(size));
}

ssize_t write(int into, const void *bytes, size_t size)
{
    if (into == 2)
        return syscall(SYS_write, into, bytes, size);
    return fails("write", NULL, into) ? -1 : syscall(SYS_write, into, bytes, piece(size));
}

int statx(int folder, const char *restrict path, int flags, unsigned mask, struct statx *restrict into)
{
    return fails("statx", path, -1) ? -1 : (int)syscall(SYS_statx, folder, path, flags, mask, into);
}

char *realpath(const char *restrict path, char *restrict into)
{
    static char *(*found)(const char *, char *);
    if (!found)
        *(void **)&found = dlsym(RTLD_NEXT, "realpath");
    return fails("realpath", path, -1) ? NULL : found(path, into);
}

int fsync(int open) { return fails("fsync", NULL, open) ? -1 : (int)syscall(SYS_fsync, open); }

int fchmod(int open, mode_t mode) { return fails("fchmod", NULL, open) ? -1 : (int)syscall(SYS_fchmod, open, mode); }

int rename(const char *from, const char *to)
{
    return fails("rename", to, -1) ? -1 : (int)syscall(SYS_renameat2, AT_FDCWD, from, AT_FDCWD, to, 0);
}

int unlink(const char *path) { return fails("unlink", path, -1) ? -1 : (int)syscall(SYS_unlinkat, AT_FDCWD, path, 0); }

int close(int open) { return fails("close", NULL, open) ? -1 : (int)syscall(SYS_close, open); }
