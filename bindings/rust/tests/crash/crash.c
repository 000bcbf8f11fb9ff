/*
 * Loaded before the C library (LD_PRELOAD): writes down the calls of a process that change files,
 * and kills it at one of them.
 *
 *   CRASH_TRACE  a file to which each call is added, one a line
 *   CRASH_AT     the number of the call, from 1, at which the process is killed: before it is made
 *   CRASH_HALF   if it is set and the call writes, half of the bytes are written first
 *   CRASH_STOP   if it is set the process is stopped and not killed: it can be told to go on
 */
#define _GNU_SOURCE
#include <fcntl.h>
#include <signal.h>
#include <stdarg.h>
#include <stdio.h>
#include <stdlib.h>
#include <string.h>
#include <sys/syscall.h>
#include <unistd.h>

static long calls;

static const char *last_name(const char *path)
{
    const char *slash = strrchr(path, '/');
    return slash == NULL ? path : slash + 1;
}

static void trace(const char *call, const char *name, const char *second)
{
    const char *path = getenv("CRASH_TRACE");
    char line[600];
    int length, file;
    if (path == NULL)
        return;
    length = snprintf(line, sizeof(line), "%s %s%s%s\n", call, last_name(name), *second ? " " : "",
                      last_name(second));
    file = (int)syscall(SYS_openat, AT_FDCWD, path, O_WRONLY | O_CREAT | O_APPEND, 0666);
    syscall(SYS_write, file, line, length);
    syscall(SYS_close, file);
}

/* Counts a call, and says whether the process is to end with it. */
static int is_the_last(const char *call, const char *name, const char *second)
{
    const char *at = getenv("CRASH_AT");
    trace(call, name, second);
    calls++;
    return at != NULL && calls == atol(at);
}

static void end(void)
{
    if (getenv("CRASH_STOP") != NULL) {
        syscall(SYS_kill, getpid(), SIGSTOP);
        return;
    }
    syscall(SYS_kill, getpid(), SIGKILL);
    for (;;)
        pause();
}

/* The name of an open file, in static memory. */
static const char *name_of(int file)
{
    static char name[400];
    char link[64];
    ssize_t length;
    snprintf(link, sizeof(link), "/proc/self/fd/%d", file);
    length = readlink(link, name, sizeof(name) - 1);
    name[length < 0 ? 0 : length] = '\0';
    return name;
}

static int open_any(const char *path, int flags, mode_t mode)
{
    if ((flags & O_CREAT) && is_the_last("create", path, ""))
        end();
    return (int)syscall(SYS_openat, AT_FDCWD, path, flags, mode);
}

int open(const char *path, int flags, ...)
{
    va_list rest;
    mode_t mode;
    va_start(rest, flags);
    mode = va_arg(rest, mode_t);
    va_end(rest);
    return open_any(path, flags, mode);
}

int open64(const char *path, int flags, ...)
{
    va_list rest;
    mode_t mode;
    va_start(rest, flags);
    mode = va_arg(rest, mode_t);
    va_end(rest);
    return open_any(path, flags, mode);
}

ssize_t write(int file, const void *bytes, size_t length)
{
    if (is_the_last("write", file == STDOUT_FILENO ? "stdout" : name_of(file), "")) {
        if (getenv("CRASH_HALF") != NULL)
            syscall(SYS_write, file, bytes, length / 2);
        end(); /* not with both: the half would be written twice */
    }
    return syscall(SYS_write, file, bytes, length);
}

int fsync(int file)
{
    if (is_the_last("fsync", name_of(file), ""))
        end();
    return (int)syscall(SYS_fsync, file);
}

int fdatasync(int file)
{
    if (is_the_last("fdatasync", name_of(file), ""))
        end();
    return (int)syscall(SYS_fdatasync, file);
}

int ftruncate64(int file, off64_t length)
{
    if (is_the_last("truncate", name_of(file), ""))
        end();
    return (int)syscall(SYS_ftruncate, file, length);
}

int rename(const char *from, const char *to)
{
    if (is_the_last("rename", from, to))
        end();
    return (int)syscall(SYS_rename, from, to);
}

int unlink(const char *path)
{
    if (is_the_last("unlink", path, ""))
        end();
    return (int)syscall(SYS_unlink, path);
}
