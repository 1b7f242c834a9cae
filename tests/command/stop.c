/*
 * Stops the command `boc` at a call of the C library, for tests/command. Preloaded (LD_PRELOAD), it counts the calls by
 * which the command touches files and processes, writes each with its file's name to the file STOP_LOG, and at the call
 * number STOP_AT, from 1, does as STOP_HOW says:
 *
 *   kill   ends the process by SIGKILL before the call
 *   half   lets a write put down half of its bytes, then kills; kills before any other call
 *   fail   has the call fail, with errno ENOSPC
 *   wrong  lets a write put down its bytes with one bit changed, and say that all is well
 */
#define _GNU_SOURCE
#include <dlfcn.h>
#include <errno.h>
#include <fcntl.h>
#include <signal.h>
#include <spawn.h>
#include <stdarg.h>
#include <stdio.h>
#include <stdlib.h>
#include <string.h>
#include <sys/file.h>
#include <sys/stat.h>
#include <sys/wait.h>
#include <unistd.h>

/* The function that a name has after this library. */
#define NEXT(name) ((__typeof__(name) *)after(#name))

static void *after(const char *name)
{
    void *function = dlsym(RTLD_NEXT, name);

    if (function == NULL)
        abort();
    return function;
}

static int how_is(const char *how)
{
    const char *value = getenv("STOP_HOW");

    return value != NULL && strcmp(value, how) == 0;
}

/* The name of an open file, without its folder. */
static const char *name_of(int file)
{
    static char path[4096];
    char link[64];
    ssize_t length;

    snprintf(link, sizeof link, "/proc/self/fd/%d", file);
    length = NEXT(readlink)(link, path, sizeof path - 1);
    path[length < 0 ? 0 : length] = '\0';
    return strrchr(path, '/') == NULL ? path : strrchr(path, '/') + 1;
}

/* Counts a call, and writes it down: whether it has to stop here. */
static int stops(const char *call, const char *name)
{
    static long calls;
    const char *at = getenv("STOP_AT");
    FILE *log;

    if (strcmp(program_invocation_short_name, "boc") != 0)
        return 0;
    calls++;
    log = getenv("STOP_LOG") == NULL ? NULL : fopen(getenv("STOP_LOG"), "a");
    if (log != NULL) {
        fprintf(log, "%s %s\n", call, name);
        fclose(log);
    }
    if (at == NULL || atol(at) != calls)
        return 0;
    if (how_is("kill") || (how_is("half") && strcmp(call, "write") != 0))
        raise(SIGKILL);
    errno = ENOSPC;
    return 1;
}

/* A call that fails with -1. */
#define STOPS(type, call, name, parameters, arguments)                                                                 \
    type call parameters                                                                                               \
    {                                                                                                                  \
        return stops(#call, name) ? (type)-1 : NEXT(call) arguments;                                                   \
    }

STOPS(int, fsync, name_of(file), (int file), (file))
STOPS(int, flock, name_of(file), (int file, int operation), (file, operation))
STOPS(int, fchmod, name_of(file), (int file, mode_t mode), (file, mode))
STOPS(int, fchown, name_of(file), (int file, uid_t owner, gid_t group), (file, owner, group))
STOPS(int, faccessat, name, (int folder, const char *name, int mode, int flags), (folder, name, mode, flags))
STOPS(int, renameat, to, (int a, const char *from, int b, const char *to), (a, from, b, to))
STOPS(int, unlinkat, name, (int folder, const char *name, int flags), (folder, name, flags))
STOPS(int, statx, name_of(folder), (int folder, const char *name, int flags, unsigned mask, struct statx *about),
      (folder, name, flags, mask, about))
STOPS(int, pipe2, "", (int ends[2], int flags), (ends, flags))
STOPS(off_t, lseek, name_of(file), (int file, off_t offset, int whence), (file, offset, whence))
STOPS(pid_t, waitpid, "", (pid_t child, int *status, int options), (child, status, options))
STOPS(ssize_t, read, name_of(file), (int file, void *bytes, size_t count), (file, bytes, count))
STOPS(ssize_t, readlink, name, (const char *name, char *bytes, size_t count), (name, bytes, count))

/* Writes bytes, the middle one with a bit changed. */
static ssize_t write_wrong(int file, const void *bytes, size_t count)
{
    char changed[1 << 17];

    if (count == 0 || count > sizeof changed)
        abort();
    memcpy(changed, bytes, count);
    changed[count / 2] ^= 1;
    return NEXT(write)(file, changed, count);
}

ssize_t write(int file, const void *bytes, size_t count)
{
    if (!stops("write", name_of(file)))
        return NEXT(write)(file, bytes, count);
    if (how_is("wrong"))
        return write_wrong(file, bytes, count);
    if (how_is("half") && NEXT(write)(file, bytes, count / 2) >= 0)
        raise(SIGKILL);
    errno = ENOSPC;
    return -1;
}

int close(int file)
{
    int stopped = stops("close", name_of(file)), result = NEXT(close)(file);

    if (!stopped)
        return result;
    errno = ENOSPC;
    return -1;
}

int openat(int folder, const char *name, int flags, ...)
{
    mode_t mode = 0;
    va_list rest;

    va_start(rest, flags);
    if (flags & O_CREAT)
        mode = va_arg(rest, mode_t);
    va_end(rest);
    return stops("openat", name) ? -1 : NEXT(openat)(folder, name, flags, mode);
}

int open(const char *name, int flags, ...)
{
    return stops("open", name) ? -1 : NEXT(open)(name, flags);
}

char *realpath(const char *name, char *resolved)
{
    return stops("realpath", name) ? NULL : NEXT(realpath)(name, resolved);
}

int posix_fadvise(int file, off_t offset, off_t length, int advice)
{
    return stops("posix_fadvise", name_of(file)) ? ENOSPC : NEXT(posix_fadvise)(file, offset, length, advice);
}

int posix_spawnp(pid_t *child, const char *name, const posix_spawn_file_actions_t *actions,
                 const posix_spawnattr_t *attributes, char *const words[], char *const environment[])
{
    return stops("posix_spawnp", name) ? ENOSPC
                                       : NEXT(posix_spawnp)(child, name, actions, attributes, words, environment);
}
