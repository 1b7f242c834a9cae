/*
 * The hash beside an archive, as sha256sum of the coreutils writes and checks it. A hash cannot be replaced in one step
 * with its archive. So NAME.sha256.new, with the hash of what will be the archive, is on the disk before the archive is
 * replaced, and becomes NAME.sha256 after: at any time one of the two is the archive's.
 */
#define _GNU_SOURCE
#include <errno.h>
#include <fcntl.h>
#include <spawn.h>
#include <string.h>
#include <sys/wait.h>
#include <unistd.h>

#include "command.h"

extern char **environ;

enum { DIGITS = HASH - 1 };

/* The hash at the front of a line of sha256sum. */
static bool hash_from(const char *line, size_t length, char hash[HASH])
{
    if (length <= DIGITS || line[DIGITS] != ' ')
        return false;
    memcpy(hash, line, DIGITS);
    hash[DIGITS] = '\0';
    return strspn(hash, "0123456789abcdef") == DIGITS;
}

/*
 * Starts sha256sum with a file as its input and the end of a pipe as its output. It has nothing else open, and not the
 * lock: that is free as soon as this process has ended.
 */
static bool start(int file, int out, pid_t *child)
{
    static char name[] = "sha256sum";
    static char *const words[] = {name, NULL};
    posix_spawn_file_actions_t actions;
    int error = posix_spawn_file_actions_init(&actions);

    if (error == 0) {
        error = posix_spawn_file_actions_adddup2(&actions, file, STDIN_FILENO);
        if (error == 0)
            error = posix_spawn_file_actions_adddup2(&actions, out, STDOUT_FILENO);
        if (error == 0)
            error = posix_spawn_file_actions_addclosefrom_np(&actions, STDERR_FILENO + 1);
        if (error == 0)
            error = posix_spawnp(child, name, &actions, NULL, words, environ);
        posix_spawn_file_actions_destroy(&actions);
    }
    errno = error;
    return error == 0;
}

/* Reads what comes, up to what a buffer has room for. */
static size_t read_some(int file, char *text, size_t room)
{
    size_t length = 0;
    ssize_t count;

    while (length < room && (count = read(file, text + length, room - length)) > 0)
        length += (size_t)count;
    return length;
}

bool hash_of(int file, char hash[HASH])
{
    char line[DIGITS + 8];
    size_t length = 0;
    int ends[2], result = 0;
    pid_t child;
    bool started;

    if (lseek(file, 0, SEEK_SET) != 0 || pipe2(ends, O_CLOEXEC) != 0) {
        complain_of("sha256sum", "cannot be run");
        return false;
    }
    started = start(file, ends[1], &child);
    if (!started)
        complain_of("sha256sum", "cannot be run");
    close(ends[1]);
    if (started)
        length = read_some(ends[0], line, sizeof line);
    close(ends[0]);
    if (!started)
        return false;
    if (waitpid(child, &result, 0) == child && result == 0 && hash_from(line, length, hash))
        return true;
    complain("sha256sum: gave no hash");
    return false;
}

enum beside { ABSENT, READ, UNREADABLE };

/* The hash in a file beside the archive. */
static enum beside hash_in(const struct site *site, const char *name, char hash[HASH])
{
    char line[DIGITS + 8];
    size_t length;
    int file = openat(site->folder, name, O_RDONLY | O_NONBLOCK | O_CLOEXEC);

    if (file < 0)
        return errno == ENOENT ? ABSENT : UNREADABLE;
    length = read_some(file, line, sizeof line);
    close(file);
    return hash_from(line, length, hash) ? READ : UNREADABLE;
}

bool hash_write(const struct site *site, const char hash[HASH])
{
    char line[HASH + 300], again[sizeof line];
    int length = snprintf(line, sizeof line, "%s  %s\n", hash, site->name), file;
    bool same;

    if (!site_write(site, site->next_hash, line, (size_t)length))
        return false;
    file = site_read(site, site->next_hash);
    if (file < 0)
        return false;
    same = read_some(file, again, sizeof again) == (size_t)length && memcmp(line, again, (size_t)length) == 0;
    close(file);
    if (!same)
        complain("%s: does not give back what was written", site->next_hash);
    return same;
}

/* NAME.sha256.new is read before NAME.sha256, which it may become at this moment. */
enum hash_state hash_state(const struct site *site, int file)
{
    char archive[HASH], next[HASH], hash[HASH];
    enum beside waiting = hash_in(site, site->next_hash, next), present = hash_in(site, site->hash, hash);

    if (waiting != READ && present == ABSENT)
        return HASH_NONE;
    if (!hash_of(file, archive))
        return HASH_UNKNOWN;
    if (present == READ && strcmp(hash, archive) == 0)
        return HASH_AGREES;
    if (waiting == READ && strcmp(next, archive) == 0)
        return HASH_WAITS;
    return present == ABSENT ? HASH_NONE : HASH_DIFFERS;
}
