/*
 * Files that are read, and the file that is replaced: what is to stand there is written beside it, flushed, and given
 * its name, so that at any time the file is the old one or the new one, whole.
 */
#define _GNU_SOURCE
#include <errno.h>
#include <fcntl.h>
#include <stdlib.h>
#include <string.h>
#include <sys/file.h>
#include <sys/stat.h>
#include <unistd.h>

#include "command.h"

bool read_bytes(int file, struct archive *archive)
{
    archive->length = 0;
    while (archive->length < sizeof archive->bytes) {
        ssize_t count = read(file, archive->bytes + archive->length, sizeof archive->bytes - archive->length);

        if (count < 0)
            return false;
        if (count == 0)
            break;
        archive->length += (size_t)count;
    }
    return true;
}

bool is_archive(const char *path, const struct archive *archive)
{
    struct spot spot;
    char words[WORDS];

    if (archive_check(archive, &spot) == BOC_OK)
        return true;
    fault_words(archive, &spot, words);
    complain("%s: refused 7: %s", path, words);
    return false;
}

enum status load(const char *path, struct archive *archive)
{
    int file = open(path, O_RDONLY | O_CLOEXEC);
    bool was_read;

    if (file < 0) {
        complain_of(path, "cannot be opened");
        return NO_FILE;
    }
    was_read = read_bytes(file, archive);
    if (!was_read)
        complain_of(path, "cannot be read");
    close(file);
    return was_read && is_archive(path, archive) ? FINE : NO_FILE;
}

/* Two texts one after the other, in memory of their own. */
static char *joined(const char *a, const char *b)
{
    char *text;

    if (asprintf(&text, "%s%s", a, b) < 0) {
        complain("there is no memory");
        exit(NO_FILE);
    }
    return text;
}

/* The path of a file, which may not be there, without a symbolic link. */
static char *resolved(const char *path)
{
    const char *slash = strrchr(path, '/');
    char *real = realpath(path, NULL), *folder, *part, byte;

    if (real != NULL || errno != ENOENT)
        return real;
    if (readlink(path, &byte, 1) >= 0) {
        errno = ENOENT;
        return NULL;
    }
    part = slash == NULL ? strdup(".") : slash == path ? strdup("/") : strndup(path, (size_t)(slash - path));
    real = part == NULL ? NULL : realpath(part, NULL);
    free(part);
    if (real == NULL)
        return NULL;
    folder = joined(real, "/");
    free(real);
    real = joined(folder, slash == NULL ? path : slash + 1);
    free(folder);
    return real;
}

enum status site_find(const char *path, struct site *site)
{
    char *real = resolved(path), *slash;

    *site = (struct site){.path = path, .folder = -1, .locked = -1};
    if (real == NULL) {
        complain_of(path, "cannot be found");
        return NO_FILE;
    }
    slash = strrchr(real, '/');
    site->name = joined(slash + 1, "");
    slash[slash == real ? 1 : 0] = '\0';
    site->folder = open(real, O_RDONLY | O_CLOEXEC);
    if (site->folder < 0)
        complain_of(real, "cannot be opened");
    free(real);
    if (site->folder < 0)
        return NO_FILE;
    /* sha256sum writes such a name in another way. */
    if (site->name[0] == '\0' || strpbrk(site->name, "\\\n\r") != NULL) {
        complain("%s: is no name for an archive", path);
        return WRONG_CALL;
    }
    site->next = joined(site->name, ".new");
    site->hash = joined(site->name, ".sha256");
    site->next_hash = joined(site->name, ".sha256.new");
    site->lock = joined(site->name, ".lock");
    site->there = faccessat(site->folder, site->name, F_OK, 0) == 0;
    return FINE;
}

void site_leave(struct site *site)
{
    if (site->locked >= 0)
        close(site->locked);
    if (site->folder >= 0)
        close(site->folder);
    free(site->name);
    free(site->next);
    free(site->hash);
    free(site->next_hash);
    free(site->lock);
}

bool site_lock(struct site *site)
{
    site->locked = openat(site->folder, site->lock, O_RDONLY | O_CLOEXEC);
    if (site->locked < 0 && errno == ENOENT)
        site->locked = openat(site->folder, site->lock, O_RDONLY | O_CREAT | O_CLOEXEC, 0666);
    if (site->locked < 0)
        complain_of(site->lock, "cannot be opened");
    else if (flock(site->locked, LOCK_EX | LOCK_NB) == 0)
        return true;
    else if (errno == EWOULDBLOCK)
        complain("%s: another job is filing into it", site->path);
    else
        complain_of(site->lock, "cannot be locked");
    return false;
}

bool site_open(struct site *site, int *file)
{
    struct statx about;

    *file = openat(site->folder, site->name, O_RDONLY | O_NONBLOCK | O_CLOEXEC);
    site->there = *file >= 0;
    if (*file < 0) {
        if (errno == ENOENT)
            return true;
        complain_of(site->path, "cannot be opened");
        return false;
    }
    if (statx(*file, "", AT_EMPTY_PATH, STATX_BASIC_STATS, &about) != 0 || !S_ISREG(about.stx_mode)) {
        complain("%s: is no file", site->path);
        close(*file);
        return false;
    }
    site->mode = about.stx_mode & 07777U;
    site->owner = about.stx_uid;
    site->group = about.stx_gid;
    return true;
}

bool site_replaced(const struct site *site, int file)
{
    struct statx opened, named;

    return statx(file, "", AT_EMPTY_PATH, STATX_BASIC_STATS, &opened) == 0 &&
           statx(site->folder, site->name, 0, STATX_BASIC_STATS, &named) == 0 && opened.stx_ino != named.stx_ino;
}

/* Gives a file the owner, the group and the permissions of the archive. */
static bool give_away(const struct site *site, int file)
{
    struct statx about;

    if (!site->there)
        return true;
    if (statx(file, "", AT_EMPTY_PATH, STATX_BASIC_STATS, &about) != 0)
        return false;
    if ((about.stx_uid != site->owner || about.stx_gid != site->group) && fchown(file, site->owner, site->group) != 0)
        return false;
    return fchmod(file, site->mode) == 0;
}

static bool write_all(int file, const uint8_t *bytes, size_t length)
{
    while (length > 0) {
        ssize_t count = write(file, bytes, length);

        if (count < 0)
            return false;
        bytes += count;
        length -= (size_t)count;
    }
    return true;
}

bool site_remove(const struct site *site, const char *name)
{
    if (unlinkat(site->folder, name, 0) == 0 || errno == ENOENT)
        return true;
    complain_of(name, "cannot be removed");
    return false;
}

bool site_write(const struct site *site, const char *name, const void *bytes, size_t length)
{
    bool written, closed;
    int file;

    if (!site_remove(site, name))
        return false;
    file = openat(site->folder, name, O_WRONLY | O_CREAT | O_EXCL | O_CLOEXEC, site->there ? 0600 : 0666);
    if (file < 0) {
        complain_of(name, "cannot be made");
        return false;
    }
    if (!give_away(site, file)) {
        complain_of(name, "cannot get the owner and the permissions of the archive");
        close(file);
        return false;
    }
    written = write_all(file, bytes, length) && fsync(file) == 0;
    if (!written)
        complain_of(name, "cannot be written");
    closed = close(file) == 0;
    if (written && !closed)
        complain_of(name, "cannot be written");
    return written && closed;
}

int site_read(const struct site *site, const char *name)
{
    int file = openat(site->folder, name, O_RDONLY | O_CLOEXEC);

    if (file < 0)
        complain_of(name, "cannot be opened");
    else
        (void)posix_fadvise(file, 0, 0, POSIX_FADV_DONTNEED);
    return file;
}

bool site_flush(const struct site *site)
{
    if (fsync(site->folder) == 0)
        return true;
    complain_of(site->path, "its folder cannot be flushed");
    return false;
}

bool site_rename(const struct site *site, const char *from, const char *to)
{
    if (renameat(site->folder, from, site->folder, to) == 0)
        return true;
    complain_of(from, "cannot get its name");
    return false;
}
