/* Replaces a file at once: a temporary file beside it is written, synced and renamed. */
#include "status.h"
#include "target.h"

#include <errno.h>
#include <fcntl.h>
#include <signal.h>
#include <stdio.h>
#include <unistd.h>

/* Room for a temporary file's name, and how many names are tried. */
#define NAME_ROOM 64
#define NAMES_TRIED 1000

/* The permissions of a new file, before the umask. */
#define NEW_FILE_MODE (S_IRUSR | S_IWUSR | S_IRGRP | S_IWGRP | S_IROTH | S_IWOTH)

/* A temporary file in the target's directory. */
struct temporary {
    int directory;
    int file;
    char name[NAME_ROOM];
};

/* Creates a temporary file under a name that is not in use; answers false with errno set if it cannot. */
static bool temporary_create(struct temporary *temporary, int directory)
{
    temporary->directory = directory;
    for (int attempt = 0; attempt < NAMES_TRIED; attempt++) {
        snprintf(temporary->name, sizeof temporary->name, ".desk-%ld-%d.tmp", (long)getpid(), attempt);
        temporary->file =
            openat(directory, temporary->name, O_WRONLY | O_CREAT | O_EXCL | O_CLOEXEC | O_NOFOLLOW, NEW_FILE_MODE);
        if (temporary->file != -1 || errno != EEXIST)
            break;
    }
    return temporary->file != -1;
}

/* Writes all bytes; answers false with errno set if it cannot. */
static bool write_all(int file, const struct content *content)
{
    size_t written = 0;

    while (written < content->length) {
        ssize_t count = write(file, content->at + written, content->length - written);
        if (count > 0) {
            written += (size_t)count;
        } else if (count == 0) {
            errno = ENOSPC;
            return false;
        } else if (errno != EINTR) {
            return false;
        }
    }
    return true;
}

/* Gives the new file the permissions of the one it replaces; answers false with errno set if it cannot. */
static bool keep_permissions(int file, const struct target *target)
{
    return !target->exists || fchmod(file, target->present.st_mode & (S_IRWXU | S_IRWXG | S_IRWXO)) == 0;
}

/* Fills and closes the temporary file; answers false with errno set if a step failed. */
static bool temporary_fill(const struct temporary *temporary, const struct target *target,
                           const struct content *content)
{
    bool filled =
        keep_permissions(temporary->file, target) && write_all(temporary->file, content) && fsync(temporary->file) == 0;
    int reason = errno;

    if (close(temporary->file) != 0 && filled)
        return false;
    errno = reason;
    return filled;
}

/* Removes the temporary file; errno stays as it was. */
static void temporary_remove(const struct temporary *temporary)
{
    int reason = errno;

    unlinkat(temporary->directory, temporary->name, 0);
    errno = reason;
}

/* Makes the renaming last; a file system that cannot sync directories is no error. */
static bool sync_directory(int directory)
{
    return fsync(directory) == 0 || errno == EINVAL || errno == ENOTSUP;
}

/* Puts a new file in the present one's place; says what is wrong and answers false if it cannot. */
static bool replace(const struct target *target, const struct content *content)
{
    struct temporary temporary;

    if (!temporary_create(&temporary, target->directory)) {
        system_trouble("create a temporary file beside", target->path);
        return false;
    }
    if (!temporary_fill(&temporary, target, content) ||
        renameat(target->directory, temporary.name, target->directory, target->name) != 0) {
        temporary_remove(&temporary);
        system_trouble("write", target->path);
        return false;
    }
    if (!sync_directory(target->directory)) {
        system_trouble("sync the directory of the new", target->path);
        return false;
    }
    return true;
}

/* The same with interrupts held back, so that none leaves the temporary file behind. */
bool target_replace(const struct target *target, const struct content *content)
{
    sigset_t held, before;
    bool done;

    sigemptyset(&held);
    sigaddset(&held, SIGHUP);
    sigaddset(&held, SIGINT);
    sigaddset(&held, SIGQUIT);
    sigaddset(&held, SIGTERM);
    if (sigprocmask(SIG_BLOCK, &held, &before) != 0) {
        system_trouble("write", target->path);
        return false;
    }
    done = replace(target, content);
    sigprocmask(SIG_SETMASK, &before, NULL);
    return done;
}
