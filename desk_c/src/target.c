/* Finds the place of a file that is to be replaced, and whether it may be. */
#include "target.h"

#include "status.h"

#include <errno.h>
#include <fcntl.h>
#include <string.h>
#include <unistd.h>

/* Room for the longest path of a directory. */
#define DIRECTORY_ROOM 4096

/* Opens the directory a path leads to, the present one if it names none; answers -1 with errno set if it cannot. */
static int open_directory(const char *path, const char *name)
{
    char directory[DIRECTORY_ROOM] = ".";
    size_t length = (size_t)(name - path);

    if (length >= sizeof directory) {
        errno = ENAMETOOLONG;
        return -1;
    }
    if (length > 0) {
        memcpy(directory, path, length);
        directory[length] = '\0';
    }
    return open(directory, O_RDONLY | O_DIRECTORY | O_CLOEXEC);
}

/* Looks at the present file: none, or a regular one that may be written; else says what is wrong. */
static bool look_at_present(struct target *target)
{
    target->exists = fstatat(target->directory, target->name, &target->present, AT_SYMLINK_NOFOLLOW) == 0;
    if (!target->exists && errno == ENOENT)
        return true;
    if (!target->exists)
        system_trouble("write", target->path);
    else if (S_ISLNK(target->present.st_mode))
        trouble("write", target->path, "It is a symbolic link; name the file itself");
    else if (!S_ISREG(target->present.st_mode))
        trouble("write", target->path, "It is not a regular file");
    else if (faccessat(target->directory, target->name, W_OK, AT_EACCESS) != 0)
        system_trouble("write", target->path);
    else
        return true;
    return false;
}

/* Opens the directory and looks at the present file; says what is wrong and answers false if it will not do. */
bool target_open(struct target *target, const char *path, const char *what)
{
    const char *slash = strrchr(path, '/');

    target->path = path;
    target->name = slash == NULL ? path : slash + 1;
    if (target->name[0] == '\0') {
        trouble("write", path[0] == '\0' ? what : path, "The path ends without the name of a file");
        return false;
    }
    target->directory = open_directory(path, target->name);
    if (target->directory == -1) {
        system_trouble("open the directory of", path);
        return false;
    }
    if (look_at_present(target))
        return true;
    target_close(target);
    return false;
}

/* Tells whether the present file is this one. */
bool target_is(const struct target *target, const struct file_identity *file)
{
    return target->exists && target->present.st_dev == file->device && target->present.st_ino == file->inode;
}

/* Closes the directory. */
void target_close(const struct target *target)
{
    close(target->directory);
}
