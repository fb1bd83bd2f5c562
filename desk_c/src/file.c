/* Reads a file's first bytes. */
#include "file.h"

#include "status.h"

#include <errno.h>
#include <fcntl.h>
#include <string.h>
#include <sys/stat.h>
#include <unistd.h>

/* Reads until the room is full or the file ends; answers false with errno set on an error. */
static bool read_bytes(int file, struct file_room room)
{
    *room.length = 0;
    while (*room.length < room.size) {
        ssize_t count = read(file, room.at + *room.length, room.size - *room.length);
        if (count == 0)
            break;
        if (count > 0)
            *room.length += (size_t)count;
        else if (errno != EINTR)
            return false;
    }
    return true;
}

/* Reads an open file and notes which file it is; says what is wrong and answers false if it cannot. */
static bool read_open_file(int file, const char *name, struct file_room room)
{
    struct stat facts;

    if (fstat(file, &facts) != 0 || !read_bytes(file, room)) {
        system_trouble("read", name);
        return false;
    }
    *room.identity = (struct file_identity){facts.st_dev, facts.st_ino};
    return true;
}

/* Tells whether a path stands for standard input. */
static bool is_input(const char *path)
{
    return strcmp(path, "-") == 0;
}

/* The name of a file in messages: its path, or standard input for "-". */
const char *file_name(const char *path)
{
    return is_input(path) ? "standard input" : path;
}

/* Reads a file; says what is wrong and answers false if it cannot. */
bool file_read(const char *path, struct file_room room)
{
    int file = open(path, O_RDONLY | O_CLOEXEC | O_NOCTTY);
    bool done;

    if (file == -1) {
        system_trouble("open", path);
        return false;
    }
    done = read_open_file(file, path, room);
    close(file);
    return done;
}

/* Reads a file, or standard input for "-"; says what is wrong and answers false if it cannot. */
bool file_read_or_input(const char *path, struct file_room room)
{
    return is_input(path) ? read_open_file(STDIN_FILENO, file_name(path), room) : file_read(path, room);
}
