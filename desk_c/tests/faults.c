/*
 * System calls that fail when asked to. Linked into the desk program with the linker's --wrap, it stands before
 * the calls of the program's own files; the variable DESK_FAULT names what goes wrong.
 */
#include <errno.h>
#include <fcntl.h>
#include <signal.h>
#include <stdarg.h>
#include <stdbool.h>
#include <stdlib.h>
#include <string.h>
#include <sys/stat.h>
#include <unistd.h>

int __real_close(int file);
int __real_fchmod(int file, mode_t mode);
int __real_fsync(int file);
int __real_openat(int directory, const char *name, int flags, ...);
ssize_t __real_read(int file, void *bytes, size_t count);
int __real_renameat(int from, const char *old, int to, const char *new);
ssize_t __real_write(int file, const void *bytes, size_t count);

int __wrap_close(int file);
int __wrap_fchmod(int file, mode_t mode);
int __wrap_fsync(int file);
int __wrap_openat(int directory, const char *name, int flags, ...);
ssize_t __wrap_read(int file, void *bytes, size_t count);
int __wrap_renameat(int from, const char *old, int to, const char *new);
ssize_t __wrap_write(int file, const void *bytes, size_t count);

/* Tells whether this fault is asked for. */
static bool asked(const char *fault)
{
    const char *wanted = getenv("DESK_FAULT");

    return wanted != NULL && strcmp(wanted, fault) == 0;
}

/* Fails with this reason. */
static int fail(int reason)
{
    errno = reason;
    return -1;
}

/* Tells whether a file is open for writing only, as the temporary file is. */
static bool is_temporary(int file)
{
    return (fcntl(file, F_GETFL) & O_ACCMODE) == O_WRONLY;
}

/* Closes the file, and says that its bytes were lost. */
int __wrap_close(int file)
{
    bool lost = asked("close") && is_temporary(file);
    int result = __real_close(file);

    return lost ? fail(EIO) : result;
}

/* Keeps the permissions as they are. */
int __wrap_fchmod(int file, mode_t mode)
{
    return asked("fchmod") ? fail(EPERM) : __real_fchmod(file, mode);
}

/* Fails for the temporary file or for the directory. */
int __wrap_fsync(int file)
{
    if (asked("fsync") && is_temporary(file))
        return fail(EIO);
    if (asked("fsync directory") && !is_temporary(file))
        return fail(EIO);
    if (asked("fsync directory unsupported") && !is_temporary(file))
        return fail(EINVAL);
    return __real_fsync(file);
}

/* Has some or all names of temporary files in use already; no file may get the number of a standard file. */
int __wrap_openat(int directory, const char *name, int flags, ...)
{
    static int calls;
    va_list rest;
    mode_t mode;
    int file;

    va_start(rest, flags);
    mode = va_arg(rest, mode_t);
    va_end(rest);
    calls++;
    if (asked("names") || (asked("three names") && calls <= 3))
        return fail(EEXIST);
    file = __real_openat(directory, name, flags, mode);
    if (file != -1 && file <= STDERR_FILENO)
        abort();
    return file;
}

/* Reads byte by byte, with an interruption before each. */
ssize_t __wrap_read(int file, void *bytes, size_t count)
{
    static int calls;

    if (!asked("pieces"))
        return __real_read(file, bytes, count);
    calls++;
    return calls % 2 == 1 ? fail(EINTR) : __real_read(file, bytes, 1);
}

/* Fails to rename. */
int __wrap_renameat(int from, const char *old, int to, const char *new)
{
    return asked("renameat") ? fail(EACCES) : __real_renameat(from, old, to, new);
}

/* Fails at once, after some bytes, or not at all but in pieces or with a signal. */
ssize_t __wrap_write(int file, const void *bytes, size_t count)
{
    static int calls;

    calls++;
    if (asked("write") || (asked("second write") && calls > 1))
        return fail(ENOSPC);
    if (asked("second write"))
        return __real_write(file, bytes, 10);
    if (asked("write nothing"))
        return 0;
    if (asked("signal"))
        raise(SIGTERM);
    if (asked("pieces"))
        return calls % 2 == 1 ? fail(EINTR) : __real_write(file, bytes, 1);
    return __real_write(file, bytes, count);
}
