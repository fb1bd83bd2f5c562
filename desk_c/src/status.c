/* Messages about files, on standard error. */
#include "status.h"

#include <errno.h>
#include <stdio.h>
#include <string.h>

/* Says on standard error what could not be done to which file, and why. */
enum status trouble(const char *action, const char *path, const char *reason)
{
    fprintf(stderr, "desk: cannot %s %s: %s\n", action, path, reason);
    return STATUS_TROUBLE;
}

/* The same, where the reason is the present value of errno. */
enum status system_trouble(const char *action, const char *path)
{
    return trouble(action, path, strerror(errno));
}
