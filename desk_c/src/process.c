/* The process around the program: its standard files, its signals, its last write. */
#include "process.h"

#include <errno.h>
#include <fcntl.h>
#include <signal.h>
#include <stdio.h>
#include <unistd.h>

/* Room for the longest result, the text of a plan, so that it is written at once at the end. */
static char result_buffer[131072];

/* Occupies a closed standard file, the wrong way round: no other file gets its number, and using it fails. */
static bool occupy(int descriptor)
{
    if (fcntl(descriptor, F_GETFD) != -1 || errno != EBADF)
        return true;
    return open("/dev/null", descriptor == STDIN_FILENO ? O_WRONLY : O_RDONLY) == descriptor;
}

/* Makes a broken pipe and a file-size limit errors of the write instead of the process's end. */
static bool ignore_write_signals(void)
{
    return signal(SIGPIPE, SIG_IGN) != SIG_ERR && signal(SIGXFSZ, SIG_IGN) != SIG_ERR;
}

/* Readies standard files and signals; answers false if that failed. */
bool process_begin(void)
{
    for (int descriptor = STDIN_FILENO; descriptor <= STDERR_FILENO; descriptor++)
        if (!occupy(descriptor))
            return false;
    return ignore_write_signals() && setvbuf(stdout, result_buffer, _IOFBF, sizeof result_buffer) == 0;
}

/* Writes out the results; answers the given status, or trouble if they could not be written. */
enum status process_end(enum status status)
{
    if (fflush(stdout) == 0 && !ferror(stdout))
        return status;
    return system_trouble("write", "the result");
}
