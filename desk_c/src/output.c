/* Writes what a command made to a file. */
#include "output.h"

#include "target.h"

/* Writes the bytes to a file, whole or not at all; the file must not be the source's own. */
enum status output_write(const struct output *output, const char *path)
{
    struct target target;
    enum status status = STATUS_TROUBLE;

    if (!target_open(&target, path, output->name))
        return STATUS_TROUBLE;
    if (target_is(&target, output->source))
        trouble("write", path, output->own);
    else if (target_replace(&target, output->content))
        status = STATUS_DONE;
    target_close(&target);
    return status;
}
