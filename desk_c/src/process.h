/* The process around the program: its standard files, its signals, its last write. */
#ifndef PROCESS_H
#define PROCESS_H

#include "status.h"

#include <stdbool.h>

/* Readies standard files and signals; answers false if that failed. */
bool process_begin(void);

/* Writes out the results; answers the given status, or trouble if they could not be written. */
enum status process_end(enum status status);

#endif
