/* Numbers in decimal. */
#ifndef NUMBER_H
#define NUMBER_H

#include <stdbool.h>
#include <stddef.h>
#include <stdint.h>

/* Reads digits, one or more, as a number; one above UINT64_MAX is read as UINT64_MAX. Answers false for other bytes. */
bool number_read(const uint8_t *digits, size_t length, uint64_t *number);

#endif
