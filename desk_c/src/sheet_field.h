/* The fields of a sheet: which command and operand stands at an offset, and which bytes are allowed there. */
#ifndef SHEET_FIELD_H
#define SHEET_FIELD_H

#include "sheet.h"

/* Prints which field the byte at an offset of a sheet for this plan is. */
void sheet_field_print(FILE *out, const struct content *plan, size_t offset);

/* Prints which bytes are allowed at an offset of a sheet for this plan. */
void sheet_field_print_allowed(FILE *out, const struct content *plan, size_t offset);

#endif
