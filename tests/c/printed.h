/* Sheets for the C tests: the bytes that a sheet call writes. */
#ifndef PRINTED_H
#define PRINTED_H

#include "books.h"
#include "check.h"

/* placement_sheet, placement_moves or placement_weighted_sheet. */
typedef struct placement_reply (*sheet_call)(const uint8_t *input, size_t length, uint8_t *out, size_t room);

/* The call writes this sheet for an input, with buffers that are exact, longer, and of 1,024 bytes; where the buffer is
 * too short it is refused by 14 and writes nothing. */
void prints_sheet(sheet_call call, struct book input, const char *due);

#endif
