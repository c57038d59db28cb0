/* Rows as they are typed, on standard output. */
#ifndef DESK_TYPE_H
#define DESK_TYPE_H

#include <stddef.h>
#include <stdint.h>

/* A row by its numbers, of which the last is its bound, such as 2*a - c <= 5. Typed again it gives the same numbers, unless it has
   coefficients for the new values of a flow or a jump: these are its second half, for a' of a. */
void print_inequality(const int64_t *numbers, size_t count, size_t variables);

/* Reads a typed row on so many variables and says what it gives: the row's numbers, its bytes, and the row typed plainly; or why it is
   refused, with a ^ under the place. Returns the answer's number. */
uint32_t print_typed_row(const char *text, uint32_t variables);

#endif
