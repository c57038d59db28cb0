/* A sheet as the desk holds it: the bytes of a file, however many. */
#ifndef DESK_SHEET_H
#define DESK_SHEET_H

#include <stddef.h>
#include <stdint.h>

/* Document 01: how long a sheet may be. */
enum { MOST_BYTES = 32768 };

struct sheet {
    const char *name;
    uint8_t *bytes;
    size_t length;
};

/* Reads a whole file. Returns 0, or says on standard error why it cannot and returns -1. Its memory goes back by sheet_free. */
int sheet_read(struct sheet *sheet, const char *name);

/* Writes a sheet to the file of its name, which is a new one or takes the place of a regular file. Returns 0, or says on standard error why
   it cannot and returns -1; then nothing has changed. */
int sheet_write(const struct sheet *sheet);

/* Whether two names are of one file, by whatever folders and links. */
int sheet_is_one_file(const char *name, const char *other_name);

/* Gives a sheet's memory back; one that was never read, all zero, has none. */
void sheet_free(struct sheet *sheet);

/* The byte at an offset. Beyond the end nothing is read, and it is 0. */
uint8_t sheet_byte(const struct sheet *sheet, size_t at);

/* The four bytes from an offset as a number: u32 and s32 of document 01. */
uint32_t sheet_unsigned(const struct sheet *sheet, size_t at);
int64_t sheet_signed(const struct sheet *sheet, size_t at);

#endif
