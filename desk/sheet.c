#define _POSIX_C_SOURCE 200809L /* for lstat and access */

#include "sheet.h"

#include <errno.h>
#include <stdio.h>
#include <stdlib.h>
#include <string.h>
#include <sys/stat.h>
#include <unistd.h>

/* Room for the longest sheet that can be accepted, and a byte more. */
enum { FIRST_ROOM = MOST_BYTES + 1 };

/* Says what cannot be done with a file, and why. Returns -1. */
static int say_fault(const char *what, const char *name, const char *fault)
{
    fprintf(stderr, "desk: cannot %s %s: %s\n", what, name, fault);
    return -1;
}

/* Makes more room for a sheet's bytes. Returns 0, or -1 if there is no memory. */
static int sheet_grow(struct sheet *sheet, size_t *room)
{
    if (*room > SIZE_MAX / 2)
        return -1;
    size_t wider = *room == 0 ? FIRST_ROOM : 2 * *room;
    uint8_t *bytes = realloc(sheet->bytes, wider);
    if (bytes == NULL)
        return -1;
    sheet->bytes = bytes;
    *room = wider;
    return 0;
}

/* Reads an open file to its end. Returns what went wrong, or null. */
static const char *sheet_fill(struct sheet *sheet, FILE *file)
{
    size_t room = 0;
    do {
        if (sheet->length == room && sheet_grow(sheet, &room) != 0)
            return "it does not fit into memory";
        errno = 0;
        sheet->length += fread(sheet->bytes + sheet->length, 1, room - sheet->length, file);
        if (ferror(file))
            return strerror(errno);
    } while (!feof(file));
    return NULL;
}

int sheet_read(struct sheet *sheet, const char *name)
{
    *sheet = (struct sheet){.name = name};
    FILE *file = fopen(name, "rb");
    if (file == NULL)
        return say_fault("open", name, strerror(errno));
    const char *fault = sheet_fill(sheet, file);
    fclose(file);
    return fault == NULL ? 0 : say_fault("read", name, fault);
}

/* What stands against a file of this name, or null: there must be none yet, or a regular one that may be written. */
static const char *name_fault(const char *name)
{
    struct stat there;
    if (lstat(name, &there) != 0)
        return errno == ENOENT ? NULL : strerror(errno);
    if (!S_ISREG(there.st_mode))
        return "it is not a regular file";
    return access(name, W_OK) == 0 ? NULL : strerror(errno);
}

/* Writes a sheet to a new file, whole or not at all. Returns what went wrong, or null. */
static const char *sheet_put(const struct sheet *sheet, const char *name)
{
    FILE *file = fopen(name, "wbx"); /* x: there is no such file yet */
    if (file == NULL)
        return strerror(errno);
    const char *fault = NULL;
    if (fwrite(sheet->bytes, 1, sheet->length, file) != sheet->length)
        fault = strerror(errno);
    if (fclose(file) != 0 && fault == NULL)
        fault = strerror(errno);
    if (fault != NULL)
        remove(name);
    return fault;
}

int sheet_write(const struct sheet *sheet)
{
    char part[FILENAME_MAX]; /* the file until it is whole */
    const char *fault = name_fault(sheet->name);
    if (fault == NULL && snprintf(part, sizeof part, "%s.part", sheet->name) >= FILENAME_MAX)
        fault = strerror(ENAMETOOLONG);
    if (fault != NULL)
        return say_fault("write", sheet->name, fault);
    fault = sheet_put(sheet, part);
    if (fault != NULL)
        return say_fault("write", part, fault);
    if (rename(part, sheet->name) != 0) {
        fault = strerror(errno);
        remove(part);
        return say_fault("write", sheet->name, fault);
    }
    return 0;
}

int sheet_is_one_file(const char *name, const char *other_name)
{
    struct stat file, other;
    return stat(name, &file) == 0 && stat(other_name, &other) == 0 && file.st_dev == other.st_dev && file.st_ino == other.st_ino;
}

void sheet_free(struct sheet *sheet)
{
    free(sheet->bytes);
    *sheet = (struct sheet){0};
}

uint8_t sheet_byte(const struct sheet *sheet, size_t at)
{
    return at < sheet->length ? sheet->bytes[at] : 0;
}

uint32_t sheet_unsigned(const struct sheet *sheet, size_t at)
{
    uint32_t number = 0;
    for (size_t i = 0; i < 4; i++)
        number = number << 8 | sheet_byte(sheet, at + i);
    return number;
}

int64_t sheet_signed(const struct sheet *sheet, size_t at)
{
    int64_t number = sheet_unsigned(sheet, at);
    return number > INT32_MAX ? number - UINT32_MAX - 1 : number;
}
