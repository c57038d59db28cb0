/* What the version of a sheet decides (document 02, order 7). Any sheet may be asked: what is not there counts as 0. */
#ifndef DESK_VERSION_H
#define DESK_VERSION_H

#include "sheet.h"

/* Document 01, Sheet: where the version stands. */
enum { VERSION_AT = 2 };

uint8_t sheet_version(const struct sheet *sheet);

/* The version that goes with a model's: its second sheet must have it. */
uint8_t second_version(const struct sheet *model);

/* Whether there is a paper number, and all of it: from version 3 on, unless the sheet ends too early. */
int sheet_has_paper_number(const struct sheet *sheet);

/* The paper number; 0 where the version has none. */
uint32_t sheet_paper_number(const struct sheet *sheet);

/* The offset of the first field after it: n in a model, q in a run sheet. */
size_t sheet_fields_at(const struct sheet *sheet);

#endif
