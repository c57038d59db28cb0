#include "version.h"

/* Document 01, Sheet: where the body begins. Document 02, order 7: from which version on it begins with a paper number, and where that
   ends. */
enum { BODY_AT = 4, FIRST_NUMBERED = 3, NUMBER_END = 8 };

uint8_t sheet_version(const struct sheet *sheet)
{
    return sheet_byte(sheet, VERSION_AT);
}

/* Whether bodies of the sheet's version begin with a paper number. */
static int is_numbered(const struct sheet *sheet)
{
    return sheet_version(sheet) >= FIRST_NUMBERED;
}

uint8_t second_version(const struct sheet *model)
{
    return is_numbered(model) ? sheet_version(model) : 1;
}

int sheet_has_paper_number(const struct sheet *sheet)
{
    return is_numbered(sheet) && sheet->length >= NUMBER_END;
}

uint32_t sheet_paper_number(const struct sheet *sheet)
{
    return is_numbered(sheet) ? sheet_unsigned(sheet, BODY_AT) : 0;
}

size_t sheet_fields_at(const struct sheet *sheet)
{
    return is_numbered(sheet) ? NUMBER_END : BODY_AT;
}
