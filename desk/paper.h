/* A paper as the desk hands it to the marker: its sheets, and the limits that are stated for it. */
#ifndef DESK_PAPER_H
#define DESK_PAPER_H

#include "limits.h"
#include "sheet.h"

struct paper {
    struct sheet model;
    struct sheet second; /* another model, where two are compared; all zero where one sheet is enough */
    struct limits limits;
};

#endif
