/* What the desk says about a run sheet, on standard output. */
#ifndef DESK_RUN_H
#define DESK_RUN_H

#include "marker.h"
#include "sheet.h"

/* What the sheet says where its start, a step or its end is refused: it is read at the answer's place, and no rule is tried again. Says
   nothing of other refusals. */
void print_run_fault(const struct silfoddra_answer *answer, const struct sheet *model, const struct sheet *run);

#endif
