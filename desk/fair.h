/* Fair copies of models, of which the desk speaks on standard output. Each call returns what the desk returns to the shell. */
#ifndef DESK_FAIR_H
#define DESK_FAIR_H

#include "paper.h"

/* Writes the fair copy of a paper's model to the file of a name, and says how long it is and how many bytes are saved. If the model is
   refused, it says why, and the file stays as it is. */
int write_fair_copy(const struct paper *paper, const char *name);

/* Says whether two models, the paper's two sheets, have the same fair copy; or why one of them is refused, the first before the second. */
int compare_fair_copies(const struct paper *paper);

#endif
