/* What the desk says about the obligations of a certificate and their hypotheses, on standard output. */
#ifndef DESK_OBLIGATION_H
#define DESK_OBLIGATION_H

#include "marker.h"
#include "paper.h"

/* Which obligation has a number, with its location and its joint switch. Says nothing if there is none. */
void print_obligation(const struct paper *paper, uint32_t number);

/* A hypothesis whose row silfoddra_hypothesis has found: what it is, and why if it is of a variable that stays; its place and bytes if a
   sheet holds it; and what it says, as it is typed (type.h). */
void print_hypothesis(const struct paper *paper, uint32_t obligation, uint32_t hypothesis, const struct silfoddra_row *row);

#endif
