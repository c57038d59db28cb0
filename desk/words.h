/* What the desk says about every paper, on standard output. */
#ifndef DESK_WORDS_H
#define DESK_WORDS_H

#include "marker.h"
#include "model.h"
#include "paper.h"
#include "sheet.h"

/* Why a paper or a text is refused. The paper is null for a typed row. */
void print_meaning(const struct silfoddra_answer *answer, const struct paper *paper);

/* The same, and the place. */
void print_refusal(const struct silfoddra_answer *answer, const struct paper *paper);

/* Whether a refused paper's model has a version: not where the limits or the model's header are refused. */
int is_version_known(const struct silfoddra_answer *answer);

/* The model's version, its paper number if it has one, and what the version means, unless it is 1. */
void print_version(const struct sheet *model);

/* The rest is said of a model that the marker does not refuse. */

/* A location by its number and its modes, component 0 first. */
void print_location(const struct sheet *model, uint32_t location);

/* An event and the switch of each component, - for one that stays. */
void print_event(const struct sheet *model, uint8_t event, const uint8_t switches[MOST_COMPONENTS]);

/* A joint switch: its source, its event and switches, its target. */
void print_joint(const struct sheet *model, const struct silfoddra_joint *joint);

/* The letter that stands for a variable. */
char variable_letter(size_t variable);

#endif
