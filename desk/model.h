/* What stands where in a model sheet. The model must be one that the marker does not refuse; only model_joints takes any. */
#ifndef DESK_MODEL_H
#define DESK_MODEL_H

#include "limits.h"
#include "marker.h"
#include "sheet.h"

/* The greatest counts of document 01, and the switch number of a component that stays. */
enum { MOST_VARIABLES = 8, MOST_COMPONENTS = 4, STAYS = 255 };

size_t model_variables(const struct sheet *model);
size_t model_components(const struct sheet *model);

/* The component that owns a variable. */
size_t model_owner(const struct sheet *model, size_t variable);

/* The mode of each component in a location. */
void model_modes(const struct sheet *model, uint32_t location, uint32_t modes[MOST_COMPONENTS]);

/* The joint list under these limits: its answer, and the records, which last until the next call. */
struct silfoddra_answer model_joints(const struct sheet *model, const struct limits *limits, const struct silfoddra_joint **records);

/* The joint switch with a number, counted from 0 in the order of the joint list. Returns 0, or -1 if there is none. */
int model_joint(const struct sheet *model, const struct limits *limits, uint32_t number, struct silfoddra_joint *joint);

#endif
