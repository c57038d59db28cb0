#include "model.h"

#include "version.h"

/* Document 01, Model: the first fields, counted from n, and the fields before a component's modes. */
enum { VARIABLES_IN = 0, COMPONENTS_IN = 1, OWNERS_IN = 3 };
enum { MODES_IN = 2, SWITCHES_IN = 3, COMPONENT_HEAD = 4, CONDITIONS_OF_MODE = 3 };

size_t model_variables(const struct sheet *model)
{
    return sheet_byte(model, sheet_fields_at(model) + VARIABLES_IN);
}

size_t model_components(const struct sheet *model)
{
    return sheet_byte(model, sheet_fields_at(model) + COMPONENTS_IN);
}

size_t model_owner(const struct sheet *model, size_t variable)
{
    return sheet_byte(model, sheet_fields_at(model) + OWNERS_IN + variable);
}

/* Where a condition ends that begins at an offset, and whose rows have so many coefficients. */
static size_t condition_end(const struct sheet *model, size_t at, size_t coefficients)
{
    size_t rows = sheet_byte(model, at);
    return at + 1 + 4 * rows * (coefficients + 1);
}

/* Where a component ends that begins at an offset: the next one begins there. */
static size_t component_end(const struct sheet *model, size_t at)
{
    size_t variables = model_variables(model);
    size_t modes = sheet_byte(model, at + MODES_IN);
    size_t switches = sheet_byte(model, at + SWITCHES_IN);
    at += COMPONENT_HEAD;
    for (size_t mode = 0; mode < modes; mode++) {
        at += 1; /* the start byte */
        for (int condition = 0; condition < CONDITIONS_OF_MODE; condition++)
            at = condition_end(model, at, variables);
    }
    for (size_t i = 0; i < switches; i++) {
        at += 3; /* source, target and label */
        at = condition_end(model, at, 2 * variables);
    }
    return at;
}

void model_modes(const struct sheet *model, uint32_t location, uint32_t modes[MOST_COMPONENTS])
{
    uint32_t counts[MOST_COMPONENTS] = {1, 1, 1, 1};
    size_t components = model_components(model);
    size_t at = sheet_fields_at(model) + OWNERS_IN + model_variables(model);
    for (size_t k = 0; k < components; k++) {
        counts[k] = sheet_byte(model, at + MODES_IN);
        at = component_end(model, at);
    }
    for (size_t k = components; k-- > 0;) {
        modes[k] = location % counts[k];
        location /= counts[k];
    }
}

struct silfoddra_answer model_joints(const struct sheet *model, const struct limits *limits, const struct silfoddra_joint **records)
{
    static struct silfoddra_joint table[SILFODDRA_EXAM_JOINTS]; /* no desk may state more */
    *records = table;
    return silfoddra_joint_list(model->bytes, model->length, table, SILFODDRA_EXAM_JOINTS, limits->locations, limits->joints);
}

int model_joint(const struct sheet *model, const struct limits *limits, uint32_t number, struct silfoddra_joint *joint)
{
    const struct silfoddra_joint *records;
    struct silfoddra_answer answer = model_joints(model, limits, &records);
    if (number >= answer.done)
        return -1;
    *joint = records[number];
    return 0;
}
