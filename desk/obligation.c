#include "obligation.h"

#include "model.h"
#include "type.h"
#include "words.h"

#include <inttypes.h>
#include <stdio.h>

/* The kinds of obligation, and the sheets and roles of a row: the numbers of marker.h. */
enum { FROM_START = 0, AFTER_FLOW = 1, NOT_UNSAFE = 2 };
enum { IN_MODEL = 0, IN_NO_SHEET = 2 };
enum {
    INITIAL = 0,
    REGION = 1,
    INVARIANT = 2,
    UNSAFE = 3,
    NEW_INVARIANT = 4,
    FLOW = 5,
    TIME = 6,
    JUMP = 7,
    STAYING = 8
};

enum { MOST_NUMBERS = 2 * MOST_VARIABLES + 1 };

static struct silfoddra_obligation find_obligation(const struct paper *paper, uint32_t number)
{
    return silfoddra_which_obligation(paper->model.bytes, paper->model.length, paper->second.bytes, paper->second.length, number,
                                      paper->limits.locations, paper->limits.joints);
}

static void print_region_row(const struct sheet *model, uint32_t row, uint32_t location, const char *when)
{
    printf("region row %" PRIu32 " of ", row);
    print_location(model, location);
    printf(", %s.\n", when);
}

static void print_after_jump(const struct paper *paper, const struct silfoddra_obligation *obligation)
{
    struct silfoddra_joint joint;
    if (model_joint(&paper->model, &paper->limits, obligation->subject, &joint) != 0)
        return;
    print_region_row(&paper->model, obligation->line, joint.target, "after a jump");
    printf("Joint switch %" PRIu32 ": ", obligation->subject);
    print_joint(&paper->model, &joint);
}

void print_obligation(const struct paper *paper, uint32_t number)
{
    const struct sheet *model = &paper->model;
    struct silfoddra_obligation obligation = find_obligation(paper, number);
    if (obligation.number != 0)
        return;
    printf("Obligation %" PRIu32 ": ", number);
    switch (obligation.kind) {
    case FROM_START:
        print_region_row(model, obligation.line, obligation.subject, "from the start");
        break;
    case AFTER_FLOW:
        print_region_row(model, obligation.line, obligation.subject, "after a flow");
        break;
    case NOT_UNSAFE:
        printf("unsafe condition %" PRIu32 " in ", obligation.line);
        print_location(model, obligation.subject);
        printf(".\n");
        break;
    default:
        print_after_jump(paper, &obligation);
        break;
    }
}

/* Why a variable stays in a flow in a location. */
static void print_reason_in_flow(const struct sheet *model, uint32_t location, size_t owner)
{
    uint32_t modes[MOST_COMPONENTS];
    model_modes(model, location, modes);
    printf(", because no flow row of mode %" PRIu32 " of its component %zu mentions it", modes[owner], owner);
}

/* Why it stays in a jump by the joint switch with a number. */
static void print_reason_in_jump(const struct paper *paper, uint32_t number, size_t owner)
{
    struct silfoddra_joint joint;
    if (model_joint(&paper->model, &paper->limits, number, &joint) != 0)
        return;
    if (joint.switches[owner] == STAYS)
        printf(", because its component %zu does not move", owner);
    else
        printf(", because no row of switch %u of its component %zu mentions its new value", joint.switches[owner], owner);
}

/* A variable that stays in the flow or the jump of an obligation, and why. */
static void print_staying_variable(const struct paper *paper, uint32_t number, uint32_t variable)
{
    struct silfoddra_obligation obligation = find_obligation(paper, number);
    size_t owner = model_owner(&paper->model, variable);
    printf("variable %c stays", variable_letter(variable));
    if (obligation.kind == AFTER_FLOW)
        print_reason_in_flow(&paper->model, obligation.subject, owner);
    else
        print_reason_in_jump(paper, obligation.subject, owner);
    printf(".\n");
}

/* What a hypothesis of an obligation is. */
static void print_role(const struct paper *paper, uint32_t obligation, const struct silfoddra_row *row)
{
    switch (row->role) {
    case INITIAL:
        printf("initial row of component %" PRIu32 ".\n", row->owner);
        break;
    case REGION:
        printf("region row.\n");
        break;
    case INVARIANT:
        printf("invariant row of component %" PRIu32 ".\n", row->owner);
        break;
    case UNSAFE:
        printf("unsafe row.\n");
        break;
    case NEW_INVARIANT:
        printf("invariant row of component %" PRIu32 ", on the new values.\n", row->owner);
        break;
    case FLOW:
        printf("flow row of component %" PRIu32 ", on the rates.\n", row->owner);
        break;
    case TIME:
        printf("the time of a flow.\n");
        break;
    case JUMP:
        printf("jump row of component %" PRIu32 ".\n", row->owner);
        break;
    default:
        print_staying_variable(paper, obligation, row->owner);
        break;
    }
}

/* A row that a sheet holds: where, its bytes, and what it says. */
static void print_row(const struct sheet *sheet, const struct silfoddra_row *row, size_t variables)
{
    int64_t numbers[MOST_NUMBERS] = {0};
    size_t before = row->role == NEW_INVARIANT ? variables : 0; /* coefficients that are 0, of the values before */
    size_t count = row->size / 4;
    printf("Place: %s, bytes %" PRIu32 " to %" PRIu32 ".\n ", sheet->name, row->place, row->place + row->size - 1);
    for (size_t i = 0; i < row->size; i++)
        printf(" %02x", sheet_byte(sheet, row->place + i));
    printf("\n");
    for (size_t i = 0; i < count; i++)
        numbers[before + i] = sheet_signed(sheet, row->place + 4 * i);
    print_inequality(numbers, before + count, variables);
}

/* Whether a row of a variable that stays is the second of its two: then the first is the hypothesis before it. */
static int is_second_of_two(const struct paper *paper, uint32_t obligation, uint32_t hypothesis, const struct silfoddra_row *row)
{
    if (hypothesis == 0)
        return 0;
    struct silfoddra_row before =
        silfoddra_hypothesis(paper->model.bytes, paper->model.length, paper->second.bytes, paper->second.length, obligation,
                             hypothesis - 1, paper->limits.locations, paper->limits.joints);
    return before.role == STAYING && before.owner == row->owner;
}

/* The rows of a variable that stays: x' - x <= 0, then x - x' <= 0. */
static void print_staying_row(const struct sheet *model, uint32_t variable, int is_second)
{
    int64_t numbers[MOST_NUMBERS] = {0};
    size_t variables = model_variables(model);
    numbers[variable] = is_second ? 1 : -1;
    numbers[variables + variable] = -numbers[variable];
    print_inequality(numbers, 2 * variables + 1, variables);
}

void print_hypothesis(const struct paper *paper, uint32_t obligation, uint32_t hypothesis, const struct silfoddra_row *row)
{
    const struct sheet *model = &paper->model;
    printf("Hypothesis %" PRIu32 ": ", hypothesis);
    print_role(paper, obligation, row);
    if (row->sheet != IN_NO_SHEET) {
        print_row(row->sheet == IN_MODEL ? model : &paper->second, row, model_variables(model));
        return;
    }
    printf("Place: no sheet.\n");
    if (row->role == STAYING)
        print_staying_row(model, row->owner, is_second_of_two(paper, obligation, hypothesis, row));
    else
        printf("  -time <= 0\n");
}
