#include "run.h"

#include "model.h"
#include "version.h"
#include "words.h"

#include <inttypes.h>
#include <stdio.h>

/* The numbers of these refusals. */
enum { START_REFUSED = 12, STEP_REFUSED = 13, END_REFUSED = 14 };

/* Document 01, Run sheet: the fields before the steps, counted from q. */
enum { Q_IN = 0, LOCATION_IN = 6, VALUES_IN = 7 };

/* A whole number over the run's q. */
static void print_fraction(const struct sheet *run, int64_t whole)
{
    uint32_t q = sheet_unsigned(run, sheet_fields_at(run) + Q_IN);
    printf("%" PRId64, whole);
    if (q != 1)
        printf("/%" PRIu32, q);
}

/* The value of each variable, from an offset. */
static void print_values(const struct sheet *model, const struct sheet *run, size_t at)
{
    for (size_t v = 0; v < model_variables(model); v++) {
        printf("%s%c = ", v == 0 ? "values " : ", ", variable_letter(v));
        print_fraction(run, sheet_signed(run, at + 4 * v));
    }
    printf(".\n");
}

/* The first location, before the values. */
static void print_first_location(const struct sheet *model, const struct sheet *run)
{
    print_location(model, sheet_byte(run, sheet_fields_at(run) + LOCATION_IN));
    printf(", ");
}

static void print_start(const struct sheet *model, const struct sheet *run)
{
    printf("Start: ");
    print_first_location(model, run);
    print_values(model, run, sheet_fields_at(run) + VALUES_IN);
}

/* What a flow says after its first byte. Returns the offset of its new values. */
static size_t print_flow(const struct sheet *run, size_t at)
{
    printf("a flow, time ");
    print_fraction(run, sheet_unsigned(run, at));
    return at + 4;
}

/* What a jump says after its first byte. Returns the offset of its new values. */
static size_t print_jump(const struct sheet *model, const struct sheet *run, size_t at)
{
    uint8_t switches[MOST_COMPONENTS] = {STAYS, STAYS, STAYS, STAYS};
    size_t components = model_components(model);
    for (size_t k = 0; k < components; k++)
        switches[k] = sheet_byte(run, at + 1 + k);
    printf("a jump, ");
    print_event(model, sheet_byte(run, at), switches);
    return at + 1 + components;
}

/* The step that begins at an offset. */
static void print_step(const struct sheet *model, const struct sheet *run, size_t at, uint32_t number)
{
    printf("Step %" PRIu32 ": ", number);
    size_t values_at = sheet_byte(run, at) == 0 ? print_flow(run, at + 1) : print_jump(model, run, at + 1);
    printf("; new ");
    print_values(model, run, values_at);
}

/* The last state: its values end the sheet, its location stands there only if there is no step. */
static void print_end(const struct sheet *model, const struct sheet *run, uint32_t steps)
{
    printf("Last state, which is not unsafe: ");
    if (steps == 0)
        print_first_location(model, run);
    print_values(model, run, run->length - 4 * model_variables(model));
}

void print_run_fault(const struct silfoddra_answer *answer, const struct sheet *model, const struct sheet *run)
{
    if (answer->number == START_REFUSED)
        print_start(model, run);
    else if (answer->number == STEP_REFUSED)
        print_step(model, run, answer->place, answer->done);
    else if (answer->number == END_REFUSED)
        print_end(model, run, answer->done);
}
