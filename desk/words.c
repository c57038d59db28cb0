#include "words.h"

#include "version.h"

#include <inttypes.h>
#include <stdio.h>

/* The numbers of a header that does not fit, of a model over a limit and of a second sheet that is not the model's, and the sheets of a
   place: the model and the call itself. */
enum { OTHER_VERSION = 2, OTHER_KIND = 3, OVER_LOCATIONS = 7, OVER_JOINTS = 8, OTHER_PAPER = 18 };
enum { IN_MODEL = 0, IN_CALL = 2 };

/* By the number of the answer. That of a version is said by the sheet, those of a model over a limit with the limit, that of sheets that do
   not belong together with what differs. */
static const char *const meanings[] = {
    "accepted",
    "the sheet has under 4 or over 32,768 bytes, or its first two bytes do not say how many follow",
    [OTHER_KIND] = "the sheet is of another kind",
    "the sheet ends inside a field, or has bytes left after its last field",
    "a field, or a number given to the desk, is outside its range",
    "a switch has an event that is not in its component's alphabet",
    [OVER_JOINTS + 1] = "a proof's hypotheses are not ascending",
    "a proof's coefficients do not sum to k times the goal's",
    "a proof's bound fails",
    "the run's start is not allowed",
    "a step is not allowed",
    "the run does not end in an unsafe state",
    "the table or the buffer is too short",
    "the text is not one <= between two expressions",
    "a product of variables, a letter beyond the variables, or a result outside -2147483648 to 2147483647",
};

/* Which versions the sheet may have instead. */
static void print_other_version(uint32_t sheet)
{
    fputs(sheet == IN_MODEL ? "the model's version is not 1, 2 or 3" : "the second sheet's version is neither 1 nor 3", stdout);
}

/* The limit that a model is over. */
static void print_over(uint32_t number, const struct limits *limits)
{
    printf("the model has over ");
    if (number == OVER_LOCATIONS)
        print_locations(limits->locations);
    else
        print_joints(limits->joints);
}

/* Why the second sheet is not the model's: the place is that of its version or of its paper number. */
static void print_other_paper(uint32_t place, const struct sheet *model, const struct sheet *second)
{
    printf("the sheets do not belong together: ");
    if (place == VERSION_AT)
        printf("a model of version %u takes a second sheet of version %u, and this one has version %u", sheet_version(model),
               second_version(model), sheet_version(second));
    else
        printf("the model's paper number is %" PRIu32 ", and the second sheet's is %" PRIu32, sheet_paper_number(model),
               sheet_paper_number(second));
}

void print_meaning(const struct silfoddra_answer *answer, const struct paper *paper)
{
    uint32_t number = answer->number;
    printf("Refused (%" PRIu32 "): ", number);
    if (number == OTHER_VERSION)
        print_other_version(answer->sheet);
    else if (number == OVER_LOCATIONS || number == OVER_JOINTS)
        print_over(number, &paper->limits);
    else if (number == OTHER_PAPER)
        print_other_paper(answer->place, &paper->model, &paper->second);
    else
        fputs(number < sizeof meanings / sizeof *meanings ? meanings[number] : "an unknown number", stdout);
    printf(".\n");
}

void print_refusal(const struct silfoddra_answer *answer, const struct paper *paper)
{
    if (answer->sheet == IN_CALL && paper != NULL && !limits_fit(&paper->limits)) {
        print_limits_refusal(answer->number, &paper->limits);
        return;
    }
    print_meaning(answer, paper);
    if (answer->sheet == IN_CALL)
        printf("Place: the numbers given to the desk.\n");
    else
        printf("Place: %s, byte %" PRIu32 ".\n", answer->sheet == IN_MODEL ? paper->model.name : paper->second.name, answer->place);
}

int is_version_known(const struct silfoddra_answer *answer)
{
    return answer->sheet != IN_CALL && (answer->sheet != IN_MODEL || answer->number > OTHER_KIND);
}

void print_version(const struct sheet *model)
{
    uint8_t version = sheet_version(model);
    if (version == 1)
        return;
    printf("Model of version %u", version);
    if (sheet_has_paper_number(model))
        printf(", paper number %" PRIu32, sheet_paper_number(model));
    printf(": a variable keeps its value where no row of its component says how it may change.\n");
}

void print_location(const struct sheet *model, uint32_t location)
{
    uint32_t modes[MOST_COMPONENTS];
    model_modes(model, location, modes);
    printf("location %" PRIu32 " = modes", location);
    for (size_t k = 0; k < model_components(model); k++)
        printf(" %" PRIu32, modes[k]);
}

void print_event(const struct sheet *model, uint8_t event, const uint8_t switches[MOST_COMPONENTS])
{
    printf("event %u, switches", event);
    for (size_t k = 0; k < model_components(model); k++) {
        if (switches[k] == STAYS)
            printf(" -");
        else
            printf(" %u", switches[k]);
    }
}

void print_joint(const struct sheet *model, const struct silfoddra_joint *joint)
{
    print_location(model, joint->source);
    printf(", ");
    print_event(model, joint->event, joint->switches);
    printf(", to ");
    print_location(model, joint->target);
    printf(".\n");
}

char variable_letter(size_t variable)
{
    return "abcdefgh"[variable % MOST_VARIABLES];
}
