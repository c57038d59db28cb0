#include "fair.h"

#include "marker.h"
#include "status.h"
#include "version.h"
#include "words.h"

#include <inttypes.h>
#include <stdio.h>
#include <string.h>

struct fair_copy {
    uint8_t bytes[MOST_BYTES]; /* enough, as no copy is longer than its model */
    uint32_t length;
    uint32_t saved;
};

/* The fair copy of a paper's model. Returns 0, or says why the model is refused and returns -1. */
static int copy_model(struct fair_copy *copy, const struct paper *paper)
{
    const struct sheet *model = &paper->model;
    struct silfoddra_answer answer = silfoddra_fair_copy(model->bytes, model->length, copy->bytes, MOST_BYTES,
                                                         paper->limits.locations, paper->limits.joints);
    if (answer.number != 0) {
        print_refusal(&answer, paper);
        return -1;
    }
    copy->length = answer.done;
    copy->saved = answer.place - answer.done; /* the place is the model's length */
    return 0;
}

int write_fair_copy(const struct paper *paper, const char *name)
{
    struct fair_copy copy;
    if (copy_model(&copy, paper) != 0)
        return REFUSED;
    struct sheet sheet = {.name = name, .bytes = copy.bytes, .length = copy.length};
    if (sheet_write(&sheet) != 0)
        return UNUSABLE;
    printf("Accepted: the fair copy is in %s.\n", name);
    printf("Bytes: %" PRIu32 ". Saved: %" PRIu32 ".\n", copy.length, copy.saved);
    return ACCEPTED;
}

/* The versions, which may give the same rows other runs, or the paper numbers: copies keep both, so that they differ in them too. */
static void print_heads_if_different(const struct sheet *model, const struct sheet *other)
{
    uint32_t number = sheet_paper_number(model);
    uint32_t other_number = sheet_paper_number(other);
    if (sheet_version(model) != sheet_version(other))
        printf("Versions: %u and %u.\n", sheet_version(model), sheet_version(other));
    else if (number != other_number)
        printf("Paper numbers: %" PRIu32 " and %" PRIu32 ".\n", number, other_number);
}

int compare_fair_copies(const struct paper *paper)
{
    struct fair_copy first, second;
    struct paper other = {.model = paper->second, .limits = paper->limits};
    if (copy_model(&first, paper) != 0 || copy_model(&second, &other) != 0)
        return REFUSED;
    if (first.length != second.length || memcmp(first.bytes, second.bytes, first.length) != 0) {
        printf("Different: %s and %s have different fair copies.\n", paper->model.name, other.model.name);
        print_heads_if_different(&paper->model, &other.model);
        return DIFFERENT;
    }
    printf("Same: %s and %s have the same fair copy.\n", paper->model.name, other.model.name);
    return SAME;
}
