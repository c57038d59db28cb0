#include "limits.h"

#include "marker.h"

#include <inttypes.h>
#include <stdio.h>

const struct limits exam_limits = {.locations = SILFODDRA_EXAM_LOCATIONS, .joints = SILFODDRA_EXAM_JOINTS};
const struct limits practice_limits = {
    .locations = SILFODDRA_PRACTICE_LOCATIONS, .joints = SILFODDRA_PRACTICE_JOINTS, .title = "Practice desk"};

static int is_within(uint32_t limit, uint32_t most)
{
    return limit >= 1 && limit <= most;
}

int limits_fit(const struct limits *limits)
{
    return is_within(limits->locations, SILFODDRA_EXAM_LOCATIONS) && is_within(limits->joints, SILFODDRA_EXAM_JOINTS);
}

/* A number with a comma before every three digits. */
static void print_number(uint32_t number)
{
    if (number < 1000) {
        printf("%" PRIu32, number);
        return;
    }
    print_number(number / 1000);
    printf(",%03" PRIu32, number % 1000);
}

void print_locations(uint32_t count)
{
    print_number(count);
    printf(" %s", count == 1 ? "location" : "locations");
}

void print_joints(uint32_t count)
{
    print_number(count);
    printf(" %s", count == 1 ? "joint switch" : "joint switches");
}

void print_limits(const struct limits *limits)
{
    if (limits->title == NULL)
        return;
    printf("%s: at most ", limits->title);
    print_locations(limits->locations);
    printf(" and ");
    print_joints(limits->joints);
    printf(".\n");
}

/* Where a limit is out of its range. */
static void print_range(const char *what, uint32_t limit, uint32_t most)
{
    if (is_within(limit, most))
        return;
    printf("Place: the limit on %s, ", what);
    print_number(limit);
    printf(", which is not from 1 to ");
    print_number(most);
    printf(".\n");
}

void print_limits_refusal(uint32_t number, const struct limits *limits)
{
    printf("Refused (%" PRIu32 "): a stated limit is outside its range.\n", number);
    print_range("locations", limits->locations, SILFODDRA_EXAM_LOCATIONS);
    print_range("joint switches", limits->joints, SILFODDRA_EXAM_JOINTS);
}
