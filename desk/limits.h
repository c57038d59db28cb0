/* The limits that the desk states in every call that reads a model, and what it says about them on standard output. */
#ifndef DESK_LIMITS_H
#define DESK_LIMITS_H

#include <stdint.h>

struct limits {
    uint32_t locations;
    uint32_t joints;
    const char *title; /* what the desk calls them; null for the exam's, of which it says nothing */
};

extern const struct limits exam_limits;
extern const struct limits practice_limits;

/* Whether both are in their ranges. Where they are not, every call on a model is refused for them, and for nothing else. */
int limits_fit(const struct limits *limits);

/* What is stated, unless it is the exam's. */
void print_limits(const struct limits *limits);

/* A limit in words, such as 16 locations. */
void print_locations(uint32_t count);
void print_joints(uint32_t count);

/* That they are refused, by the answer's number, and each that is outside its range. */
void print_limits_refusal(uint32_t number, const struct limits *limits);

#endif
