/* The marker of papers about hybrid automata, for C. Link with the archive that `rt lib` in crates/entries writes.
   Document 01 defines the sheets and the answer, document 02 versions 2 and 3 of sheets, typed rows, fair copies and the limits of a desk;
   what each call answers is proved for all bytes and all limits. */
#ifndef SILFODDRA_MARKER_H
#define SILFODDRA_MARKER_H

#include <stddef.h>
#include <stdint.h>

#ifdef __cplusplus
extern "C" {
#endif

/* What every call hands back. */
struct silfoddra_answer {
    /* 0 if the paper is accepted, else why it is refused:
        1 a sheet under 4 or over 32,768 bytes, or its L wrong     2 version: not 1, 2 or 3 in a model, not 1 or 3 elsewhere
        3 kind                                                      4 the body cut in a field, or bytes left
        5 a field, argument or limit outside its range              6 a label from 1 that is not in its alphabet
        7 more locations than the caller's limit                    8 more joint switches than the caller's limit
        9 hypotheses not ascending                                 10 coefficients unequal
       11 bound fails                                              12 the run's start not allowed
       13 a step not allowed                                       14 the run's end not unsafe
       15 the table or buffer too short (joint list, fair copy)    16 a text that is no row (typed rows only, as 17)
       17 a product of variables, a letter beyond n, or a result outside s32
       18 a second sheet that is not the model's: a version that does not go with the model's, or another paper number */
    uint32_t number;
    /* Where the place is: 0 in the model, 1 in the second sheet, 2 the call itself. */
    uint32_t sheet;
    /* A byte offset into that sheet, counted from 0: of the field, proof or step that is refused, or of the first byte left.
       For 7 and 8 it is n's byte: 4, or 8 in a model of version 3. For 12 it is the location byte: 10, or 14 in a run sheet of version 3.
       For 18 it is 2, the version, or 4, the paper number.
       On acceptance the length of the second sheet, or of the model where there is no other. At sheet 2 as the call says. */
    uint32_t place;
    /* How many proofs or steps passed, in order, before marking stopped; 0 where none was reached. In the joint list the records, in the
       fair copy the bytes that were written. */
    uint32_t done;
    /* 0 to 100. A certificate: 100 times done over all its obligations, rounded to the nearest whole number, a half to the even one (1 of
       8 is 12, 3 of 8 is 38), 100 if there are none; then at most 99 when refused (199 of 200); 0 until its regions are read. A run:
       100 when accepted, else 0. */
    uint32_t score;
};

/* One obligation of a certificate: what silfoddra_which_obligation hands back. */
struct silfoddra_obligation {
    /* 0, or why there is none: as in an answer, and 5 where the number is not below that of the obligations. */
    uint32_t number;
    /* Where the place is: 1 if number is 0, else as in an answer; 2, the call itself, for a number or a limit out of range. */
    uint32_t sheet;
    /* The length of the second sheet if number is 0, else the offset of what is refused; 0 for a number or a limit out of range. */
    uint32_t place;
    /* 0 start, 1 flow, 2 unsafe, 3 jump. This and the two fields below are 0 in a refusal. */
    uint32_t kind;
    /* The location; for a jump the number of the joint switch, from 0, in the order of the joint list. */
    uint32_t subject;
    /* The number, from 0, of the region row that is to be proved, in the region of the location or of the joint switch's
       target; for an unsafe condition its number in the model. */
    uint32_t line;
};

/* The row of one hypothesis: what silfoddra_hypothesis hands back. */
struct silfoddra_row {
    /* 0, or why there is none: as in an answer, and 5 where there is no such obligation or hypothesis. */
    uint32_t number;
    /* The sheet that holds the row, 0 the model, 1 the second sheet; 2 for a row that no sheet holds. In a refusal as in an answer. */
    uint32_t sheet;
    /* The offset of the row's first byte in that sheet; 0 for a row that no sheet holds. In a refusal as in an answer. */
    uint32_t place;
    /* How many bytes the row has there: four for each coefficient and for the bound; 0 for a row that no sheet holds. This and the two
       fields below are 0 in a refusal. */
    uint32_t size;
    /* What the hypothesis is; x are the values, x' those after a flow or a jump, d is the time of a flow:
        0 an initial row, on x      1 a region row, on x            2 an invariant row, on x
        3 an unsafe row, on x       4 an invariant row, on x'       5 a flow row, on the rates
        6 -d <= 0                   7 a jump row, on x and x'       8 of a variable that stays: x' - x <= 0, then x - x' <= 0
       A variable stays in a jump if its owner does not move; in a model of version 2 or 3 also where it is a blank, in a jump or a flow. */
    uint32_t role;
    /* The component whose row it is, for roles 0, 2, 4, 5 and 7; the variable that stays, for role 8; 0 for roles 1, 3 and 6. */
    uint32_t owner;
};

/* The calls take sheets as they were handed in: the bytes, of any length, and how many there are. A null pointer with length 0 is an
   empty sheet; with any other length the pointer must not be null. The bytes are only read, and nothing of them is kept. */

/* A model has version 1, 2 or 3, a certificate or a run sheet version 1 or 3. A model of version 1 or 2 takes a second sheet of version 1,
   a model of version 3 one of version 3.
   The body of a sheet of version 3 begins, at byte 4, with a paper number: a u32 of any value. All other fields follow it, four bytes later
   than in a sheet of version 1 or 2. A model and its second sheet must have the same paper number.
   Every call on two sheets reads the model, then the second sheet, which is refused in this order: 1, 2, 3; 18 at place 2 if its version
   does not go with the model's; in version 3, 4 at place 4 if its paper number is cut, then 18 at place 4 if that is not the model's; then
   for its other fields. With 18, done and score are 0. In a model too a cut paper number is 4 at place 4. A call on a model alone compares
   the number with nothing; a fair copy keeps it. */

/* The model's version decides what a blank means, in every call. A variable is a blank in a flow if all flow rows of its owner's present
   mode have coefficient 0 at it, and in a jump that moves its owner if all rows of the owner's switch have coefficient 0 at its value after
   the jump. Rows of other components do not count, and where the owner's mode has no flow rows, or its switch no rows, the variable is a
   blank. In versions 2 and 3 a blank keeps its value; in version 1 it need not. */

/* Every call that reads a model takes two limits, last: the most locations and the most joint switches that the model may have. Each
   caller states its own, in every call. A model with more is refused, by 7 or 8; one with just as many is not.
   The limit on locations is 1 to 64, that on joint switches 1 to 4,096, each whatever the other is. If one of them is 0 or above that, the
   call answers 5 at sheet 2, place 0, with 0 in all other fields, before a byte of any sheet is looked at: an empty model is not even
   refused by 1, and nothing is written. A call whose limits are in range answers 5 at sheet 2 only for its other arguments.
   A paper within the limits of two desks gets the same answer at both. These are the limits that the exam desk states, which are also the
   greatest, and those of the practice desk. */
#define SILFODDRA_EXAM_LOCATIONS 64u
#define SILFODDRA_EXAM_JOINTS 4096u
#define SILFODDRA_PRACTICE_LOCATIONS 16u
#define SILFODDRA_PRACTICE_JOINTS 256u

/* Marks a certificate. Accepted: no run of the model, of any length and with any values, ever reaches an unsafe state. */
struct silfoddra_answer silfoddra_mark_certificate(const uint8_t *model, size_t model_length,
                                                   const uint8_t *second, size_t second_length,
                                                   uint32_t most_locations, uint32_t most_joints);

/* Marks a run sheet. Accepted: it is a run of the model, and it ends in an unsafe state. */
struct silfoddra_answer silfoddra_mark_run(const uint8_t *model, size_t model_length,
                                           const uint8_t *second, size_t second_length,
                                           uint32_t most_locations, uint32_t most_joints);

/* A joint switch of a model: what happens at once when an event occurs in a location. Seven bytes, with none between them. */
struct silfoddra_joint {
    /* The location that it leaves, and its event: 0 for a switch that moves one component alone. */
    uint8_t source;
    uint8_t event;
    /* For each component the number of the switch by which it moves; 255 for a component that stays, or that the model has not. */
    uint8_t switches[4];
    /* The location that it leads to. */
    uint8_t target;
};

/* Lists a model's joint switches in a table that the caller lends, by location, then event, then switch numbers. The answer has
   number 0, sheet 0, the model's length as its place, and done, the records written: the first ones of the table, in order. Later
   records keep their content. A refusal writes nothing: that of the limits, the model's own, or 15 at sheet 2, whose place is the
   count of records needed; a table of most_joints records is always long enough. The table must not overlap the model sheet, which
   is read while records are written. A null pointer with length 0 is an empty table. */
struct silfoddra_answer silfoddra_joint_list(const uint8_t *model, size_t model_length,
                                             struct silfoddra_joint *table, size_t table_length,
                                             uint32_t most_locations, uint32_t most_joints);

/* Writes the fair copy of a model into a buffer that the caller lends: one spelling, by which models can be compared. Each row is divided
   by the greatest common divisor of all its numbers, the bound too, so that nothing is rounded: 2x <= 3 stays. A row with zero
   coefficients is left out if its bound is at least 0, else its bound becomes -1. The rows of each condition are sorted, ascending by
   their coefficients, as signed numbers from the first on, then by the bound; equal rows stand once. All else is as in the model, its
   version and its paper number too, but for the counts of rows and the sheet's length.
   The copy reads well under the same limits and is no longer than the model; it allows the same runs and unsafe states, and is its own
   fair copy. A certificate belongs to the sheet that it was drawn for: it need not fit the copy.
   The answer has number 0, sheet 0, the model's length as its place, and done, the bytes written: the first ones of the buffer. Later
   bytes keep their content. A refusal writes nothing: that of the limits, the model's own, or 15 at sheet 2, whose place is the length
   needed; a buffer as long as the model is always long enough. The buffer must not overlap the model sheet, which is read while the
   copy is written. A null pointer with length 0 is an empty buffer. */
struct silfoddra_answer silfoddra_fair_copy(const uint8_t *model, size_t model_length,
                                            uint8_t *copy, size_t copy_length,
                                            uint32_t most_locations, uint32_t most_joints);

/* Beside the marking. Obligations, and hypotheses of an obligation, are numbered from 0 in the order of document 01. The rows of blanks
   that keep their value follow -d <= 0 in a flow, and stand among those of the other variables that stay in a jump, ascending by
   variable. An obligation has at most 129 hypotheses, so that the greatest number is 128. The model is read, then the second sheet, a
   certificate, up to the end of its regions; its proofs are not read. */

/* Where the row of one hypothesis stands: number 0, and its sheet and the offset of its first byte there, or 2 and 0 for a row
   that no sheet holds; done and score are 0. The limits and a sheet are refused as in marking; then 5 at sheet 2, place 0, where
   there is no such obligation or hypothesis. */
struct silfoddra_answer silfoddra_show_row(const uint8_t *model, size_t model_length,
                                           const uint8_t *second, size_t second_length,
                                           uint32_t obligation, uint32_t hypothesis,
                                           uint32_t most_locations, uint32_t most_joints);

/* The same row with its length in bytes, and what it is: its role among the hypotheses, and the component or variable that it is of. Its
   number, sheet and place are those of silfoddra_show_row, in a refusal too. */
struct silfoddra_row silfoddra_hypothesis(const uint8_t *model, size_t model_length,
                                          const uint8_t *second, size_t second_length,
                                          uint32_t obligation, uint32_t hypothesis,
                                          uint32_t most_locations, uint32_t most_joints);

/* Which obligation has a number: whether it is of a start, a flow, an unsafe condition or a jump, where, and which row. */
struct silfoddra_obligation silfoddra_which_obligation(const uint8_t *model, size_t model_length,
                                                       const uint8_t *second, size_t second_length,
                                                       uint32_t obligation,
                                                       uint32_t most_locations, uint32_t most_joints);

/* A typed row: what silfoddra_read_row hands back. */
struct silfoddra_typed_row {
    struct silfoddra_answer answer;
    /* The row: its coefficients, 0 for each variable that there is not, and its bound. In a refusal all of them are 0. */
    int32_t coefficients[8];
    int32_t bound;
};

/* Reads a row that was typed as text, such as `2*a - b <= 3*(c + 1)`, on so many variables: the letters from a on. It has one <= between
   two expressions of whole numbers, letters a to h, round brackets, +, - and *; spaces may stand between these and at either end. A minus
   before a factor binds first, then *, then + and -, from the left. The answer is (0, 2, 0, 0, 0), with the row: its variables
   collected on the left and its numbers on the right. Or it is a refusal, at sheet 2, whose place is an offset into the text:
     5 at 0: variables are not 1 to 8; tested before the text is looked at
    16 the text breaks the rules, at the first byte that no ending could mend; at the text's length where it only ends too early; at 255
       for every text over 255 bytes. All of 16 is tested before 17
    17 the first of these, left before right and operands before their operator: a product whose factors both have a coefficient other
       than 0, at the *; a letter beyond the variables, at the letter; a result outside s32, at the number's first digit, at the
       operator, or, where variables and numbers are collected, at the < of <=
   The text need not end in a zero byte. A null pointer with length 0 is an empty text. The call takes up to 100 KB of stack. */
struct silfoddra_typed_row silfoddra_read_row(const uint8_t *text, size_t length, uint32_t variables);

#ifdef __cplusplus
}
#endif

/* The layout that the library has: fields without gaps, in this order. */
#if defined __cplusplus && __cplusplus >= 201103L
#define SILFODDRA_STATIC_ASSERT static_assert
#elif defined __STDC_VERSION__ && __STDC_VERSION__ >= 201112L
#define SILFODDRA_STATIC_ASSERT _Static_assert
#endif

#ifdef SILFODDRA_STATIC_ASSERT
SILFODDRA_STATIC_ASSERT(sizeof(struct silfoddra_answer) == 20 && offsetof(struct silfoddra_answer, number) == 0 &&
                            offsetof(struct silfoddra_answer, sheet) == 4 && offsetof(struct silfoddra_answer, place) == 8 &&
                            offsetof(struct silfoddra_answer, done) == 12 && offsetof(struct silfoddra_answer, score) == 16,
                        "an answer is five numbers of four bytes");
SILFODDRA_STATIC_ASSERT(sizeof(struct silfoddra_obligation) == 24 && offsetof(struct silfoddra_obligation, number) == 0 &&
                            offsetof(struct silfoddra_obligation, sheet) == 4 && offsetof(struct silfoddra_obligation, place) == 8 &&
                            offsetof(struct silfoddra_obligation, kind) == 12 && offsetof(struct silfoddra_obligation, subject) == 16 &&
                            offsetof(struct silfoddra_obligation, line) == 20,
                        "an obligation is six numbers of four bytes");
SILFODDRA_STATIC_ASSERT(sizeof(struct silfoddra_row) == 24 && offsetof(struct silfoddra_row, number) == 0 &&
                            offsetof(struct silfoddra_row, sheet) == 4 && offsetof(struct silfoddra_row, place) == 8 &&
                            offsetof(struct silfoddra_row, size) == 12 && offsetof(struct silfoddra_row, role) == 16 &&
                            offsetof(struct silfoddra_row, owner) == 20,
                        "the row of a hypothesis is six numbers of four bytes");
SILFODDRA_STATIC_ASSERT(sizeof(struct silfoddra_joint) == 7 && offsetof(struct silfoddra_joint, source) == 0 &&
                            offsetof(struct silfoddra_joint, event) == 1 && offsetof(struct silfoddra_joint, switches) == 2 &&
                            offsetof(struct silfoddra_joint, target) == 6,
                        "a joint switch is seven bytes");
SILFODDRA_STATIC_ASSERT(sizeof(struct silfoddra_typed_row) == 56 && offsetof(struct silfoddra_typed_row, answer) == 0 &&
                            offsetof(struct silfoddra_typed_row, coefficients) == 20 && offsetof(struct silfoddra_typed_row, bound) == 52,
                        "a typed row is an answer and nine numbers of four bytes");
#undef SILFODDRA_STATIC_ASSERT
#endif

#endif
