#include "type.h"

#include "marker.h"
#include "words.h"

#include <inttypes.h>
#include <stdio.h>
#include <string.h>

/* Document 02, order 1: how long a text may be. The number of a refusal of the variables. */
enum { MOST_TEXT = 255, VARIABLES_REFUSED = 5 };

/* A number. The least has a size that cannot be typed. */
static void print_number(int64_t number)
{
    if (number == INT32_MIN)
        printf("-2147483647-1");
    else
        printf("%" PRId64, number);
}

/* A term of a sum: its sign, its coefficient unless that is 1, and its variable, with ' from the second half of the coefficients on. */
static void print_term(int64_t coefficient, size_t at, size_t variables, int is_first)
{
    int is_least = coefficient == INT32_MIN;
    int is_negative = coefficient < 0 && !is_least;
    int64_t size = is_negative ? -coefficient : coefficient;
    if (is_first)
        fputs(is_negative ? "-" : "", stdout);
    else
        fputs(is_negative ? " - " : " + ", stdout);
    if (size != 1) {
        fputs(is_least ? "(" : "", stdout);
        print_number(size);
        fputs(is_least ? ")*" : "*", stdout);
    }
    printf("%c%s", variable_letter(at % variables), at < variables ? "" : "'");
}

void print_inequality(const int64_t *numbers, size_t count, size_t variables)
{
    int is_first = 1;
    printf("  ");
    for (size_t i = 0; i + 1 < count; i++) {
        if (numbers[i] != 0) {
            print_term(numbers[i], i, variables, is_first);
            is_first = 0;
        }
    }
    printf("%s <= ", is_first ? "0" : "");
    print_number(numbers[count - 1]);
    printf("\n");
}

/* A row as a sheet has it: each number in four bytes. */
static void print_bytes(const int64_t *numbers, size_t count)
{
    printf(" ");
    for (size_t i = 0; i < count; i++) {
        uint32_t bits = (uint32_t)numbers[i];
        for (int shift = 24; shift >= 0; shift -= 8)
            printf(" %02" PRIx32, bits >> shift & 255);
    }
    printf("\n");
}

static void print_accepted(const struct silfoddra_typed_row *row, size_t variables)
{
    int64_t numbers[MOST_VARIABLES + 1];
    printf("Accepted: a row on %zu %s.\nCoefficients:", variables, variables == 1 ? "variable" : "variables");
    for (size_t v = 0; v < variables; v++) {
        numbers[v] = row->coefficients[v];
        printf(" %" PRId64, numbers[v]);
    }
    numbers[variables] = row->bound;
    printf(". Bound: %" PRId64 ".\n", numbers[variables]);
    print_bytes(numbers, variables + 1);
    print_inequality(numbers, variables + 1, variables);
}

/* Whether a byte can be shown as it is. */
static int is_shown(char byte)
{
    return byte >= ' ' && byte <= '~';
}

/* The place, and the text with a ^ under it. A byte that cannot be shown is a ?, so that each takes one column. */
static void print_place(const char *text, size_t length, size_t place)
{
    printf("Place: byte %zu of the text", place);
    if (length > MOST_TEXT)
        printf(", which has %zu bytes and may have %d", length, MOST_TEXT);
    else if (place >= length)
        printf(", its end");
    else if (!is_shown(text[place]))
        printf(", which is %02x, shown as ?", (unsigned char)text[place]);
    printf(".\n%s", length == 0 ? "" : "  ");
    for (size_t i = 0; i < length; i++)
        putchar(is_shown(text[i]) ? text[i] : '?');
    printf("\n  ");
    for (size_t i = 0; i < place; i++)
        putchar(' ');
    printf("^\n");
}

uint32_t print_typed_row(const char *text, uint32_t variables)
{
    size_t length = strlen(text);
    struct silfoddra_typed_row row = silfoddra_read_row((const uint8_t *)text, length, variables);
    if (row.answer.number == 0) {
        print_accepted(&row, variables);
    } else if (row.answer.number == VARIABLES_REFUSED) {
        print_refusal(&row.answer, NULL);
    } else {
        print_meaning(&row.answer, NULL);
        print_place(text, length, row.answer.place);
    }
    return row.answer.number;
}
