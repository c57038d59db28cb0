/* Tries every call with null pointers of length 0, for each sheet, for the table, for the buffer and for a typed text, and compares the
   numbers handed back with those for an empty sheet, table, buffer or text that has an address. Limits are the exam's. Words: a model, a
   certificate and a run sheet of it, and a model without joint switches. */
#include "marker.h"
#include "sheet.h"

#include <inttypes.h>
#include <stdio.h>
#include <string.h>

enum { SHEETS = 4, RECORDS = 2, BYTES = 2, COEFFICIENTS = 8, MOST_NUMBERS = 5 + COEFFICIENTS + 1 };

/* What lent memory is filled with. */
enum { FILLED = 77 };

static uint8_t no_bytes[1];
static struct silfoddra_joint no_records[1];

static const uint32_t most_locations = SILFODDRA_EXAM_LOCATIONS;
static const uint32_t most_joints = SILFODDRA_EXAM_JOINTS;

static const struct sheet null = {.name = "null", .bytes = NULL, .length = 0};
static const struct sheet empty = {.name = "empty", .bytes = no_bytes, .length = 0};

/* What a call handed back. */
struct numbers {
    size_t count;
    uint32_t at[MOST_NUMBERS];
};

static struct numbers from_answer(struct silfoddra_answer a)
{
    return (struct numbers){5, {a.number, a.sheet, a.place, a.done, a.score}};
}

static struct numbers certificate(const struct sheet *model, const struct sheet *second)
{
    return from_answer(silfoddra_mark_certificate(model->bytes, model->length, second->bytes, second->length,
                                                  most_locations, most_joints));
}

static struct numbers run(const struct sheet *model, const struct sheet *second)
{
    return from_answer(silfoddra_mark_run(model->bytes, model->length, second->bytes, second->length,
                                          most_locations, most_joints));
}

static struct numbers row(const struct sheet *model, const struct sheet *second)
{
    return from_answer(silfoddra_show_row(model->bytes, model->length, second->bytes, second->length, 0, 0,
                                          most_locations, most_joints));
}

static struct numbers hypothesis(const struct sheet *model, const struct sheet *second)
{
    struct silfoddra_row r = silfoddra_hypothesis(model->bytes, model->length, second->bytes, second->length, 0, 0,
                                                  most_locations, most_joints);
    return (struct numbers){6, {r.number, r.sheet, r.place, r.size, r.role, r.owner}};
}

static struct numbers obligation(const struct sheet *model, const struct sheet *second)
{
    struct silfoddra_obligation o = silfoddra_which_obligation(model->bytes, model->length, second->bytes, second->length, 0,
                                                               most_locations, most_joints);
    return (struct numbers){6, {o.number, o.sheet, o.place, o.kind, o.subject, o.line}};
}

/* The buffer is lent as a sheet is. */
static struct numbers fair_copy(const struct sheet *model, const struct sheet *buffer)
{
    return from_answer(silfoddra_fair_copy(model->bytes, model->length, buffer->bytes, buffer->length, most_locations, most_joints));
}

/* Prints what the call with null handed back. Returns 1 if it is not what the other call handed back, else 0. */
static int compare(const char *call, const char *first, const char *second, struct numbers with_null, struct numbers with_empty)
{
    int differs = memcmp(with_null.at, with_empty.at, sizeof with_null.at) != 0;
    printf("%s(%s, %s):", call, first, second);
    for (size_t i = 0; i < with_null.count; i++)
        printf(" %" PRIu32, with_null.at[i]);
    printf("%s\n", differs ? ", but other numbers for an empty one" : "");
    return differs;
}

/* Whether lent memory has other bytes than it was filled with: 1, which is printed, or 0. */
static int has_changed(const void *memory, size_t size)
{
    const uint8_t *bytes = memory;
    for (size_t i = 0; i < size; i++) {
        if (bytes[i] != FILLED) {
            printf("what was lent has changed\n");
            return 1;
        }
    }
    return 0;
}

/* A call on two sheets, with null for the one, the other and both. Returns how often it differs. */
static int try_sheets(const char *name, struct numbers (*call)(const struct sheet *, const struct sheet *), const struct sheet *model,
                      const struct sheet *second)
{
    int differences = compare(name, null.name, second->name, call(&null, second), call(&empty, second));
    differences += compare(name, model->name, null.name, call(model, &null), call(model, &empty));
    differences += compare(name, null.name, null.name, call(&null, &null), call(&empty, &empty));
    return differences;
}

/* The joint list with null for the table, beside another call of it with an empty table. */
static int try_table(const struct sheet *model, const struct sheet *other_model)
{
    return compare("silfoddra_joint_list", model->name, "null",
                   from_answer(silfoddra_joint_list(model->bytes, model->length, NULL, 0, most_locations, most_joints)),
                   from_answer(silfoddra_joint_list(other_model->bytes, other_model->length, no_records, 0, most_locations, most_joints)));
}

/* The joint list with null for the model, and a table whose records must keep their content. */
static int try_records(void)
{
    struct silfoddra_joint table[RECORDS];
    memset(table, FILLED, sizeof table);
    int differs = compare("silfoddra_joint_list", null.name, "2 records",
                          from_answer(silfoddra_joint_list(NULL, 0, table, RECORDS, most_locations, most_joints)),
                          from_answer(silfoddra_joint_list(no_bytes, 0, table, RECORDS, most_locations, most_joints)));
    return differs + has_changed(table, sizeof table);
}

/* The fair copy with null for the model, for the buffer and for both; the buffer must keep its content, as each is refused. */
static int try_buffer(const struct sheet *model)
{
    uint8_t bytes[BYTES];
    memset(bytes, FILLED, sizeof bytes);
    struct sheet buffer = {.name = "2 bytes", .bytes = bytes, .length = BYTES};
    int differences = try_sheets("silfoddra_fair_copy", fair_copy, model, &buffer);
    return differences + has_changed(bytes, sizeof bytes);
}

/* The typed row of an empty text, on so many variables. */
static struct numbers typed_row(const uint8_t *text, uint32_t variables)
{
    struct silfoddra_typed_row row = silfoddra_read_row(text, 0, variables);
    struct numbers numbers = from_answer(row.answer);
    for (size_t v = 0; v < COEFFICIENTS; v++)
        numbers.at[numbers.count++] = (uint32_t)row.coefficients[v];
    numbers.at[numbers.count++] = (uint32_t)row.bound;
    return numbers;
}

/* Every call. Returns how many differ. */
static int try_all(const struct sheet *model, const struct sheet *second, const struct sheet *run_sheet, const struct sheet *lone_model)
{
    int differences = try_sheets("silfoddra_mark_certificate", certificate, model, second);
    differences += try_sheets("silfoddra_mark_run", run, model, run_sheet);
    differences += try_sheets("silfoddra_show_row", row, model, second);
    differences += try_sheets("silfoddra_hypothesis", hypothesis, model, second);
    differences += try_sheets("silfoddra_which_obligation", obligation, model, second);
    differences += try_table(model, model);
    differences += try_table(lone_model, lone_model);
    differences += try_table(&null, &empty);
    differences += try_records();
    differences += try_buffer(model);
    differences += compare("silfoddra_read_row", "null", "2 variables", typed_row(NULL, 2), typed_row(no_bytes, 2));
    differences += compare("silfoddra_read_row", "null", "9 variables", typed_row(NULL, 9), typed_row(no_bytes, 9));
    return differences;
}

int main(int count, char **words)
{
    struct sheet sheets[SHEETS] = {0};
    int differences = 0;
    int is_read = count == SHEETS + 1;
    for (int i = 0; i < SHEETS && is_read; i++)
        is_read = sheet_read(&sheets[i], words[i + 1]) == 0;
    if (is_read) {
        differences = try_all(&sheets[0], &sheets[1], &sheets[2], &sheets[3]);
        printf("differences: %d\n", differences);
    } else {
        fprintf(stderr, "usage: null MODEL CERTIFICATE RUN MODEL_WITHOUT_JOINT_SWITCHES\n");
    }
    for (int i = 0; i < SHEETS; i++)
        sheet_free(&sheets[i]);
    return !is_read ? 2 : differences != 0;
}
