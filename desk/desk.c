/* The exam desk, which is the practice desk too: marks a paper with the proved entries and says the answer in words. */
#include "fair.h"
#include "limits.h"
#include "marker.h"
#include "model.h"
#include "obligation.h"
#include "paper.h"
#include "run.h"
#include "sheet.h"
#include "status.h"
#include "type.h"
#include "words.h"

#include <inttypes.h>
#include <stdio.h>
#include <string.h>

static const char help[] =
    "usage: desk MODEL SECOND             mark a certificate or a run sheet\n"
    "       desk --row O H MODEL SECOND   show hypothesis H of obligation O (both from 0) of a certificate\n"
    "       desk --joints MODEL           list the model's joint switches\n"
    "       desk --fair MODEL COPY        write the model's fair copy to the file COPY, never over MODEL itself\n"
    "       desk --same MODEL OTHER       say whether two models have the same fair copy\n"
    "       desk --type N TEXT            turn a row on N variables, typed as text, into its numbers\n"
    "       desk --practice ..            any of the first five at the practice desk: at most 16 locations and 256 joint switches\n"
    "       desk --limits L J ..          any of the first five with other limits: at most L locations and J joint switches\n"
    "       desk --help                   this text\n"
    "\n"
    "MODEL, SECOND and OTHER are files with one sheet each. SECOND is marked as a run if its byte 3 is 3, else as a certificate.\n"
    "Variables are the letters a to h, in the model's order; a' is the value of a after a flow or a jump.\n"
    "In a model of version 2 or 3 a variable keeps its value in a flow if no flow row of its component's present mode mentions it, and\n"
    "in a jump if no row of its component's switch mentions its new value. In version 1 it need not.\n"
    "Sheets of version 3 have a paper number. A model of version 3 takes a SECOND of version 3 with the same number, a model of version\n"
    "1 or 2 one of version 1.\n"
    "A fair copy has the model's version and paper number, each row divided by the greatest common divisor of its numbers, no row that\n"
    "always holds, and rows in ascending order, each once. Models with the same one allow the same runs; with different ones they still\n"
    "may. Certificates are for the model that they were drawn for, not for its copy.\n"
    "TEXT has one <= between two expressions of whole numbers, letters, round brackets, +, - and *, such as 2*(a - 1) <= b.\n"
    "Without --practice and --limits a model may have the exam's 64 locations and 4,096 joint switches. L and J are whole numbers to\n"
    "4294967295; papers are refused unless L is from 1 to 64 and J from 1 to 4,096. A paper within the limits of two desks gets the\n"
    "same answer at both.\n"
    "Status: 0 accepted or the same, 1 refused or different, 2 the desk could not do what was asked.\n";

/* What is asked for: how it is answered, and on what. */
struct request {
    int (*answer)(const struct request *request);
    const char *model_name;  /* null where no sheet is needed */
    const char *second_name; /* null where one sheet is enough */
    struct paper paper;
    uint32_t obligation;
    uint32_t hypothesis;
    const char *copy_name;
    const char *text;
    uint32_t variables;
};

/* Says why a paper is refused, and its model's version if it is known. */
static void refuse(const struct silfoddra_answer *answer, const struct paper *paper)
{
    print_refusal(answer, paper);
    if (is_version_known(answer))
        print_version(&paper->model);
}

static int mark_run(const struct paper *paper)
{
    const struct sheet *model = &paper->model;
    const struct sheet *run = &paper->second;
    struct silfoddra_answer answer =
        silfoddra_mark_run(model->bytes, model->length, run->bytes, run->length, paper->limits.locations, paper->limits.joints);
    if (answer.number == 0) {
        printf("Accepted: a run of the model that ends in an unsafe state.\n");
        print_version(model);
        printf("Steps: %" PRIu32 ". Score: %" PRIu32 ".\n", answer.done, answer.score);
        return ACCEPTED;
    }
    refuse(&answer, paper);
    printf("Steps passed: %" PRIu32 ". Score: %" PRIu32 ".\n", answer.done, answer.score);
    print_run_fault(&answer, model, run);
    return REFUSED;
}

static int mark_certificate(const struct paper *paper)
{
    const struct sheet *model = &paper->model;
    const struct sheet *certificate = &paper->second;
    struct silfoddra_answer answer = silfoddra_mark_certificate(model->bytes, model->length, certificate->bytes, certificate->length,
                                                                paper->limits.locations, paper->limits.joints);
    if (answer.number == 0) {
        printf("Accepted: no run of the model reaches an unsafe state.\n");
        print_version(model);
        printf("Proofs: %" PRIu32 ". Score: %" PRIu32 ".\n", answer.done, answer.score);
        return ACCEPTED;
    }
    refuse(&answer, paper);
    printf("Proofs passed: %" PRIu32 ". Score: %" PRIu32 ".\n", answer.done, answer.score);
    print_obligation(paper, answer.done);
    return REFUSED;
}

static int mark(const struct request *request)
{
    int is_run = sheet_byte(&request->paper.second, 3) == 3;
    return is_run ? mark_run(&request->paper) : mark_certificate(&request->paper);
}

static int show_row(const struct request *request)
{
    const struct paper *paper = &request->paper;
    struct silfoddra_row row =
        silfoddra_hypothesis(paper->model.bytes, paper->model.length, paper->second.bytes, paper->second.length, request->obligation,
                             request->hypothesis, paper->limits.locations, paper->limits.joints);
    if (row.number != 0) {
        struct silfoddra_answer answer = {.number = row.number, .sheet = row.sheet, .place = row.place};
        print_refusal(&answer, paper);
        return REFUSED;
    }
    print_version(&paper->model);
    print_obligation(paper, request->obligation);
    print_hypothesis(paper, request->obligation, request->hypothesis, &row);
    return ACCEPTED;
}

static int list_joints(const struct request *request)
{
    const struct sheet *model = &request->paper.model;
    const struct silfoddra_joint *records;
    struct silfoddra_answer answer = model_joints(model, &request->paper.limits, &records);
    if (answer.number != 0) {
        print_refusal(&answer, &request->paper);
        return REFUSED;
    }
    printf("Joint switches: %" PRIu32 ".\n", answer.done);
    for (uint32_t i = 0; i < answer.done; i++) {
        printf("%" PRIu32 ": ", i);
        print_joint(model, &records[i]);
    }
    return ACCEPTED;
}

static int copy_model(const struct request *request)
{
    return write_fair_copy(&request->paper, request->copy_name);
}

static int compare_models(const struct request *request)
{
    return compare_fair_copies(&request->paper);
}

static int type_row(const struct request *request)
{
    return print_typed_row(request->text, request->variables) == 0 ? ACCEPTED : REFUSED;
}

/* A whole number from 0 to 2^32 - 1. Returns 0, or says what is wrong and returns -1. */
static int read_number(const char *word, uint32_t *number)
{
    uint64_t value = 0;
    if (*word == '\0')
        value = UINT64_MAX;
    for (const char *p = word; *p != '\0' && value <= UINT32_MAX; p++)
        value = *p >= '0' && *p <= '9' ? value * 10 + (uint64_t)(*p - '0') : UINT64_MAX;
    if (value > UINT32_MAX) {
        fprintf(stderr, "desk: %s is not a whole number from 0 to 4294967295\n", word);
        return -1;
    }
    *number = (uint32_t)value;
    return 0;
}

/* That a copy is not written over its model. Returns 0, or says that it would be and returns -1. */
static int check_copy(const char *model_name, const char *copy_name)
{
    if (!sheet_is_one_file(model_name, copy_name))
        return 0;
    fprintf(stderr, "desk: %s and %s are one file; a copy is not written over its model\n", model_name, copy_name);
    return -1;
}

/* Whether the first word of the command is this one. */
static int is_first(const char *word, int count, char **words)
{
    return count > 1 && strcmp(words[1], word) == 0;
}

/* The limits that the first words of the command state; the exam's if they state none. Returns how many words that takes, or says what is
   wrong and returns -1. */
static int read_limits(struct limits *limits, int count, char **words)
{
    *limits = exam_limits;
    if (is_first("--practice", count, words)) {
        *limits = practice_limits;
        return 1;
    }
    if (count > 3 && is_first("--limits", count, words)) {
        limits->title = "Stated limits";
        return read_number(words[2], &limits->locations) == 0 && read_number(words[3], &limits->joints) == 0 ? 3 : -1;
    }
    return 0;
}

/* What the words of the command ask for, but for limits. Returns 0, or says what is wrong and returns -1. */
static int read_request(struct request *request, int count, char **words)
{
    if (count == 3 && is_first("--joints", count, words)) {
        *request = (struct request){.answer = list_joints, .model_name = words[2]};
        return 0;
    }
    if (count == 6 && is_first("--row", count, words)) {
        *request = (struct request){.answer = show_row, .model_name = words[4], .second_name = words[5]};
        return read_number(words[2], &request->obligation) == 0 ? read_number(words[3], &request->hypothesis) : -1;
    }
    if (count == 4 && is_first("--fair", count, words)) {
        *request = (struct request){.answer = copy_model, .model_name = words[2], .copy_name = words[3]};
        return check_copy(words[2], words[3]);
    }
    if (count == 4 && is_first("--same", count, words)) {
        *request = (struct request){.answer = compare_models, .model_name = words[2], .second_name = words[3]};
        return 0;
    }
    if (count == 4 && is_first("--type", count, words)) {
        *request = (struct request){.answer = type_row, .text = words[3]};
        return read_number(words[2], &request->variables);
    }
    if (count == 3 && words[1][0] != '-') {
        *request = (struct request){.answer = mark, .model_name = words[1], .second_name = words[2]};
        return 0;
    }
    fputs(help, stderr);
    return -1;
}

/* What all words of the command ask for. Returns 0, or says what is wrong and returns -1. */
static int read_words(struct request *request, int count, char **words)
{
    struct limits limits;
    int stated = read_limits(&limits, count, words);
    if (stated < 0)
        return -1;
    count -= stated;
    words += stated;
    if (stated > 0 && (is_first("--practice", count, words) || is_first("--limits", count, words))) {
        fprintf(stderr, "desk: limits are stated once, by --practice or by --limits\n");
        return -1;
    }
    if (stated > 0 && is_first("--type", count, words)) {
        fprintf(stderr, "desk: --type takes no limits, as it reads no model\n");
        return -1;
    }
    if (read_request(request, count, words) != 0)
        return -1;
    request->paper.limits = limits;
    return 0;
}

/* Reads the sheets, where there are any, and answers. */
static int serve(struct request *request)
{
    struct paper *paper = &request->paper;
    int status = UNUSABLE;
    if ((request->model_name == NULL || sheet_read(&paper->model, request->model_name) == 0) &&
        (request->second_name == NULL || sheet_read(&paper->second, request->second_name) == 0)) {
        print_limits(&paper->limits);
        status = request->answer(request);
    }
    sheet_free(&paper->second);
    sheet_free(&paper->model);
    return status;
}

int main(int count, char **words)
{
    struct request request;
    int status = UNUSABLE;
    if (count == 2 && is_first("--help", count, words)) {
        fputs(help, stdout);
        status = ACCEPTED;
    } else if (read_words(&request, count, words) == 0) {
        status = serve(&request);
    }
    if (fflush(stdout) != 0 || ferror(stdout)) {
        fprintf(stderr, "desk: cannot write to standard output\n");
        return UNUSABLE;
    }
    return status;
}
