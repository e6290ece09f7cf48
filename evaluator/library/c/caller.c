/* Names every constant of causes.h and calls every function, for the driver in src/from_c.rs to compare with the
 * evaluator. A case file comes on standard input.
 *
 *   constants                  NAME VALUE, a line each
 *   texts                      NUMBER TEXT, a line for each number up to 40 that has one; then the version
 *   calls SETTING SLOTS WORK OUT TEXT
 *                              what each function answers and writes: by the plain calls, then by the struct's
 *   short                      what each function answers with one element too few of each lent memory
 */
#include "causes_case.h"
#include "names.h"

#include <inttypes.h>
#include <stdio.h>
#include <stdlib.h>

static uint8_t file[40000];
static size_t file_bytes;
static struct causes_case lent;
static uint64_t found[CAUSES_READ_WORDS];
static uint16_t list[CAUSES_MINIMAL + 8];
static uint8_t work[CAUSES_SETTINGS + 8];
static uint8_t out[CAUSES_REPORT_BYTES + 8];

static void print_words(const char *name, const uint64_t *words, size_t count)
{
    size_t i;
    printf("%s", name);
    for (i = 0; i < count; i++)
        printf(" %" PRIu64, words[i]);
    printf("\n");
}

static void print_bytes(const char *name, const uint8_t *bytes, size_t count)
{
    size_t i;
    printf("%s", name);
    for (i = 0; i < count; i++)
        printf(" %u", (unsigned)bytes[i]);
    printf("\n");
}

/* The names of verdicts behind a refusal's name. */
static void print_verdicts(uint32_t refusal, const uint64_t *verdicts, size_t count)
{
    size_t i;
    printf("question %s", refusal_name(refusal));
    for (i = 0; i < count; i++)
        printf(" %s", verdict_name(verdicts[i]));
    printf("\n");
}

/* What the layers of a case are, behind a refusal's name. */
static void print_layers(uint32_t refusal, uint64_t layered, uint64_t count, const uint64_t *entries)
{
    printf("layers %s %" PRIu64 " %" PRIu64, refusal_name(refusal), layered, count);
    print_words("", entries, CAUSES_ATOMS);
}

static void print_list(size_t slots)
{
    size_t i;
    printf("list");
    for (i = 0; i < slots; i++)
        printf(" %u", (unsigned)list[i]);
    printf("\n");
}

/* The list and the work area as they are lent. */
static void blank(void)
{
    memset(list, 0xee, sizeof list);
    memset(work, 0xee, sizeof work);
    memset(out, '?', sizeof out);
}

static uint32_t read_file(void)
{
    return causes_read(file, file_bytes, lent.clauses, CAUSES_CLAUSE_WORDS, lent.constraints, CAUSES_CONSTRAINT_WORDS,
                       lent.formula, CAUSES_FORMULA_BYTES, lent.names, CAUSES_NAMES_BYTES, lent.prices, CAUSES_PRICES,
                       found, CAUSES_READ_WORDS);
}

static void print_tables(void)
{
    size_t i;
    print_words("clauses", lent.clauses, CAUSES_CLAUSE_WORDS);
    print_words("constraints", lent.constraints, CAUSES_CONSTRAINT_WORDS);
    print_bytes("formula", lent.formula, CAUSES_FORMULA_BYTES);
    print_bytes("names", lent.names, CAUSES_NAMES_BYTES);
    printf("prices");
    for (i = 0; i < CAUSES_PRICES; i++)
        printf(" %" PRIu32, lent.prices[i]);
    printf("\n");
}

/* The output as it is lent. */
static void print_out(size_t bytes)
{
    fwrite(out, 1, bytes, stdout);
    printf("\n");
}

static void plain_calls(uint64_t setting, size_t slots, size_t bytes, size_t out_bytes, size_t text_bytes)
{
    uint64_t settled[CAUSES_SETTLE_WORDS], answer[CAUSES_QUESTION_WORDS], layers[CAUSES_LAYERS_WORDS];
    uint64_t length[CAUSES_REPORT_WORDS], written[CAUSES_WRITE_WORDS];
    uint32_t refusal;
    memset(&lent, 0xee, sizeof lent);
    printf("read %s\n", refusal_name(read_file()));
    print_words("found", found, CAUSES_READ_WORDS);
    print_tables();
    refusal = causes_settle(found + 1, CAUSES_RECORD_WORDS, lent.clauses, CAUSES_CLAUSE_WORDS,
                            lent.constraints, CAUSES_CONSTRAINT_WORDS, lent.formula, CAUSES_FORMULA_BYTES,
                            setting, settled, CAUSES_SETTLE_WORDS);
    printf("settle %s\n", refusal_name(refusal));
    print_words("settled", settled, CAUSES_SETTLE_WORDS);
    blank();
    refusal = causes_question(found + 1, CAUSES_RECORD_WORDS, lent.clauses, CAUSES_CLAUSE_WORDS,
                              lent.constraints, CAUSES_CONSTRAINT_WORDS, lent.formula, CAUSES_FORMULA_BYTES,
                              lent.prices, CAUSES_PRICES, list, slots, work, bytes, answer, CAUSES_QUESTION_WORDS);
    print_verdicts(refusal, answer, CAUSES_QUERIES);
    print_words("answer", answer, CAUSES_QUESTION_WORDS);
    print_list(slots);
    print_bytes("work", work, bytes);
    refusal = causes_layers(found + 1, CAUSES_RECORD_WORDS, lent.clauses, CAUSES_CLAUSE_WORDS,
                            lent.constraints, CAUSES_CONSTRAINT_WORDS, lent.formula, CAUSES_FORMULA_BYTES,
                            layers, CAUSES_LAYERS_WORDS);
    print_layers(refusal, layers[0], layers[1], layers + 2);
    refusal = causes_report(file, file_bytes, out, out_bytes, length, CAUSES_REPORT_WORDS);
    printf("report %s\n", refusal_name(refusal));
    print_words("length", length, CAUSES_REPORT_WORDS);
    print_out(out_bytes);
    blank();
    refusal = causes_write(found + 1, CAUSES_RECORD_WORDS, lent.clauses, CAUSES_CLAUSE_WORDS,
                           lent.constraints, CAUSES_CONSTRAINT_WORDS, lent.formula, CAUSES_FORMULA_BYTES,
                           lent.names, CAUSES_NAMES_BYTES, lent.prices, CAUSES_PRICES, out, text_bytes,
                           written, CAUSES_WRITE_WORDS);
    printf("write %s\n", refusal_name(refusal));
    print_words("length", written, CAUSES_WRITE_WORDS);
    print_out(text_bytes);
}

static void struct_calls(uint64_t setting, size_t slots, size_t bytes, size_t text_bytes)
{
    struct causes_settled settled;
    struct causes_answer answer;
    struct causes_layering layering;
    uint8_t causes[CAUSES_ATOMS], choices[CAUSES_ATOMS + 1];
    char name[CAUSES_NAME_BYTES + 1];
    uint64_t line, length;
    size_t i;
    uint32_t refusal;
    memset(&lent, 0xee, sizeof lent);
    refusal = causes_case_read(&lent, file, file_bytes, &line);
    printf("read %s %" PRIu64 "\n", refusal_name(refusal), line);
    print_words("record", lent.record, CAUSES_RECORD_WORDS);
    print_tables();
    print_bytes("causes", causes, causes_case_causes(&lent, causes));
    for (i = 0; i < CAUSES_ATOMS + 1; i++)
        choices[i] = (uint8_t)causes_case_choices(&lent, i);
    print_bytes("choices", choices, CAUSES_ATOMS + 1);
    printf("edition %" PRIu64 "\n", causes_case_edition(&lent));
    for (i = 0; i < CAUSES_ATOMS + 1; i++) {
        causes_case_name(&lent, i, name);
        printf("name %s\n", name);
    }
    refusal = causes_case_settle(&lent, setting, &settled);
    printf("settle %s %" PRIu64 " %" PRIu64 " %" PRIu64 " %" PRIu64 "\n", refusal_name(refusal), settled.trues,
           settled.falses, settled.rounds, settled.decided);
    blank();
    refusal = causes_case_question(&lent, list, slots, work, bytes, &answer);
    print_verdicts(refusal, answer.verdicts, (size_t)answer.queries);
    print_words("verdicts", answer.verdicts, CAUSES_QUERIES);
    printf("counts %" PRIu64 " %" PRIu64 " %" PRIu64 " %" PRIu64 " %" PRIu64 " %" PRIu64 "\n", answer.minimal,
           answer.listed, answer.rounds, answer.decided, answer.cost, answer.cheapest);
    print_list(slots);
    print_bytes("work", work, bytes);
    refusal = causes_case_layers(&lent, &layering);
    print_layers(refusal, layering.layered, layering.count, layering.entries);
    refusal = causes_case_write(&lent, out, text_bytes, &length);
    printf("write %s %" PRIu64 "\n", refusal_name(refusal), length);
    print_out(text_bytes);
    printf("read %s\n", refusal_name(causes_case_read(&lent, file, file_bytes, NULL)));
}

/* Each lent memory in its turn, one element short: of reading, settling, the question, layers, writing and the report. */
static void short_calls(void)
{
    uint64_t answer[CAUSES_LAYERS_WORDS];
    size_t at, less[8];
    uint32_t refusal;
    printf("read %s\n", refusal_name(read_file()));
    for (at = 0; at < 8; at++) {
        memset(less, 0, sizeof less);
        less[at] = 1;
        refusal = causes_read(file, file_bytes, lent.clauses, CAUSES_CLAUSE_WORDS - less[0],
                              lent.constraints, CAUSES_CONSTRAINT_WORDS - less[1],
                              lent.formula, CAUSES_FORMULA_BYTES - less[2],
                              lent.names, CAUSES_NAMES_BYTES - less[3],
                              lent.prices, CAUSES_PRICES - less[4], answer, CAUSES_READ_WORDS - less[5]);
        printf("%s", refusal_name(refusal));
        refusal = causes_settle(found + 1, CAUSES_RECORD_WORDS - less[3], lent.clauses, CAUSES_CLAUSE_WORDS - less[0],
                                lent.constraints, CAUSES_CONSTRAINT_WORDS - less[1],
                                lent.formula, CAUSES_FORMULA_BYTES - less[2], 0,
                                answer, CAUSES_SETTLE_WORDS - less[5]);
        printf(" %s", refusal_name(refusal));
        refusal = causes_question(found + 1, CAUSES_RECORD_WORDS - less[3], lent.clauses, CAUSES_CLAUSE_WORDS - less[0],
                                  lent.constraints, CAUSES_CONSTRAINT_WORDS - less[1],
                                  lent.formula, CAUSES_FORMULA_BYTES - less[2],
                                  lent.prices, CAUSES_PRICES - less[4], list, CAUSES_MINIMAL - less[6],
                                  work, CAUSES_SETTINGS - less[7], answer, CAUSES_QUESTION_WORDS - less[5]);
        printf(" %s", refusal_name(refusal));
        refusal = causes_layers(found + 1, CAUSES_RECORD_WORDS - less[3], lent.clauses, CAUSES_CLAUSE_WORDS - less[0],
                                lent.constraints, CAUSES_CONSTRAINT_WORDS - less[1],
                                lent.formula, CAUSES_FORMULA_BYTES - less[2], answer, CAUSES_LAYERS_WORDS - less[5]);
        printf(" %s", refusal_name(refusal));
        refusal = causes_write(found + 1, CAUSES_RECORD_WORDS - less[6], lent.clauses, CAUSES_CLAUSE_WORDS - less[0],
                               lent.constraints, CAUSES_CONSTRAINT_WORDS - less[1],
                               lent.formula, CAUSES_FORMULA_BYTES - less[2], lent.names, CAUSES_NAMES_BYTES - less[3],
                               lent.prices, CAUSES_PRICES - less[4], out, CAUSES_FILE_BYTES,
                               answer, CAUSES_WRITE_WORDS - less[5]);
        printf(" %s", refusal_name(refusal));
        refusal = causes_report(file, file_bytes, out, CAUSES_REPORT_BYTES, answer, CAUSES_REPORT_WORDS - less[5]);
        printf(" %s\n", refusal_name(refusal));
    }
}

static void print_texts(void)
{
    uint32_t number;
    for (number = 0; number <= 40; number++)
        if (causes_refusal_text(number) != NULL)
            printf("%" PRIu32 " %s\n", number, causes_refusal_text(number));
    printf("%s %s\n", CAUSES_VERSION, causes_version());
}

/* The argument at a place as a number. */
static uint64_t number(char **words, int at)
{
    return strtoull(words[at], NULL, 10);
}

int main(int count, char **words)
{
    const char *what = count > 1 ? words[1] : "";
    if (strcmp(what, "constants") == 0) {
        print_constants();
        return 0;
    }
    if (strcmp(what, "texts") == 0) {
        print_texts();
        return 0;
    }
    file_bytes = fread(file, 1, sizeof file, stdin);
    if (strcmp(what, "short") == 0) {
        short_calls();
        return 0;
    }
    if (strcmp(what, "calls") == 0 && count == 7 && number(words, 3) <= CAUSES_MINIMAL
        && number(words, 4) <= CAUSES_SETTINGS && number(words, 5) <= CAUSES_REPORT_BYTES
        && number(words, 6) <= CAUSES_REPORT_BYTES) {
        plain_calls(number(words, 2), (size_t)number(words, 3), (size_t)number(words, 4), (size_t)number(words, 5),
                    (size_t)number(words, 6));
        struct_calls(number(words, 2), (size_t)number(words, 3), (size_t)number(words, 4), (size_t)number(words, 6));
        return 0;
    }
    fprintf(stderr, "caller: constants | texts | short | calls SETTING SLOTS WORK OUT TEXT\n");
    return 2;
}
