/* The constants of causes.h by name. */
#ifndef NAMES_H
#define NAMES_H

#include "causes_case.h"

#include <inttypes.h>
#include <stdio.h>

/* A constant's name without its front, and its value. */
struct named {
    const char *name;
    uint64_t value;
};

#define NAMED(name) {#name, CAUSES_##name}

static const struct named verdicts[] = {NAMED(UNEXPLAINED), NAMED(FOLLOWS), NAMED(DENIED), NAMED(OPEN)};

static const struct named refusals[] = {
    NAMED(SHORT), NAMED(LONG_FILE), NAMED(LONG_LINE), NAMED(BAD_BYTE), NAMED(NOT_A_FORM), NAMED(LONG_NAME),
    NAMED(DEEP_FORMULA), NAMED(MANY_NAMES), NAMED(MANY_CLAUSES), NAMED(MANY_QUERIES), NAMED(NO_QUERY),
    NAMED(MANY_CAUSES), NAMED(UNSOUND), NAMED(NO_SETTING), NAMED(SHORT_WORK), NAMED(HIGH_PRICE),
    NAMED(SECOND_COST), NAMED(LONG_TEXT), NAMED(SHORT_OUTPUT), NAMED(MANY_LITERALS), NAMED(SECOND_EDITION),
    NAMED(NO_LOAD), NAMED(SHORT_LOAD_OUTPUT),
};

static const struct named others[] = {
    NAMED(CLAUSE_WORDS), NAMED(CONSTRAINT_WORDS), NAMED(FORMULA_BYTES), NAMED(PART_BYTES), NAMED(NAMES_BYTES),
    NAMED(NAME_BYTES), NAMED(PRICES), NAMED(ATOMS), NAMED(FACT), NAMED(ASSUMPTION), NAMED(RULE), NAMED(NEVER),
    NAMED(AVOID), NAMED(NOT), NAMED(AND), NAMED(OR), NAMED(THEN), NAMED(SAME), NAMED(QUERIES), NAMED(FILE_BYTES),
    NAMED(SETTINGS), NAMED(MINIMAL), NAMED(REPORT_BYTES), NAMED(RECORD_WORDS), NAMED(READ_WORDS), NAMED(SETTLE_WORDS),
    NAMED(QUESTION_WORDS), NAMED(LAYERS_WORDS), NAMED(WRITE_WORDS), NAMED(REPORT_WORDS), NAMED(LITERALS),
    NAMED(READ_STACK), NAMED(SETTLE_STACK), NAMED(QUESTION_STACK), NAMED(LAYERS_STACK), NAMED(WRITE_STACK),
    NAMED(REPORT_STACK), NAMED(EDITION_1), NAMED(EDITION_2), NAMED(LOAD_BYTES), NAMED(GENERATE_WORDS),
    NAMED(GENERATE_STACK),
};

#define COUNT(rows) (sizeof(rows) / sizeof *(rows))

/* The name of a value among rows; a dash where there is none. */
static const char *name_of(const struct named *rows, size_t count, uint64_t value)
{
    size_t i;
    for (i = 0; i < count; i++)
        if (rows[i].value == value)
            return rows[i].name;
    return "-";
}

static const char *refusal_name(uint32_t number)
{
    return number == 0 ? "none" : name_of(refusals, COUNT(refusals), number);
}

static const char *verdict_name(uint64_t number)
{
    return name_of(verdicts, COUNT(verdicts), number);
}

static void print_rows(const struct named *rows, size_t count)
{
    size_t i;
    for (i = 0; i < count; i++)
        printf("%s %" PRIu64 "\n", rows[i].name, rows[i].value);
}

static void print_constants(void)
{
    print_rows(others, COUNT(others));
    print_rows(verdicts, COUNT(verdicts));
    print_rows(refusals, COUNT(refusals));
}

#endif
