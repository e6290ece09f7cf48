// The question's answer, and the report of it.
#ifndef ANSWER_H
#define ANSWER_H

#include "program.h"

enum { LISTED = 1024 };

// What the bytes of the work area say of a setting.
enum { NO, EXPLAINS, MINIMAL };

// What a walk answers: minimal explanations, the lowest cost among them and the lowest setting that has it, the queries
// that one of them doesn't make true and those that one doesn't make false, bit q for query q, rounds and decided atoms
// over all settings, the list, and the work area with a byte for each setting. It starts as zeros.
typedef struct {
    int minimal, cheapest;
    uint64_t cost;
    uint64_t untrue, unfalse;
    long rounds, decided;
    uint16_t list[LISTED];
    uint8_t work[MOST_SETTINGS];
} Answer;

// The queries that are not open yet, so that a further minimal explanation can change them.
static inline uint64_t unsettled(const Answer *answer, const Case *c) {
    return (bit(c->queries) - 1) & ~(answer->untrue & answer->unfalse);
}

// Counts and lists a minimal explanation, and keeps it as the cheapest where it is the first or costs less.
void take_minimal(Answer *answer, int setting, uint64_t cost);

// Evaluates the queries that are not open yet in the least model of a minimal explanation.
void take_model(Answer *answer, const Case *c, Interpretation model);

// Writes the report to standard output.
void report(const Answer *answer, const Case *c, const Program *p);

#endif
