// A case's program as the walks take it: clauses ordered by head, causes, and what a setting adds.
#ifndef PROGRAM_H
#define PROGRAM_H

#include "case.h"

// A rule with its head as a word.
typedef struct {
    uint64_t head;
    Body body;
} Rule;

// The clauses, and the causes in atom order with the weight of each one's digit.
typedef struct {
    uint64_t heads;                     // the atoms with a clause
    uint64_t facts;                     // the heads of facts
    uint64_t assumed;                   // the heads of assumptions alone
    const Rule *first[MOST_ATOMS + 1];  // for each atom its first rule; the next atom's first rule ends them
    Rule rule[MOST_CLAUSES];            // the rules, ordered by head
    int causes, settings;
    uint64_t twofold;                   // the causes of two choices: nothing added, or a fact
    uint64_t priced;                    // the causes with a price over 0
    int cause[MOST_CAUSES];
    uint64_t word[MOST_CAUSES];         // the causes again, each as a word
    int weight[MOST_CAUSES];
} Program;

// What a setting adds to the program.
typedef struct {
    uint64_t facts, assumed;
} Added;

void prepare(Program *p, const Case *c);

// How many choices a cause has.
static inline int choices(const Program *p, int cause) { return p->twofold & bit(cause) ? 2 : 3; }

// What the next setting adds: the lowest digit that isn't its cause's last rises, those below it fall to 0.
static inline Added next_setting(const Program *p, Added x) {
    for (int i = 0; i < p->causes; i++) {
        uint64_t cause = p->word[i];
        if (x.facts & cause) {
            if (!(p->twofold & cause)) return (Added){x.facts ^ cause, x.assumed | cause};
            x.facts ^= cause;
            continue;
        }
        if (!(x.assumed & cause)) return (Added){x.facts | cause, x.assumed};
        x.assumed ^= cause;
    }
    return x;
}

#endif
