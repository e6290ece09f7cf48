// Preparing a case's program, once a case.
#include "program.h"

#include <string.h>

// Takes heads, facts and assumptions.
static void take_words(Program *p, const Case *c) {
    uint64_t ruled = 0;
    for (const Clause *q = c->clause; q < c->clause + c->clauses; q++) {
        p->heads |= bit(q->head);
        if (q->kind == FACT) p->facts |= bit(q->head);
        if (q->kind == RULE) ruled |= bit(q->head);
    }
    p->assumed = p->heads & ~p->facts & ~ruled;
}

// Takes the rules, head by head.
static void take_rules(Program *p, const Case *c) {
    Rule *rule = p->rule;
    for (int a = 0; a < MOST_ATOMS; a++) {
        p->first[a] = rule;
        for (const Clause *q = c->clause; q < c->clause + c->clauses; q++)
            if (q->kind == RULE && q->head == a) *rule++ = (Rule){bit(a), q->body};
    }
    p->first[MOST_ATOMS] = rule;
}

// Takes the causes: the atoms without a clause, and in edition 2 those of assumptions alone.
static void take_causes(Program *p, const Case *c) {
    p->settings = 1;
    if (c->edition == 2) p->twofold = p->assumed;
    for (int a = 0; a < c->atoms; a++) {
        if (p->heads & ~p->twofold & bit(a)) continue;
        if (p->settings > MOST_SETTINGS / choices(p, a)) fail("too many settings");
        if (c->price[a] != 0) p->priced |= bit(a);
        p->cause[p->causes] = a;
        p->word[p->causes] = bit(a);
        p->weight[p->causes++] = p->settings;
        p->settings *= choices(p, a);
    }
}

void prepare(Program *p, const Case *c) {
    memset(p, 0, sizeof *p);
    take_words(p, c);
    take_rules(p, c);
    take_causes(p, c);
}
