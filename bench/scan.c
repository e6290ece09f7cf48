// The walk one setting at a time: each is settled by rounds over every clause, and its subsets are looked up.
#include "walk.h"

// The settled interpretation, its round count, and how many atoms the rounds decided.
typedef struct {
    Interpretation model;
    int rounds, decided;
} Settled;

// Whether a body is true in an interpretation: no plain atom that isn't true, no negated one that isn't false.
static inline int body_true(Body b, Interpretation i) {
    return ((b.plain & ~i.trues) | (b.negated & ~i.falses)) == 0;
}

// Whether a body is false in an interpretation: a plain atom is false or a negated one true.
static inline int body_false(Body b, Interpretation i) {
    return ((b.plain & i.falses) | (b.negated & i.trues)) != 0;
}

// One round over every clause: the facts are true; a head is false unless one of its bodies isn't.
static inline Interpretation next(const Program *p, Added x, Interpretation i) {
    uint64_t trues = p->facts | x.facts;
    uint64_t possible = trues;
    for (const Rule *r = p->rule, *end = p->first[MOST_ATOMS]; r < end; r++) {
        if (body_false(r->body, i)) continue;
        possible |= r->head;
        if (body_true(r->body, i)) trues |= r->head;
    }
    return (Interpretation){trues, (p->heads | x.assumed) & ~possible};
}

// How many atoms a round newly decided: undecided before it and decided after it.
static inline int newly_decided(Interpretation before, Interpretation after) {
    return (int)ones((after.trues | after.falses) & ~(before.trues | before.falses));
}

// Settles from nothing decided until a round changes nothing.
static Settled settle(const Program *p, Added x) {
    Interpretation now = {0, 0};
    int decided = 0;
    for (int rounds = 0;; rounds++) {
        Interpretation then = next(p, x, now);
        if (then.trues == now.trues && then.falses == now.falses) return (Settled){now, rounds, decided};
        decided += newly_decided(now, then);
        now = then;
    }
}

// Whether a constraint is met in an interpretation.
static inline int met(const Constraint *k, Interpretation i) {
    return k->kind == NEVER ? body_false(k->body, i) : !body_true(k->body, i);
}

// Whether every observation is true and every constraint met.
static int explains_in(const Case *c, Interpretation i) {
    if (!body_true(c->observed, i)) return 0;
    for (const Constraint *k = c->constraint; k < c->constraint + c->constraints; k++)
        if (!met(k, i)) return 0;
    return 1;
}

// Whether no proper subset of a setting explains. Goes down through them all: at each step one digit goes out and those
// below it come back.
static int is_minimal(const Program *p, const uint8_t *work, int setting, Added x) {
    int step[MOST_CAUSES], digits = 0, below = 0;
    for (int i = 0; i < p->causes; i++) {
        uint64_t cause = p->word[i];
        if (!((x.facts | x.assumed) & cause)) continue;
        int digit = x.facts & cause ? p->weight[i] : 2 * p->weight[i];
        step[digits++] = below - digit;
        below += digit;
    }
    for (unsigned k = 1; k < 1u << digits; k++) {
        setting += step[__builtin_ctz(k)];
        if (work[setting] != NO) return 0;
    }
    return 1;
}

// What a setting costs: a fact and an assumption cost the same.
static uint64_t cost_of(const Case *c, const Program *p, Added x) {
    uint64_t sum = 0;
    for (uint64_t left = (x.facts | x.assumed) & p->priced; left != 0; left &= left - 1) sum += c->price[lowest(left)];
    return sum;
}

void walk_scan(const Case *c, const Program *p, Answer *answer) {
    Added x = {0, 0};
    for (int setting = 0; setting < p->settings; setting++, x = next_setting(p, x)) {
        Settled s = settle(p, x);
        answer->rounds += s.rounds;
        answer->decided += s.decided;
        answer->work[setting] = NO;
        if (!explains_in(c, s.model)) continue;
        answer->work[setting] = EXPLAINS;
        if (!is_minimal(p, answer->work, setting, x)) continue;
        answer->work[setting] = MINIMAL;
        take_minimal(answer, setting, cost_of(c, p, x));
        take_model(answer, c, s.model);
    }
}
