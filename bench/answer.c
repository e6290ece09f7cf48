// The queries' values, the verdicts, and the report.
#include "answer.h"

#include <stdio.h>
#include <string.h>

enum { MOST_TEXT = 400000 };

// The values of a formula, in their order.
typedef enum { FALSE, UNKNOWN, TRUE } Value;

static Value lesser(Value v, Value w) { return v < w ? v : w; }
static Value greater(Value v, Value w) { return v < w ? w : v; }
static Value then(Value v, Value w) { return lesser(TRUE, TRUE - v + w); }

// The value of the formula whose first node is there; passes its nodes.
static Value value(const uint8_t **nodes, Interpretation i) {
    int n = *(*nodes)++;
    if (n < NOT) return i.trues & bit(n) ? TRUE : i.falses & bit(n) ? FALSE : UNKNOWN;
    Value v = value(nodes, i);
    if (n == NOT) return TRUE - v;
    Value w = value(nodes, i);
    switch (n) {
    case AND: return lesser(v, w);
    case OR: return greater(v, w);
    case THEN: return then(v, w);
    default: return lesser(then(v, w), then(w, v));
    }
}

void take_minimal(Answer *answer, int setting, uint64_t cost) {
    if (answer->minimal == 0 || cost < answer->cost) {
        answer->cost = cost;
        answer->cheapest = setting;
    }
    if (answer->minimal < LISTED) answer->list[answer->minimal] = (uint16_t)setting;
    answer->minimal++;
}

void take_model(Answer *answer, const Case *c, Interpretation model) {
    for (uint64_t left = unsettled(answer, c); left != 0; left &= left - 1) {
        const uint8_t *nodes = c->formula[lowest(left)];
        Value v = value(&nodes, model);
        if (v != TRUE) answer->untrue |= left & -left;
        if (v != FALSE) answer->unfalse |= left & -left;
    }
}

static const char *verdict(const Answer *answer, int query) {
    if (answer->minimal == 0) return "unexplained";
    if (!(answer->untrue & bit(query))) return "follows";
    return answer->unfalse & bit(query) ? "open" : "denied";
}

// Writes the line of one setting; answers the end of the text.
static char *put_setting(char *end, int setting, const Case *c, const Program *p) {
    end = stpcpy(end, "(cause");
    for (int i = 0; i < p->causes; i++) {
        int digit = setting / p->weight[i] % choices(p, p->cause[i]);
        if (digit == 0) continue;
        end = stpcpy(end, digit == 1 ? " (true " : " (false ");
        end = stpcpy(end, c->name[p->cause[i]]);
        *end++ = ')';
    }
    return stpcpy(end, ")\n");
}

void report(const Answer *answer, const Case *c, const Program *p) {
    static char text[MOST_TEXT];
    int listed = answer->minimal < LISTED ? answer->minimal : LISTED;
    char *end = text;
    for (int q = 0; q < c->queries; q++) end += sprintf(end, "(verdict %s)\n", verdict(answer, q));
    end += sprintf(end, "(rounds %ld)\n(decided %ld)\n", answer->rounds, answer->decided);
    end += sprintf(end, "(minimal %d %d)\n", answer->minimal, listed);
    for (int k = 0; k < listed; k++) end = put_setting(end, answer->list[k], c, p);
    if (answer->minimal != 0) end += sprintf(end, "(cheapest %lu)\n", (unsigned long)answer->cost);
    size_t length = (size_t)(end - text);
    if (fwrite(text, 1, length, stdout) != length || fflush(stdout) != 0) fail("the report cannot be written");
}
