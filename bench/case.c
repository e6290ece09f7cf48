// Reading a case file that is known to be good: no check beyond what fits.
#include "case.h"

#include <stdio.h>
#include <stdlib.h>
#include <string.h>

enum { MOST_BYTES = 32768 };

// The place in the file, the case being read, and the place of the next node of its last query.
static const char *at;
static Case *reading;
static uint8_t *next_node, *past_nodes;

void fail(const char *why) {
    fprintf(stderr, "baseline: %s\n", why);
    exit(2);
}

static void skip_spaces(void) {
    while (*at == ' ') at++;
}

static int in_word(char b) { return (b >= 'a' && b <= 'z') || (b >= '0' && b <= '9') || b == '-'; }

// Whether the next byte that is no space is this bracket; passes it where it is.
static int bracket(char b) {
    skip_spaces();
    if (*at != b) return 0;
    at++;
    return 1;
}

// Passes the next word; answers its length and where it begins.
static size_t word(const char **from) {
    skip_spaces();
    *from = at;
    while (in_word(*at)) at++;
    return (size_t)(at - *from);
}

// The atom of the next word, a new one where the name is new.
static int atom(void) {
    const char *from;
    size_t length = word(&from);
    if (length == 0 || length > MOST_NAME) fail("no name where one belongs");
    for (int a = 0; a < reading->atoms; a++)
        if (memcmp(reading->name[a], from, length) == 0 && reading->name[a][length] == 0) return a;
    if (reading->atoms == MOST_ATOMS) fail("too many names");
    memcpy(reading->name[reading->atoms], from, length);
    return reading->atoms++;
}

// Adds the next literal to a body.
static void literal(Body *b) {
    const char *from;
    if (!bracket('(')) {
        b->plain |= bit(atom());
        return;
    }
    word(&from);
    b->negated |= bit(atom());
    bracket(')');
}

// Adds the literals up to the closing bracket to a body.
static void literals(Body *b) {
    while (!bracket(')')) literal(b);
}

static void node(int n) {
    if (next_node == past_nodes) fail("too many nodes");
    *next_node++ = (uint8_t)n;
}

// The node of a form's word, told by its first letter.
static int connective(char first) {
    switch (first) {
    case 'n': return NOT;
    case 'a': return AND;
    case 'o': return OR;
    case 't': return THEN;
    default: return SAME;
    }
}

// Writes the nodes of the next formula.
static void formula(void) {
    const char *from;
    if (!bracket('(')) {
        node(atom());
        return;
    }
    word(&from);
    int form = connective(*from);
    node(form);
    formula();
    if (form != NOT) formula();
    bracket(')');
}

static void query(void) {
    if (reading->queries == MOST_QUERIES) fail("too many queries");
    next_node = reading->formula[reading->queries++];
    past_nodes = next_node + MOST_NODES;
    formula();
}

static void clause(ClauseKind kind) {
    if (reading->clauses == MOST_CLAUSES) fail("too many clauses");
    Clause *c = &reading->clause[reading->clauses++];
    c->kind = kind;
    c->head = atom();
    literals(&c->body);
}

static void constraint(ConstraintKind kind) {
    if (reading->constraints == MOST_CONSTRAINTS) fail("too many constraints");
    Constraint *k = &reading->constraint[reading->constraints++];
    k->kind = kind;
    literals(&k->body);
}

// The next word, of digits, as a number.
static uint32_t number(void) {
    const char *from;
    uint32_t n = 0;
    for (size_t left = word(&from); left > 0; left--) n = 10 * n + (uint32_t)(*from++ - '0');
    return n;
}

// Takes a price and its supplement in per cent, which is rounded to the nearest cent, half a cent upwards.
static void cost(void) {
    int a = atom();
    uint32_t price = number(), supplement = number();
    reading->price[a] = price + (price * supplement + 50) / 100;
}

// Takes the form of one line, told by the first letter of its word; `atom` and `avoid` by the second.
static void form(void) {
    const char *from;
    word(&from);
    switch (*from) {
    case 't': clause(FACT); break;
    case 'f': clause(ASSUMPTION); break;
    case 'i': clause(RULE); break;
    case 'n': constraint(NEVER); break;
    case 'a':
        if (from[1] == 'v') constraint(AVOID);
        else atom();
        break;
    case 's': literals(&reading->observed); break;
    case 'q': query(); break;
    case 'c': cost(); break;
    case 'e': reading->edition = (int)number(); break;
    default: fail("a line that is no form");
    }
}

void read_case(Case *c) {
    static char file[MOST_BYTES + 2];
    size_t length = fread(file, 1, MOST_BYTES + 1, stdin);
    if (length > MOST_BYTES) fail("the file is too long");
    memset(c, 0, sizeof *c);
    c->edition = 1;
    reading = c;
    const char *end = file + length;
    for (at = file; at < end; at++) {
        if (*at != ';' && bracket('(')) form();
        while (at < end && *at != '\n') at++;
    }
}
