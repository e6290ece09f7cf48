// A case as masks: bit i of a word stands for atom i.
#ifndef CASE_H
#define CASE_H

#include <stdint.h>

enum { MOST_ATOMS = 64, MOST_CLAUSES = 256, MOST_CONSTRAINTS = 32, MOST_QUERIES = 16, MOST_NODES = 128 };
enum { MOST_CAUSES = 15, MOST_SETTINGS = 59049, MOST_NAME = 16 };

// The nodes of a formula in prefix order: an atom's number, or one of these.
enum { NOT = 64, AND, OR, THEN, SAME };

// An interpretation: the true atoms and the false atoms, never both.
typedef struct {
    uint64_t trues, falses;
} Interpretation;

// The plain and the negated atoms of a body, or of the observations.
typedef struct {
    uint64_t plain, negated;
} Body;

typedef enum { FACT, ASSUMPTION, RULE } ClauseKind;

typedef struct {
    int head;
    ClauseKind kind;
    Body body;
} Clause;

// A constraint of kind NEVER is met where its body is false, one of kind AVOID where its body isn't true.
typedef enum { NEVER, AVOID } ConstraintKind;

typedef struct {
    ConstraintKind kind;
    Body body;
} Constraint;

// Clauses, constraints and queries stand in file order, names and prices by atom number; a price is in cents, 0 where
// the file has none. The edition is 1 or 2, 1 where the file has none.
typedef struct {
    int atoms, clauses, constraints, queries, edition;
    Clause clause[MOST_CLAUSES];
    Constraint constraint[MOST_CONSTRAINTS];
    Body observed;
    uint8_t formula[MOST_QUERIES][MOST_NODES];
    char name[MOST_ATOMS][MOST_NAME + 1];
    uint32_t price[MOST_ATOMS];
} Case;

// The word with one atom.
static inline uint64_t bit(int atom) { return (uint64_t)1 << atom; }

// The atom of the lowest bit of a word that isn't 0.
static inline int lowest(uint64_t word) { return __builtin_ctzll(word); }

// How many bits a word has, by fields of 2, 4 and 8 bits. Plain x86-64 has no instruction for it; written out, a loop
// of counts takes two words at a time, which one of calls does not.
static inline long ones(uint64_t word) {
    word -= word >> 1 & 0x5555555555555555;
    word = (word & 0x3333333333333333) + (word >> 2 & 0x3333333333333333);
    word = (word + (word >> 4)) & 0x0f0f0f0f0f0f0f0f;
    return (long)(word * 0x0101010101010101 >> 56);
}

// Ends the program with status 2 and a word on standard error.
void fail(const char *why);

// Reads a case file that documents 01 and 02 accept from standard input. A file that they refuse is not told from a
// good one, except where it would not fit.
void read_case(Case *c);

#endif
