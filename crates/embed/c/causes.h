/* The cause finder's operations: read a case file, settle one setting, answer the question, number the atoms by layers
 * or find a ring of rules, write a case back as a file, write the report, generate a load.
 *
 * From: document 01, "Case tables and sound cases" and "What each operation refuses"; document 02, [1], [3]
 * and [5] to [11]. Link libembed.a (x86-64).
 *
 * Lent memory is a pointer and a number of elements. The pointer is aligned for its type and reaches that many
 * elements; memory that a call writes overlaps no other memory lent to the same call. A pointer to no elements isn't
 * followed and may be null. Nothing else is asked of a caller: any numbers and contents are answered or refused.
 *
 * Each function answers 0 or the number of a refusal. The answer's words are written on a refusal too: the line of a
 * reading, and zeros. Words behind those of the answer keep their contents. A record or an answer with too few words is
 * refused with CAUSES_SHORT before anything else, and nothing is touched.
 *
 * There is no global state: calls from several threads are independent if they share no memory that one of them writes.
 */
#ifndef CAUSES_H
#define CAUSES_H

#include <stddef.h>
#include <stdint.h>

#ifdef __cplusplus
extern "C" {
#endif

/* The version of this header and of the Rust module beside it. */
#define CAUSES_VERSION "0.6.1"

/* Sizes of the lent tables, in elements. A longer table is lawful; what is past its size keeps its contents. */
enum {
    CAUSES_CLAUSE_WORDS = 768,    /* 3 a clause: head + 64 * kind, plain atoms, negated atoms */
    CAUSES_CONSTRAINT_WORDS = 96, /* 3 a constraint: plain atoms, negated atoms, kind */
    CAUSES_FORMULA_BYTES = 2048,  /* 16 parts: formula q at the front of part q */
    CAUSES_PART_BYTES = 128,      /* nodes in prefix order: 0 to 63 an atom, then CAUSES_NOT to CAUSES_SAME */
    CAUSES_NAMES_BYTES = 1024,    /* 16 an atom, zero-filled at the end */
    CAUSES_NAME_BYTES = 16,
    CAUSES_PRICES = 64            /* 1 an atom, in cents, supplement included; any 32-bit numbers may be lent */
};

/* Kinds of clauses, kinds of constraints and nodes of formulas; another kind is unsound. A constraint's body is all its
 * literals together: with CAUSES_NEVER it must be false, with CAUSES_AVOID it must not be true. */
enum { CAUSES_FACT = 0, CAUSES_ASSUMPTION = 1, CAUSES_RULE = 2 };
enum { CAUSES_NEVER = 0, CAUSES_AVOID = 1 };
enum { CAUSES_NOT = 64, CAUSES_AND = 65, CAUSES_OR = 66, CAUSES_THEN = 67, CAUSES_SAME = 68 };

/* Bounds: sizes that are enough for every file and every case. */
enum {
    CAUSES_QUERIES = 16,          /* the most queries of a file, and formulas of a case */
    CAUSES_FILE_BYTES = 32768,    /* the longest file that is read, and the longest text of a case */
    CAUSES_SETTINGS = 59049,      /* the most settings: bytes of a work area */
    CAUSES_MINIMAL = 15360,       /* the most minimal explanations: slots of a list */
    CAUSES_REPORT_BYTES = 392640, /* the longest report */
    CAUSES_LOAD_BYTES = 9931      /* the longest load */
};

/* Editions; any other is unsound. An atom without a clause is a cause with three choices: 0 adds nothing, 1 a fact, 2
 * an assumption. In edition 2 an atom whose clauses are all assumptions is a cause too, with two choices: 0 adds
 * nothing, 1 a fact. The number of settings is the product of the choice counts, in a sound case at most
 * CAUSES_SETTINGS. */
enum { CAUSES_EDITION_1 = 1, CAUSES_EDITION_2 = 2 };

/* The most literals that an `if`, `never` or `avoid` line may have, counted as written; a rule's head isn't counted. A
 * body in lent tables may have more: the case is sound, and its text is refused when read. */
enum { CAUSES_LITERALS = 11 };

/* Sizes of a thread's stack, in bytes, with which an operation ends; each has room to spare. */
enum {
    CAUSES_READ_STACK = 32768,
    CAUSES_SETTLE_STACK = 32768,
    CAUSES_QUESTION_STACK = 49152,
    CAUSES_LAYERS_STACK = 32768,
    CAUSES_WRITE_STACK = 32768,
    CAUSES_REPORT_STACK = 131072,
    CAUSES_GENERATE_STACK = 32768
};

/* Words of a case record: the counts of atoms, clauses, constraints and formulas, the plain and the negated observed
 * atoms, bit i for atom i; then for each part of the formula table its number of nodes, which for parts past the
 * formulas is zero when read and not looked at when lent; last the edition. */
enum { CAUSES_RECORD_WORDS = 23 };

/* Words of the answers. */
enum {
    CAUSES_READ_WORDS = 24,     /* line of the refusal or 0, then the case record */
    CAUSES_SETTLE_WORDS = 4,    /* true atoms, false atoms, rounds, how many atoms are decided */
    CAUSES_QUESTION_WORDS = 22, /* 16 verdicts, 0 past the formulas; minimal explanations, how many listed, rounds,
                                 * decided total, lowest cost, cheapest setting */
    CAUSES_LAYERS_WORDS = 66,   /* 1 layered or 0 not, number of entries, 64 entries, 0 past the last */
    CAUSES_WRITE_WORDS = 1,     /* length of the text */
    CAUSES_REPORT_WORDS = 1,    /* length of the text */
    CAUSES_GENERATE_WORDS = 1   /* length of the text */
};

/* Verdicts. */
enum { CAUSES_UNEXPLAINED = 0, CAUSES_FOLLOWS = 1, CAUSES_DENIED = 2, CAUSES_OPEN = 3 };

/* Refusals. 3 to 10, 16, 17, 20 and 21 have the line, counted from 1; the others have line 0. */
enum {
    CAUSES_SHORT = 1,             /* a lent table, record or answer is shorter than its size */
    CAUSES_LONG_FILE = 2,         /* over 32,768 bytes */
    CAUSES_LONG_LINE = 3,         /* over 200 bytes without LF, outside a comment */
    CAUSES_BAD_BYTE = 4,          /* a byte other than a-z, 0-9, -, space, brackets, outside a comment */
    CAUSES_NOT_A_FORM = 5,
    CAUSES_LONG_NAME = 6,         /* over 16 bytes */
    CAUSES_DEEP_FORMULA = 7,      /* deeper than 16 */
    CAUSES_MANY_NAMES = 8,        /* a 65th name */
    CAUSES_MANY_CLAUSES = 9,      /* a 257th clause or a 33rd constraint */
    CAUSES_MANY_QUERIES = 10,     /* a 17th query */
    CAUSES_NO_QUERY = 11,
    CAUSES_MANY_CAUSES = 12,      /* more than CAUSES_SETTINGS settings */
    CAUSES_UNSOUND = 13,          /* record and tables are no sound case, or for writing none that a file can say */
    CAUSES_NO_SETTING = 14,       /* the setting is not below the number of settings */
    CAUSES_SHORT_WORK = 15,       /* the work area has fewer bytes than there are settings */
    CAUSES_HIGH_PRICE = 16,       /* a price, or one worked out, over 2,000,000, or a supplement over 100 */
    CAUSES_SECOND_COST = 17,      /* a second cost line of a name */
    CAUSES_LONG_TEXT = 18,        /* a written line would be over 200 bytes without LF, or the text over 32,768 */
    CAUSES_SHORT_OUTPUT = 19,     /* the output is shorter than the text */
    CAUSES_MANY_LITERALS = 20,    /* a 12th literal of a body */
    CAUSES_SECOND_EDITION = 21,   /* a second edition line */
    CAUSES_NO_LOAD = 22,          /* a load of no atom, of more than 64, or of more than 256 clauses */
    CAUSES_SHORT_LOAD_OUTPUT = 23 /* the output is shorter than the load */
};

/* Reads a case file into the five tables. The edition of a file without an edition line is 1. Refuses with 1 to 12, 16,
 * 17, 20 and 21; 1 and 2 leave the tables as they were, the others zero them in their sizes.
 * answer: CAUSES_READ_WORDS. */
uint32_t causes_read(const uint8_t *file, size_t file_bytes,
                     uint64_t *clauses, size_t clause_words,
                     uint64_t *constraints, size_t constraint_words,
                     uint8_t *formula, size_t formula_bytes,
                     uint8_t *names, size_t names_bytes,
                     uint32_t *prices, size_t price_entries,
                     uint64_t *answer, size_t answer_words);

/* Settles one setting of a case: in mixed base, three or two for each cause in atom order, digit i of the setting,
 * lowest first, is the choice for cause i. Each round decides atoms, true or false; the fourth word is the sum of what
 * the rounds decided, and so the number of atoms in the first two words. Refuses with 1, 13, 14, in this order. Writes
 * to the answer alone. answer: CAUSES_SETTLE_WORDS. */
uint32_t causes_settle(const uint64_t *record, size_t record_words,
                       const uint64_t *clauses, size_t clause_words,
                       const uint64_t *constraints, size_t constraint_words,
                       const uint8_t *formula, size_t formula_bytes,
                       uint64_t setting,
                       uint64_t *answer, size_t answer_words);

/* Answers the question of a case, with a verdict for each formula. The minimal settings go to the list in rising order,
 * as many as it has slots for, and byte s of the work area becomes 0 (setting s doesn't explain), 1 (explains, not
 * minimal) or 2 (minimal: no proper subset explains); slots and bytes behind these keep their contents. Rounds and
 * decided atoms are those of causes_settle, summed over all settings. A setting costs the sum of the prices of the
 * causes for which it adds a fact or an assumption; the lowest cost is that among all minimal settings, listed or not,
 * and the cheapest setting the lowest-numbered of those that have it, both 0 where there is none. Refuses with 1, 13,
 * 15, in this order, and then touches neither. answer: CAUSES_QUESTION_WORDS. */
uint32_t causes_question(const uint64_t *record, size_t record_words,
                         const uint64_t *clauses, size_t clause_words,
                         const uint64_t *constraints, size_t constraint_words,
                         const uint8_t *formula, size_t formula_bytes,
                         const uint32_t *prices, size_t price_entries,
                         uint16_t *list, size_t list_slots,
                         uint8_t *work, size_t work_bytes,
                         uint64_t *answer, size_t answer_words);

/* Tells whether a case is layered: whether its atoms can be numbered so that each head's number is greater than that
 * of every atom in its bodies, plain or negated. A layered case has an entry for each atom, in atom order: the least
 * number that it can have, 0 for one that heads no rule. Else the entries are the atoms of a ring, all different: each
 * is named in a body of the one before, the first in a body of the last; which ring it is may change with the version.
 * Refuses with 1, 13, in this order. Writes to the answer alone. answer: CAUSES_LAYERS_WORDS. */
uint32_t causes_layers(const uint64_t *record, size_t record_words,
                       const uint64_t *clauses, size_t clause_words,
                       const uint64_t *constraints, size_t constraint_words,
                       const uint8_t *formula, size_t formula_bytes,
                       uint64_t *answer, size_t answer_words);

/* Writes a case back as a file: reading the text gives the same record and tables in their used entries, if no body has
 * more than CAUSES_LITERALS literals. A longer body is written too; reading the text is then refused with 20, at the
 * line of the first such body. The text has a line `(atom N)` for each atom, in edition 2 the line `(edition 2)`, then
 * those of clauses, constraints, observations, queries and of the prices above 0, these with supplement 0. Bytes behind
 * it keep their contents. Refuses with 1, 13, 18, 19, in this order, and then doesn't touch the output; 13 here also for
 * an atom whose entry of the names is no name, or one that an atom before it has, or whose price is over 2,000,000, and
 * 18 for a line that would be over 200 bytes without its LF, or a text over CAUSES_FILE_BYTES.
 * answer: CAUSES_WRITE_WORDS. */
uint32_t causes_write(const uint64_t *record, size_t record_words,
                      const uint64_t *clauses, size_t clause_words,
                      const uint64_t *constraints, size_t constraint_words,
                      const uint8_t *formula, size_t formula_bytes,
                      const uint8_t *names, size_t names_bytes,
                      const uint32_t *prices, size_t price_entries,
                      uint8_t *out, size_t out_bytes,
                      uint64_t *answer, size_t answer_words);

/* Writes the report of a case file, as the program `causes` does: the answer to its question, or
 * `(refused number line)`. Bytes behind the text keep their contents. Refuses with 19 an output shorter than the text
 * and then doesn't touch it. answer: CAUSES_REPORT_WORDS. */
uint32_t causes_report(const uint8_t *file, size_t file_bytes,
                       uint8_t *out, size_t out_bytes,
                       uint64_t *answer, size_t answer_words);

/* Writes the load that follows from a seed: a case file of 1 to 64 atoms and at most 256 clauses, the same for the same
 * three numbers wherever it is generated. Reading it is refused with 12 or not at all. Bytes behind the text keep their
 * contents; CAUSES_LOAD_BYTES are enough for every load. Refuses with 22, 23, in this order, and then doesn't touch the
 * output. answer: CAUSES_GENERATE_WORDS. */
uint32_t causes_generate(uint32_t seed, uint64_t atoms, uint64_t clauses,
                         uint8_t *out, size_t out_bytes,
                         uint64_t *answer, size_t answer_words);

/* The version as a text. */
static inline const char *causes_version(void)
{
    return CAUSES_VERSION;
}

/* What a refusal means, in the manual's words; a null pointer for a number that is none. */
static inline const char *causes_refusal_text(uint32_t number)
{
    switch (number) {
    case CAUSES_SHORT: return "a lent table is shorter than its size";
    case CAUSES_LONG_FILE: return "the file is over 32,768 bytes";
    case CAUSES_LONG_LINE: return "a line that is no comment is over 200 bytes";
    case CAUSES_BAD_BYTE:
        return "a line that is no comment has a byte other than a to z, 0 to 9, `-`, space, `(`, `)`";
    case CAUSES_NOT_A_FORM: return "the line is not one of the forms";
    case CAUSES_LONG_NAME: return "a name is over 16 bytes";
    case CAUSES_DEEP_FORMULA: return "the query is deeper than 16";
    case CAUSES_MANY_NAMES: return "the line brings a 65th name";
    case CAUSES_MANY_CLAUSES: return "the line is the 257th clause, or the 33rd constraint";
    case CAUSES_MANY_QUERIES: return "the line is a 17th query";
    case CAUSES_NO_QUERY: return "the file has no query";
    case CAUSES_MANY_CAUSES: return "the file has more than 59,049 settings";
    case CAUSES_UNSOUND: return "the case handed in is not sound";
    case CAUSES_NO_SETTING: return "the setting's number is not below the number of settings";
    case CAUSES_SHORT_WORK: return "the work area is shorter than one byte for each setting";
    case CAUSES_HIGH_PRICE: return "the price, or the one worked out, is over 2,000,000, or the supplement over 100";
    case CAUSES_SECOND_COST: return "the line is a second cost line for its name";
    case CAUSES_LONG_TEXT: return "a line of the text would be over 200 bytes, or the text over 32,768";
    case CAUSES_SHORT_OUTPUT: return "the lent output is too short for the text";
    case CAUSES_MANY_LITERALS: return "the line's body has a 12th literal";
    case CAUSES_SECOND_EDITION: return "the line is a second edition line";
    case CAUSES_NO_LOAD: return "the load's atoms are not 1 to 64, or its clauses are over 256";
    case CAUSES_SHORT_LOAD_OUTPUT: return "the output lent for a load is shorter than its text";
    default: return NULL;
    }
}

#ifdef __cplusplus
}
#endif

#endif
