/* A case with its tables in one struct, over the calls of causes.h: the sizes go with it, and a name is a text.
 *
 * A struct is 10,424 bytes. Calls on different structs are independent; all but reading only read theirs.
 */
#ifndef CAUSES_CASE_H
#define CAUSES_CASE_H

#include "causes.h"

#include <string.h>

#ifdef __cplusplus
extern "C" {
#endif

/* The most atoms of a case. */
enum { CAUSES_ATOMS = CAUSES_NAMES_BYTES / CAUSES_NAME_BYTES };

/* The record and the tables that causes_case_read fills, or the caller. */
struct causes_case {
    uint64_t record[CAUSES_RECORD_WORDS];
    uint64_t clauses[CAUSES_CLAUSE_WORDS];
    uint64_t constraints[CAUSES_CONSTRAINT_WORDS];
    uint8_t formula[CAUSES_FORMULA_BYTES];
    uint8_t names[CAUSES_NAMES_BYTES];
    uint32_t prices[CAUSES_PRICES];
};

/* A settled setting: the true and the false atoms, bit i for atom i, the rounds, and how many atoms are decided. */
struct causes_settled {
    uint64_t trues, falses, rounds, decided;
};

/* The question's answer: how many queries there are, a verdict for each in file order, zeros behind, the number of
 * minimal explanations, how many are listed, over all settings the rounds and the decided atoms, and of the minimal
 * ones the lowest cost in cents and the lowest-numbered setting that has it, both 0 where nothing explains. */
struct causes_answer {
    uint64_t queries, verdicts[CAUSES_QUERIES], minimal, listed, rounds, decided, cost, cheapest;
};

/* The layers of a case: whether it is layered, how many entries there are, and the least number of each atom in atom
 * order, or the atoms of a ring; zeros behind. */
struct causes_layering {
    uint64_t layered, count, entries[CAUSES_ATOMS];
};

/* Reads a file into a case. Refuses with 2 to 12, 16, 17, 20 and 21; then the line, 0 where no line is at fault, is put
 * to *line unless line is a null pointer, and the record is zeros. */
static inline uint32_t causes_case_read(struct causes_case *c, const uint8_t *file, size_t file_bytes, uint64_t *line)
{
    uint64_t words[CAUSES_READ_WORDS];
    uint32_t refusal = causes_read(file, file_bytes, c->clauses, CAUSES_CLAUSE_WORDS,
                                   c->constraints, CAUSES_CONSTRAINT_WORDS, c->formula, CAUSES_FORMULA_BYTES,
                                   c->names, CAUSES_NAMES_BYTES, c->prices, CAUSES_PRICES, words, CAUSES_READ_WORDS);
    memcpy(c->record, words + 1, sizeof c->record);
    if (line != NULL)
        *line = words[0];
    return refusal;
}

/* Settles one setting. Refuses with 13 and 14, and then puts zeros. */
static inline uint32_t causes_case_settle(const struct causes_case *c, uint64_t setting, struct causes_settled *settled)
{
    uint64_t words[CAUSES_SETTLE_WORDS];
    uint32_t refusal = causes_settle(c->record, CAUSES_RECORD_WORDS, c->clauses, CAUSES_CLAUSE_WORDS,
                                     c->constraints, CAUSES_CONSTRAINT_WORDS, c->formula, CAUSES_FORMULA_BYTES,
                                     setting, words, CAUSES_SETTLE_WORDS);
    settled->trues = words[0];
    settled->falses = words[1];
    settled->rounds = words[2];
    settled->decided = words[3];
    return refusal;
}

/* Answers the question, with a list and a work area as causes_question has them. Refuses with 13 and 15, and then puts
 * zeros. */
static inline uint32_t causes_case_question(const struct causes_case *c, uint16_t *list, size_t list_slots,
                                            uint8_t *work, size_t work_bytes, struct causes_answer *answer)
{
    uint64_t words[CAUSES_QUESTION_WORDS];
    uint32_t refusal = causes_question(c->record, CAUSES_RECORD_WORDS, c->clauses, CAUSES_CLAUSE_WORDS,
                                       c->constraints, CAUSES_CONSTRAINT_WORDS, c->formula, CAUSES_FORMULA_BYTES,
                                       c->prices, CAUSES_PRICES, list, list_slots, work, work_bytes,
                                       words, CAUSES_QUESTION_WORDS);
    answer->queries = refusal == 0 ? c->record[3] : 0;
    memcpy(answer->verdicts, words, sizeof answer->verdicts);
    answer->minimal = words[CAUSES_QUERIES];
    answer->listed = words[CAUSES_QUERIES + 1];
    answer->rounds = words[CAUSES_QUERIES + 2];
    answer->decided = words[CAUSES_QUERIES + 3];
    answer->cost = words[CAUSES_QUERIES + 4];
    answer->cheapest = words[CAUSES_QUERIES + 5];
    return refusal;
}

/* Numbers the atoms by layers, or finds a ring. Refuses with 13, and then puts zeros. */
static inline uint32_t causes_case_layers(const struct causes_case *c, struct causes_layering *layering)
{
    uint64_t words[CAUSES_LAYERS_WORDS];
    uint32_t refusal = causes_layers(c->record, CAUSES_RECORD_WORDS, c->clauses, CAUSES_CLAUSE_WORDS,
                                     c->constraints, CAUSES_CONSTRAINT_WORDS, c->formula, CAUSES_FORMULA_BYTES,
                                     words, CAUSES_LAYERS_WORDS);
    layering->layered = words[0];
    layering->count = words[1];
    memcpy(layering->entries, words + 2, sizeof layering->entries);
    return refusal;
}

/* Writes a case back as a file to an output, for which CAUSES_FILE_BYTES bytes are always enough, and puts the length
 * of the text to *length. Refuses with 13, 18 and 19, and then puts 0. With a body of more than CAUSES_LITERALS
 * literals, which a case filled by the caller may have, the text is refused with 20 when it is read. */
static inline uint32_t causes_case_write(const struct causes_case *c, uint8_t *out, size_t out_bytes, uint64_t *length)
{
    uint64_t words[CAUSES_WRITE_WORDS];
    uint32_t refusal = causes_write(c->record, CAUSES_RECORD_WORDS, c->clauses, CAUSES_CLAUSE_WORDS,
                                    c->constraints, CAUSES_CONSTRAINT_WORDS, c->formula, CAUSES_FORMULA_BYTES,
                                    c->names, CAUSES_NAMES_BYTES, c->prices, CAUSES_PRICES, out, out_bytes,
                                    words, CAUSES_WRITE_WORDS);
    *length = words[0];
    return refusal;
}

/* Copies the name of an atom to a text that ends in a zero byte; an empty one for a row that the table lacks. */
static inline void causes_case_name(const struct causes_case *c, size_t atom, char name[CAUSES_NAME_BYTES + 1])
{
    memset(name, 0, CAUSES_NAME_BYTES + 1);
    if (atom < CAUSES_ATOMS)
        memcpy(name, c->names + atom * CAUSES_NAME_BYTES, CAUSES_NAME_BYTES);
}

/* The edition of a case. */
static inline uint64_t causes_case_edition(const struct causes_case *c)
{
    return c->record[CAUSES_RECORD_WORDS - 1];
}

/* How many choices a setting has for an atom: 3 if it heads no clause, 2 if it heads assumptions alone and the edition
 * is 2, and 1 if it is no cause. */
static inline unsigned causes_case_choices(const struct causes_case *c, size_t atom)
{
    int headed = 0;
    size_t i;
    if (atom >= c->record[0])
        return 1;
    for (i = 0; i < c->record[1] && i < CAUSES_CLAUSE_WORDS / 3; i++) {
        if (c->clauses[3 * i] % CAUSES_ATOMS != atom)
            continue;
        if (causes_case_edition(c) != CAUSES_EDITION_2 || c->clauses[3 * i] / CAUSES_ATOMS != CAUSES_ASSUMPTION)
            return 1;
        headed = 1;
    }
    return headed ? 2 : 3;
}

/* Puts the causes, that is the atoms with more than one choice, in atom order, and answers how many there are. The
 * product of their choices is the number of settings, and causes[i] has digit i of a setting in that mixed base, lowest
 * first: 0 adds nothing, 1 a fact, 2 an assumption. */
static inline size_t causes_case_causes(const struct causes_case *c, uint8_t causes[CAUSES_ATOMS])
{
    size_t i, count = 0;
    for (i = 0; i < CAUSES_ATOMS; i++)
        if (causes_case_choices(c, i) > 1)
            causes[count++] = (uint8_t)i;
    return count;
}

#ifdef __cplusplus
}
#endif

#endif
