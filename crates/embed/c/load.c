/* Prints the load of its three arguments, a seed and the numbers of atoms and clauses, then what its question
 * answers: the verdict, the rounds and the decided atoms. */
#include "causes_case.h"

#include <stdio.h>
#include <stdlib.h>

static const char *const verdicts[] = {"unexplained", "follows", "denied", "open"};
static struct causes_case c;
static uint8_t text[CAUSES_LOAD_BYTES], work[CAUSES_SETTINGS];

int main(int count, char **words)
{
    struct causes_answer answer;
    uint64_t numbers[3] = {0, 0, 0}, length[CAUSES_GENERATE_WORDS];
    uint32_t refusal;
    int i;
    for (i = 1; i < count && i <= 3; i++)
        numbers[i - 1] = strtoul(words[i], NULL, 10);
    refusal = causes_generate((uint32_t)numbers[0], numbers[1], numbers[2], text, sizeof text, length,
                              CAUSES_GENERATE_WORDS);
    if (refusal == 0)
        refusal = causes_case_read(&c, text, (size_t)length[0], NULL);
    if (refusal == 0)
        refusal = causes_case_question(&c, NULL, 0, work, CAUSES_SETTINGS, &answer);
    if (refusal != 0) {
        fprintf(stderr, "%s\n", causes_refusal_text(refusal));
        return 1;
    }
    fwrite(text, 1, (size_t)length[0], stdout);
    printf("(verdict %s)\n(rounds %lu)\n(decided %lu)\n", verdicts[answer.verdicts[0]], (unsigned long)answer.rounds,
           (unsigned long)answer.decided);
    return 0;
}
