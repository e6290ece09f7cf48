/* Prints the verdicts and the minimal explanations of a case file from standard input, by name. */
#include "causes_case.h"

#include <stdio.h>

static const char *const verdicts[] = {"unexplained", "follows", "denied", "open"};
static struct causes_case c;
static uint8_t file[CAUSES_FILE_BYTES + 1], work[CAUSES_SETTINGS];
static uint16_t list[CAUSES_MINIMAL];

int main(void)
{
    struct causes_answer answer;
    uint8_t causes[CAUSES_ATOMS];
    unsigned choices[CAUSES_ATOMS];
    char name[CAUSES_NAME_BYTES + 1];
    uint64_t line, rest;
    size_t count, i, k;
    uint32_t refusal = causes_case_read(&c, file, fread(file, 1, sizeof file, stdin), &line);
    if (refusal == 0)
        refusal = causes_case_question(&c, list, CAUSES_MINIMAL, work, CAUSES_SETTINGS, &answer);
    if (refusal != 0) {
        fprintf(stderr, "line %lu: %s\n", (unsigned long)line, causes_refusal_text(refusal));
        return 1;
    }
    for (i = 0; i < answer.queries; i++)
        printf("(verdict %s)\n", verdicts[answer.verdicts[i]]);
    count = causes_case_causes(&c, causes);
    for (k = 0; k < count; k++)
        choices[k] = causes_case_choices(&c, causes[k]);
    for (i = 0; i < answer.listed; i++) {
        printf("(cause");
        for (k = 0, rest = list[i]; k < count; rest /= choices[k], k++) {
            causes_case_name(&c, causes[k], name);
            if (rest % choices[k] != 0)
                printf(" (%s %s)", rest % choices[k] == 1 ? "true" : "false", name);
        }
        printf(")\n");
    }
    return 0;
}
