/* Answers M4 of document 01 with prices: reads the case, asks its question, prints list, rounds, decided atoms, the
 * cheapest setting and the verdict, then the case written back, then the report. The exit status is 1 where an answer is
 * not that of documents 01 and 02. */
#include "causes_case.h"

#include <stdio.h>

static const char file[] =
    "(if low shut (not ab1))\n"
    "(if low stopped (not ab2))\n"
    "(false ab1)\n"
    "(false ab2)\n"
    "(seen low)\n"
    "(query shut)\n"
    "(cost shut 9000 50)\n"
    "(cost stopped 4000 0)\n";

static const char text[] =
    "(atom low)\n"
    "(atom shut)\n"
    "(atom ab1)\n"
    "(atom stopped)\n"
    "(atom ab2)\n"
    "(if low shut(not ab1))\n"
    "(if low stopped(not ab2))\n"
    "(false ab1)\n"
    "(false ab2)\n"
    "(seen low)\n"
    "(query shut)\n"
    "(cost shut 13500 0)\n"
    "(cost stopped 4000 0)\n";

static const char report[] =
    "(verdict open)\n"
    "(rounds 15)\n"
    "(decided 36)\n"
    "(minimal 2 2)\n"
    "(cause (true shut))\n"
    "(cause (true stopped))\n"
    "(cheapest 4000)\n";

static const char *const verdicts[] = {"unexplained", "follows", "denied", "open"};
static struct causes_case m4;

/* Reads the file; whether it is accepted. */
static int case_read(void)
{
    uint64_t line;
    uint32_t refusal = causes_case_read(&m4, (const uint8_t *)file, strlen(file), &line);
    if (refusal != 0)
        printf("line %lu: %s\n", (unsigned long)line, causes_refusal_text(refusal));
    return refusal == 0;
}

/* Asks the question; whether the answer is list 1, 3; rounds 15; decided 36; setting 3 for 4000 cents; open. */
static int question_answered(void)
{
    static uint8_t work[CAUSES_SETTINGS];
    struct causes_answer answer;
    uint16_t list[4];
    uint64_t i;
    uint32_t refusal = causes_case_question(&m4, list, 4, work, sizeof work, &answer);
    if (refusal != 0) {
        printf("%s\n", causes_refusal_text(refusal));
        return 0;
    }
    printf("list:");
    for (i = 0; i < answer.listed; i++)
        printf(" %u", (unsigned)list[i]);
    printf("\nrounds: %lu\ndecided: %lu\ncheapest: %lu for %lu\nverdict: %s\n", (unsigned long)answer.rounds,
           (unsigned long)answer.decided, (unsigned long)answer.cheapest, (unsigned long)answer.cost,
           verdicts[answer.verdicts[0]]);
    return answer.queries == 1 && answer.verdicts[0] == CAUSES_OPEN && answer.minimal == 2 && answer.listed == 2
        && answer.rounds == 15 && answer.decided == 36 && answer.cost == 4000 && answer.cheapest == 3
        && list[0] == 1 && list[1] == 3;
}

/* Prints the case written back; whether it is the text of document 02. */
static int case_written(void)
{
    static uint8_t out[CAUSES_FILE_BYTES];
    uint64_t length;
    uint32_t refusal = causes_case_write(&m4, out, sizeof out, &length);
    if (refusal != 0) {
        printf("%s\n", causes_refusal_text(refusal));
        return 0;
    }
    fwrite(out, 1, (size_t)length, stdout);
    return length == strlen(text) && memcmp(out, text, strlen(text)) == 0;
}

/* Prints the file's report; whether it is that of documents 01 and 02. */
static int report_written(void)
{
    static uint8_t out[CAUSES_REPORT_BYTES];
    uint64_t length[CAUSES_REPORT_WORDS];
    uint32_t refusal = causes_report((const uint8_t *)file, strlen(file), out, sizeof out, length, CAUSES_REPORT_WORDS);
    if (refusal != 0) {
        printf("%s\n", causes_refusal_text(refusal));
        return 0;
    }
    fwrite(out, 1, (size_t)length[0], stdout);
    return length[0] == strlen(report) && memcmp(out, report, strlen(report)) == 0;
}

int main(void)
{
    return case_read() && question_answered() && case_written() && report_written() ? 0 : 1;
}
