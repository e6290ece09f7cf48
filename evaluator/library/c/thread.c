/* Makes one call on a case file from standard input, or generates a load of most atoms and clauses, in a thread whose
 * stack has the header's size for it.
 *
 *   thread read|settle|question|layers|write|report|generate [BYTES]
 *
 * The status is 0 if the call is answered, or ends where the file is one that reading refuses. BYTES is another size, to
 * find the least with which the call ends. */
#include "causes_case.h"

#include <pthread.h>
#include <stdio.h>
#include <stdlib.h>

static uint8_t file[CAUSES_FILE_BYTES];
static size_t file_bytes;
static struct causes_case lent;
static struct causes_settled settled;
static struct causes_answer answer;
static struct causes_layering layering;
static uint16_t list[CAUSES_MINIMAL];
static uint8_t work[CAUSES_SETTINGS];
static uint8_t out[CAUSES_REPORT_BYTES];
static uint64_t length[CAUSES_REPORT_WORDS];
static uint64_t text_length;
static uint32_t refusal = 1;

static void *run_read(void *unused)
{
    refusal = causes_case_read(&lent, file, file_bytes, NULL);
    return unused;
}

static void *run_settle(void *unused)
{
    refusal = causes_case_settle(&lent, 0, &settled);
    return unused;
}

static void *run_question(void *unused)
{
    refusal = causes_case_question(&lent, list, CAUSES_MINIMAL, work, CAUSES_SETTINGS, &answer);
    return unused;
}

static void *run_layers(void *unused)
{
    refusal = causes_case_layers(&lent, &layering);
    return unused;
}

static void *run_write(void *unused)
{
    refusal = causes_case_write(&lent, out, CAUSES_FILE_BYTES, &text_length);
    return unused;
}

static void *run_report(void *unused)
{
    refusal = causes_report(file, file_bytes, out, CAUSES_REPORT_BYTES, length, CAUSES_REPORT_WORDS);
    return unused;
}

static void *run_generate(void *unused)
{
    refusal = causes_generate(1, CAUSES_ATOMS, CAUSES_CLAUSE_WORDS / 3, out, CAUSES_LOAD_BYTES, length,
                              CAUSES_GENERATE_WORDS);
    return unused;
}

static const struct {
    const char *name;
    size_t bytes;
    void *(*run)(void *);
} operations[] = {
    {"read", CAUSES_READ_STACK, run_read},
    {"settle", CAUSES_SETTLE_STACK, run_settle},
    {"question", CAUSES_QUESTION_STACK, run_question},
    {"layers", CAUSES_LAYERS_STACK, run_layers},
    {"write", CAUSES_WRITE_STACK, run_write},
    {"report", CAUSES_REPORT_STACK, run_report},
    {"generate", CAUSES_GENERATE_STACK, run_generate},
};

/* Runs an operation in a thread with so many bytes of stack; whether it could. */
static int in_thread(void *(*run)(void *), size_t bytes)
{
    pthread_attr_t attributes;
    pthread_t thread;
    return pthread_attr_init(&attributes) == 0 && pthread_attr_setstacksize(&attributes, bytes) == 0
        && pthread_create(&thread, &attributes, run, NULL) == 0 && pthread_join(thread, NULL) == 0;
}

int main(int count, char **words)
{
    size_t i;
    int accepted;
    file_bytes = fread(file, 1, sizeof file, stdin);
    accepted = causes_case_read(&lent, file, file_bytes, NULL) == 0;
    for (i = 0; i < sizeof operations / sizeof *operations; i++)
        if (count > 1 && strcmp(words[1], operations[i].name) == 0) {
            size_t bytes = count > 2 ? strtoul(words[2], NULL, 10) : operations[i].bytes;
            return in_thread(operations[i].run, bytes) && (refusal == 0 || !accepted) ? 0 : 1;
        }
    fprintf(stderr, "thread: read|settle|question|layers|write|report|generate [BYTES]\n");
    return 2;
}
