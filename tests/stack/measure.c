/* Measures the stack that each function of libembed.a takes: `measure FILE..` calls all on every case file, and
 * generates a load of most atoms and clauses for each.
 *
 * The calls are made in a thread that has painted its stack below the caller's frame; the deepest byte that is no paint
 * afterwards is as deep as the call went, its arguments and its return address included. Writes a line for each
 * function: name, bytes, and the file that took them. */
#include "causes.h"

#include <pthread.h>
#include <stdio.h>
#include <stdlib.h>
#include <string.h>
#include <sys/mman.h>

enum { STACK_BYTES = 1 << 20, SPARE_BYTES = 1 << 16, PAINT = 0xa5, LISTED = 1024, FUNCTIONS = 7 };

/* Files up to one byte past the longest that is read. */
enum { ROOM = CAUSES_FILE_BYTES + 1 };

typedef struct {
    const char *name;
    void (*call)(void);
    size_t most;
    const char *file;
} Function;

static uint8_t file[ROOM], formula[CAUSES_FORMULA_BYTES], names[CAUSES_NAMES_BYTES], work[CAUSES_SETTINGS];
static uint8_t out[CAUSES_REPORT_BYTES];
static uint16_t list[LISTED];
static uint64_t clauses[CAUSES_CLAUSE_WORDS], constraints[CAUSES_CONSTRAINT_WORDS], answer[CAUSES_LAYERS_WORDS];
static uint64_t record[CAUSES_RECORD_WORDS], setting;
static size_t file_bytes;
static uint32_t prices[CAUSES_PRICES], refusal;
static uint8_t *stack;

static void fail(const char *what) {
    fprintf(stderr, "measure: %s\n", what);
    exit(1);
}

static void call_read(void) {
    refusal = causes_read(file, file_bytes, clauses, CAUSES_CLAUSE_WORDS, constraints, CAUSES_CONSTRAINT_WORDS, formula,
                          CAUSES_FORMULA_BYTES, names, CAUSES_NAMES_BYTES, prices, CAUSES_PRICES, answer,
                          CAUSES_READ_WORDS);
}

static void call_settle(void) {
    refusal = causes_settle(record, CAUSES_RECORD_WORDS, clauses, CAUSES_CLAUSE_WORDS, constraints,
                            CAUSES_CONSTRAINT_WORDS, formula, CAUSES_FORMULA_BYTES, setting, answer,
                            CAUSES_SETTLE_WORDS);
}

static void call_question(void) {
    refusal = causes_question(record, CAUSES_RECORD_WORDS, clauses, CAUSES_CLAUSE_WORDS, constraints,
                              CAUSES_CONSTRAINT_WORDS, formula, CAUSES_FORMULA_BYTES, prices, CAUSES_PRICES, list,
                              LISTED, work, CAUSES_SETTINGS, answer, CAUSES_QUESTION_WORDS);
}

static void call_layers(void) {
    refusal = causes_layers(record, CAUSES_RECORD_WORDS, clauses, CAUSES_CLAUSE_WORDS, constraints,
                            CAUSES_CONSTRAINT_WORDS, formula, CAUSES_FORMULA_BYTES, answer, CAUSES_LAYERS_WORDS);
}

static void call_write(void) {
    refusal = causes_write(record, CAUSES_RECORD_WORDS, clauses, CAUSES_CLAUSE_WORDS, constraints,
                           CAUSES_CONSTRAINT_WORDS, formula, CAUSES_FORMULA_BYTES, names, CAUSES_NAMES_BYTES, prices,
                           CAUSES_PRICES, out, CAUSES_FILE_BYTES, answer, CAUSES_WRITE_WORDS);
}

static void call_report(void) {
    refusal = causes_report(file, file_bytes, out, CAUSES_REPORT_BYTES, answer, CAUSES_REPORT_WORDS);
}

static void call_generate(void) {
    refusal = causes_generate((uint32_t)file_bytes, CAUSES_NAMES_BYTES / CAUSES_NAME_BYTES, CAUSES_CLAUSE_WORDS / 3,
                              out, CAUSES_LOAD_BYTES, answer, CAUSES_GENERATE_WORDS);
}

static Function function[FUNCTIONS] = {
    {"causes_read", call_read, 0, "-"},
    {"causes_settle", call_settle, 0, "-"},
    {"causes_question", call_question, 0, "-"},
    {"causes_layers", call_layers, 0, "-"},
    {"causes_report", call_report, 0, "-"},
    {"causes_write", call_write, 0, "-"},
    {"causes_generate", call_generate, 0, "-"},
};

/* Paints the stack below this frame, makes the call, and takes what it used. The paint's own writer must not be below
 * the frame, so the bytes are set by a loop and not by a function. */
static __attribute__((noinline)) void measured(Function *f, const char *name) {
    volatile uint8_t *top = __builtin_frame_address(0), *at;
    top -= 256; /* this frame's own part; counted as the call's below */
    for (at = stack; at < top; at++) *at = PAINT;
    f->call();
    for (at = stack; at < top && *at == PAINT;) at++;
    size_t used = (size_t)(top - at) + 256;
    if (at < stack + SPARE_BYTES) fail("the thread's stack is too small");
    if (used <= f->most) return;
    f->most = used;
    f->file = name;
}

/* Settles the settings whose digits are all alike, and one of each digit. */
static void measure_settings(const char *name) {
    setting = 0;
    for (uint64_t step = 0, weight = 1; step < 12; step++, weight *= 3) {
        measured(&function[1], name);
        if (refusal != 0) return;
        setting += step % 2 == 0 ? weight : 2 * weight;
    }
}

static void measure_file(const char *name) {
    FILE *from = fopen(name, "rb");
    if (from == NULL) fail(name);
    file_bytes = fread(file, 1, ROOM, from);
    fclose(from);
    measured(&function[0], name);
    if (refusal == 0) {
        memcpy(record, answer + 1, sizeof record);
        measure_settings(name);
        measured(&function[2], name);
        if (refusal != 0) fail("a case that was read is refused");
        measured(&function[3], name);
        if (refusal != 0) fail("a case that was read is refused");
        measured(&function[5], name);
        if (refusal != 0 && refusal != CAUSES_LONG_TEXT) fail("a case that was read is refused");
    }
    measured(&function[4], name);
    measured(&function[6], name);
    if (refusal != 0) fail("a load is refused");
}

static void *measure_all(void *names_of_files) {
    for (char **name = names_of_files; *name != NULL; name++) measure_file(*name);
    return NULL;
}

int main(int count, char **argument) {
    pthread_attr_t attributes;
    pthread_t thread;
    if (count < 2) fail("wanted: case files");
    stack = mmap(NULL, STACK_BYTES, PROT_READ | PROT_WRITE, MAP_PRIVATE | MAP_ANONYMOUS, -1, 0);
    if (stack == MAP_FAILED || pthread_attr_init(&attributes) != 0) fail("no memory for a stack");
    if (pthread_attr_setstack(&attributes, stack, STACK_BYTES) != 0) fail("the stack cannot be set");
    if (pthread_create(&thread, &attributes, measure_all, argument + 1) != 0) fail("no thread");
    if (pthread_join(thread, NULL) != 0) fail("the thread does not end");
    for (int k = 0; k < FUNCTIONS; k++) printf("%-16s %8zu %s\n", function[k].name, function[k].most, function[k].file);
    return 0;
}
