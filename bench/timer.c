// Times programs side by side: `timer N FILE PROGRAM [ARGUMENT..] [-- PROGRAM [ARGUMENT..]]..` runs each in turn, N
// turns, with FILE on standard input and its output thrown away, and writes the least processor time of each in
// milliseconds, user and system. Wall time would count the waiting for other processes too.
#include <fcntl.h>
#include <stdio.h>
#include <stdlib.h>
#include <string.h>
#include <sys/resource.h>
#include <sys/time.h>
#include <sys/wait.h>
#include <unistd.h>

enum { MOST_PROGRAMS = 8 };

static void fail(const char *why) {
    fprintf(stderr, "timer: %s\n", why);
    exit(1);
}

static double milliseconds(struct timeval t) { return (double)t.tv_sec * 1e3 + (double)t.tv_usec / 1e3; }

// Becomes the program.
static void become(char **program, const char *file) {
    int in = open(file, O_RDONLY), out = open("/dev/null", O_WRONLY);
    if (in >= 0 && out >= 0 && dup2(in, 0) == 0 && dup2(out, 1) == 1) execv(program[0], program);
    _exit(127);
}

// The processor time of one run.
static double run(char **program, const char *file) {
    int status;
    struct rusage used;
    pid_t child = fork();
    if (child == 0) become(program, file);
    if (child < 0 || wait4(child, &status, 0, &used) != child) fail("a program cannot be started");
    if (!WIFEXITED(status) || WEXITSTATUS(status) != 0) fail("a program ends with an error");
    return milliseconds(used.ru_utime) + milliseconds(used.ru_stime);
}

// Parts the arguments into programs; answers how many there are.
static int programs(char **argument, char **program[MOST_PROGRAMS]) {
    int n = 0;
    program[n++] = argument;
    for (; *argument != NULL; argument++) {
        if (strcmp(*argument, "--") != 0) continue;
        if (n == MOST_PROGRAMS) fail("too many programs");
        *argument = NULL;
        program[n++] = argument + 1;
    }
    return n;
}

int main(int count, char **argument) {
    char **program[MOST_PROGRAMS];
    double least[MOST_PROGRAMS];
    int turns = count > 3 ? atoi(argument[1]) : 0;
    if (turns < 1) fail("wanted: a number of turns, a file, and a program");
    int n = programs(argument + 3, program);
    for (int t = 0; t < turns; t++)
        for (int k = 0; k < n; k++) {
            double took = run(program[k], argument[2]);
            if (t == 0 || took < least[k]) least[k] = took;
        }
    for (int k = 0; k < n; k++) printf("%.3f%c", least[k], k + 1 < n ? ' ' : '\n');
    return 0;
}
