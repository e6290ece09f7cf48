// The baseline: a plain C program that answers a case file as `causes` does, with the walk that its argument names,
// `scan` or `lanes`; with the argument `causes` it writes the number of causes instead. It is there to be measured, and
// takes the file on standard input to be good.
#include "walk.h"

#include <stdio.h>
#include <string.h>

static Case the_case;
static Program program;
static Answer answer;

int main(int count, char **argument) {
    const char *mode = count == 2 ? argument[1] : "";
    int scan = strcmp(mode, "scan") == 0, lanes = strcmp(mode, "lanes") == 0;
    if (!scan && !lanes && strcmp(mode, "causes") != 0) fail("one argument: scan, lanes or causes");
    read_case(&the_case);
    prepare(&program, &the_case);
    if (!scan && !lanes) {
        printf("%d\n", program.causes);
        return 0;
    }
    if (scan) walk_scan(&the_case, &program, &answer);
    if (lanes) walk_lanes(&the_case, &program, &answer);
    report(&answer, &the_case, &program);
    return 0;
}
