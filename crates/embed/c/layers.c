/* Prints the layers of a case file from standard input, or a ring of its rules, by name. */
#include "causes_case.h"

#include <stdio.h>

static struct causes_case c;
static uint8_t file[CAUSES_FILE_BYTES + 1];

int main(void)
{
    struct causes_layering layering;
    char name[CAUSES_NAME_BYTES + 1];
    uint64_t line, i;
    uint32_t refusal = causes_case_read(&c, file, fread(file, 1, sizeof file, stdin), &line);
    if (refusal == 0)
        refusal = causes_case_layers(&c, &layering);
    if (refusal != 0) {
        fprintf(stderr, "line %lu: %s\n", (unsigned long)line, causes_refusal_text(refusal));
        return 1;
    }
    printf(layering.layered ? "(layered)\n" : "(ring");
    for (i = 0; i < layering.count; i++) {
        causes_case_name(&c, layering.layered ? i : layering.entries[i], name);
        if (layering.layered)
            printf("(layer %s %lu)\n", name, (unsigned long)layering.entries[i]);
        else
            printf(" %s", name);
    }
    if (!layering.layered)
        printf(")\n");
    return 0;
}
