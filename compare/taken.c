/* Notes which way the branches of a marked program go, and writes it at the end of the run to the file that TAKEN names: 'NUMBER VALUE' lines. */
#include <stdint.h>
#include <stdio.h>
#include <stdlib.h>

enum { BRANCHES = 20000, VALUES = 256 };

static uint8_t taken[BRANCHES][VALUES];

void branch_taken(int32_t branch, uint64_t value);

void branch_taken(int32_t branch, uint64_t value)
{
    taken[branch][value < VALUES ? value : VALUES - 1] = 1;
}

__attribute__((destructor)) static void end(void)
{
    const char *path = getenv("TAKEN");
    FILE *file = path ? fopen(path, "w") : NULL;
    if (!file)
        return;
    for (int b = 0; b < BRANCHES; b++)
        for (int v = 0; v < VALUES; v++)
            if (taken[b][v])
                fprintf(file, "%d %d\n", b, v);
    fclose(file);
}
