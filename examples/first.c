/* Reads a published file from standard input, and says what it sums to. */
#include <inttypes.h>
#include <stdio.h>

#include "sawmauve.h"

int main(void)
{
    static uint8_t file[SAWMAUVE_LONGEST];
    uint64_t figures[SAWMAUVE_FIGURES];
    uint32_t refusal = sawmauve_read(file, fread(file, 1, sizeof file, stdin), figures, SAWMAUVE_FIGURES);
    if (refusal == SAWMAUVE_DONE)
        printf("%" PRIu64 " Wh, %" PRIu64 " slots missing\n", figures[SAWMAUVE_SUM], figures[SAWMAUVE_NONE]);
    return refusal;
}
