/* Writes the strips of a slot table of half hours, given on standard input, to standard output, once they have gone back to the table. */
#include <stdio.h>
#include <string.h>
#include "sawmauve.h"

#define LONGEST (6 * 48 * 400)

static uint8_t table[LONGEST], strips[LONGEST], back[LONGEST];

int main(void) {
    size_t len = fread(table, 1, sizeof table, stdin);
    uint32_t refusal = sawmauve_to_strips(30, table, len, strips, len);
    if (refusal == SAWMAUVE_DONE)
        refusal = sawmauve_from_strips(30, strips, len, back, len);
    if (refusal != SAWMAUVE_DONE) {
        fprintf(stderr, "refused %u\n", (unsigned)refusal);
        return 1;
    }
    if (memcmp(table, back, len) != 0) {
        fprintf(stderr, "the table did not come back\n");
        return 1;
    }
    return fwrite(strips, 1, len, stdout) == len ? 0 : 1;
}
