/* Compares two descriptions: "has property 7" with "lacks property 8". An item may have both, so the first is not contained
 * in the second, and the specimen that shows it has two entries. `make test` builds and runs this. */
#include <stdio.h>

#include "goltximen.h"

/* A description of one block that has one entry, of this kind and name, at the top; both are below 16. */
static void describe(uint8_t block[512], uint8_t kind, uint8_t name) {
    for (int i = 0; i < 512; i++)
        block[i] = 0;
    block[0] = 1;    /* the block's number */
    block[2] = 1;    /* entries used */
    block[4] = kind; /* the entry is in bytes 4 to 11, the words 3 to 6 */
    block[8] = name;
    block[508] = (uint8_t)(1 * 1 + 2 * 1 + 3 * kind + 5 * name); /* the second check: each word times its number */
    block[510] = (uint8_t)(1 + 1 + kind + name + block[508]);    /* the first check: the sum of the words */
}

int main(void) {
    uint8_t c[512], d[512], out[1024];
    describe(c, 1, 7);
    describe(d, 2, 8);
    uint64_t r = gx_compare(c, sizeof c, d, sizeof d, out, sizeof out);
    if (GX_ANSWER(r) == GX_YES)
        printf("contained\n");
    else if (GX_ANSWER(r) == GX_NO)
        printf("not contained, entry %u; specimen of %u entries\n", GX_FIRST(r), GX_SECOND(r));
    else
        printf("refused %u input %u place %u\n", GX_NUMBER(r), GX_FIRST(r), GX_SECOND(r));
    return 0;
}
