/* A supplier says 'sealed and not frozen' of its cores, and again of its bags. A dictionary has it once, and entries of kind 9
 * stand for it. The description is unfolded, and compared as it is sent. `make test` builds and runs this. */
#include <stdio.h>

#include "goltximen.h"

enum { SEALED = 7, FROZEN = 8, CORE = 1, BAG = 2 };

/* A dictionary of one description: one block with two entries, "has sealed" and "lacks frozen". */
static const uint8_t dict[512] = {
    [0] = 1, [2] = 2, [4] = 1, [8] = SEALED, [12] = 2, [16] = FROZEN, [508] = 129, [510] = 150,
};

/* Every core and every bag is what description 1 says. Entries 2 and 4 have kind 9, their owners are 1 and 3, and they name 1. */
static const uint8_t supplier[512] = {
    [0] = 1, [2] = 4,                                     /* block number, used count */
    [4] = 5, [8] = CORE, [12] = 9, [14] = 1, [16] = 1,    /* entries 1 and 2 */
    [20] = 5, [24] = BAG, [28] = 9, [30] = 3, [32] = 1,   /* entries 3 and 4 */
    [508] = 134, [509] = 1, [510] = 176, [511] = 1,       /* the checks */
};

/* Every bag is sealed. */
static const uint8_t service[512] = {
    [0] = 1, [2] = 2, [4] = 5, [8] = BAG, [12] = 1, [14] = 1, [16] = SEALED, [508] = 108, [510] = 127,
};

/* Room for any two descriptions once unfolded. */
static uint8_t out[2 * GX_BYTES(1008)];

int main(void) {
    uint64_t r = gx_unfold(dict, sizeof dict, supplier, sizeof supplier, out, sizeof out);
    printf("%u entries once unfolded:", GX_COUNT(r));
    for (size_t n = 0; n < GX_COUNT(r); n++) {
        const uint8_t *e = out + 512 * (n / 63) + 4 + 8 * (n % 63);
        printf(" %u,%u,%u,%u", e[0], e[2] + 256u * e[3], e[4] + 256u * e[5], e[6] + 256u * e[7]);
    }

    r = gx_compare_with(NULL, 0, dict, sizeof dict, supplier, sizeof supplier, service, sizeof service, out, sizeof out);
    printf("; %s\n", GX_ANSWER(r) == GX_YES ? "contained" : GX_ANSWER(r) == GX_NO ? "not contained" : "refused");
    return 0;
}
