/* Two suppliers share a van, and one description is to hold for both: the narrowest that contains each. `make test` builds and runs this. */
#include <stdio.h>

#include "goltximen.h"

enum { CORE = 1, SEALED = 7, DRY = 8 };

/* At least 3 cores and at most 9, each of them sealed and dry. Entries 4 and 5 are owned by 3. */
static const uint8_t first[512] = {
    [0] = 1, [2] = 5,                                                 /* block number, used count */
    [4] = 3, [8] = CORE, [10] = 3, [12] = 4, [16] = CORE, [18] = 9,   /* entries 1 and 2 */
    [20] = 5, [24] = CORE,                                            /* entry 3 */
    [28] = 1, [30] = 3, [32] = SEALED, [36] = 1, [38] = 3, [40] = DRY, /* entries 4 and 5 */
    [508] = 155, [509] = 2, [510] = 211, [511] = 2,                   /* the checks */
};

/* At least 1 core and at most 4, each of them sealed. */
static const uint8_t second[512] = {
    [0] = 1, [2] = 4, [4] = 3, [8] = CORE, [10] = 1, [12] = 4, [16] = CORE, [18] = 4, [20] = 5, [24] = CORE,
    [28] = 1, [30] = 3, [32] = SEALED, [508] = 100, [509] = 1, [510] = 136, [511] = 1,
};

int main(void) {
    /* As long as both: without pairs that is always enough. */
    uint8_t out[sizeof first + sizeof second];
    uint64_t r = gx_narrowest(NULL, 0, NULL, 0, first, sizeof first, second, sizeof second, out, sizeof out);
    printf("narrowest of %u entries:", GX_COUNT(r));
    for (size_t n = 0; n < GX_COUNT(r); n++) {
        const uint8_t *e = out + 512 * (n / 63) + 4 + 8 * (n % 63);
        printf(" %u,%u,%u,%u", e[0], e[2] + 256u * e[3], e[4] + 256u * e[5], e[6] + 256u * e[7]);
    }
    printf("\n");
    return 0;
}
