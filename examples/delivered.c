/* Three items arrive together: a core, the bag that it was put into, and a box of which nothing is said. Which of them say 'at least one by
 * the link 3'? Items may be shared and links may go round, so this is no specimen. `make test` builds and runs this. */
#include <stdio.h>

#include "goltximen.h"

enum { ITEMS = 3, SEALED = 7, PUT_INTO = 3 };

/* One block with two entries: item 1 is linked by PUT_INTO to item 2, and item 2 is SEALED. */
static const uint8_t record[512] = {
    [0] = 1, [2] = 2,                                    /* block number, used count */
    [4] = 8, [6] = 1, [8] = PUT_INTO, [10] = 2,          /* entry 1: kind 8, owner, link, item */
    [12] = 1, [14] = 2, [16] = SEALED,                   /* entry 2: kind 1, owner, property */
    [508] = 146, [510] = 173,                            /* the checks */
};

/* At least 1 by PUT_INTO. */
static const uint8_t description[512] = {
    [0] = 1, [2] = 1, [4] = 3, [8] = PUT_INTO, [10] = 1, [508] = 33, [510] = 42,
};

int main(void) {
    uint8_t out[GX_ITEMS];
    uint64_t r = gx_fit_all(NULL, 0, NULL, 0, ITEMS, record, sizeof record, description, sizeof description, out, sizeof out);
    if (GX_ANSWER(r) == GX_REFUSED) {
        printf("refused %u input %u place %u\n", GX_NUMBER(r), GX_FIRST(r), GX_SECOND(r));
        return 1;
    }
    for (uint32_t x = 0; x < GX_COUNT(r); x++)
        printf("item %u %s\n", x + 1, out[x] ? "fits" : "does not fit");
    return 0;
}
