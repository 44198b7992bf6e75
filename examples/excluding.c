/* Clay and sand never hold of one item. Under a list that says so, "has clay" is contained in "lacks sand"; without a list it is
 * not. `make test` builds and runs this. */
#include <stdio.h>

#include "goltximen.h"

enum { CLAY = 7, SAND = 8 };

/* Descriptions of one block with one entry: block number, used count, kind and name of the entry, and the two checks. */
static const uint8_t has_clay[512] = {[0] = 1, [2] = 1, [4] = 1, [8] = CLAY, [508] = 41, [510] = 51};
static const uint8_t lacks_sand[512] = {[0] = 1, [2] = 1, [4] = 2, [8] = SAND, [508] = 49, [510] = 61};

/* The list: one pair, two properties of two bytes. */
static const uint8_t pairs[4] = {CLAY, 0, SAND, 0};

/* Compares the two under the first pairs_len bytes of the list, with a dictionary of length 0. */
static const char *compared(size_t pairs_len) {
    uint8_t out[sizeof has_clay + sizeof lacks_sand];
    uint64_t r = gx_compare_with(pairs, pairs_len, NULL, 0, has_clay, sizeof has_clay, lacks_sand, sizeof lacks_sand, out,
                                 sizeof out);
    return GX_ANSWER(r) == GX_YES ? "contained" : GX_ANSWER(r) == GX_NO ? "not contained" : "refused";
}

int main(void) {
    printf("without the list: %s; under it: %s\n", compared(0), compared(sizeof pairs));
    return 0;
}
