/* Builds a description from its entries, 5,1 [3,2,1; 4,2,1] in the notation of the desk: every item by link 1 has at least
 * one and at most one by link 2. Then reads it, and prints its normal form, an entry as kind,owner,name,number.
 * docs/FORMAT.md explains each byte. */
#include <stdio.h>
#include <string.h>

#include "goltximen.h"

struct entry {
    uint8_t kind;
    uint16_t owner, name, number;
};

static void put(uint8_t *at, size_t word) {
    at[0] = (uint8_t)word;
    at[1] = (uint8_t)(word >> 8);
}

/* Writes k entries as blocks: GX_BYTES(k) bytes from out on. */
static void build(const struct entry *e, size_t k, uint8_t *out) {
    size_t blocks = GX_BYTES(k) / 512;
    memset(out, 0, GX_BYTES(k));
    for (size_t b = 0; b < blocks; b++, out += 512) {
        size_t used = b + 1 < blocks ? 63 : k - 63 * b;
        size_t first = 0, second = 0;
        put(out, b + 1);
        put(out + 2, used);
        for (size_t i = 0; i < used; i++, e++) {
            put(out + 4 + 8 * i, e->kind);
            put(out + 6 + 8 * i, e->owner);
            put(out + 8 + 8 * i, e->name);
            put(out + 10 + 8 * i, e->number);
        }
        for (size_t i = 0; i < 508; i += 2) {
            size_t word = out[i] + 256u * out[i + 1];
            first += word;
            second += (i / 2 + 1) * word;
        }
        put(out + 508, second);         /* their low two bytes: both sums wrap at 65,536 */
        put(out + 510, first + second); /* the second is one of the words of the first */
    }
}

static unsigned get(const uint8_t *at) {
    return at[0] + 256u * at[1];
}

/* Entry n of accepted blocks, n from 1 to their count. */
static struct entry entry_at(const uint8_t *blocks, size_t n) {
    const uint8_t *at = blocks + 512 * ((n - 1) / 63) + 4 + 8 * ((n - 1) % 63);
    struct entry e = {at[0], (uint16_t)get(at + 2), (uint16_t)get(at + 4), (uint16_t)get(at + 6)};
    return e;
}

static int refused(uint64_t r) {
    printf("refused %u input %u place %u\n", GX_NUMBER(r), GX_FIRST(r), GX_SECOND(r));
    return 1;
}

int main(void) {
    const struct entry entries[] = {
        {5, 0, 1, 0}, /* at the top: every item by link 1 fits what entry 1 owns */
        {3, 1, 2, 1}, /* owned by entry 1: at least 1 by link 2 */
        {4, 1, 2, 1}, /* owned by entry 1: at most 1 by link 2 */
    };
    uint8_t d[GX_BYTES(3)], out[sizeof d];
    build(entries, 3, d);

    uint64_t r = gx_read_description(d, sizeof d);
    if (GX_ANSWER(r) == GX_REFUSED)
        return refused(r);
    printf("description of %u entries\n", GX_COUNT(r));

    r = gx_normal(d, sizeof d, out, sizeof out);
    if (GX_ANSWER(r) == GX_REFUSED)
        return refused(r);
    printf("normal form of %u entries:", GX_COUNT(r));
    for (size_t n = 1; n <= GX_COUNT(r); n++) {
        struct entry e = entry_at(out, n);
        printf(" %u,%u,%u,%u", e.kind, e.owner, e.name, e.number);
    }
    printf("\n");
    return 0;
}
