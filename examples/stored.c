/* Writes a description in the shorter stored form and back: `stored to IN OUT` and `stored from IN OUT`, files of blocks. Prints how many
 * entries it has and how many blocks it takes in each form, or why it is refused; then nothing is written. `make test` builds and runs
 * this. */
#include <stdio.h>
#include <string.h>

#include "goltximen.h"

enum { LONGEST = GX_BYTES(1008) };

/* A byte more than descriptions have, so that a longer file shows. Either form is at most as long as these. */
static uint8_t in[LONGEST + 1], out[LONGEST];

int main(int count, char **arguments) {
    int to = count == 4 && strcmp(arguments[1], "to") == 0;
    if (!to && (count != 4 || strcmp(arguments[1], "from") != 0)) {
        fprintf(stderr, "usage: stored to|from IN OUT\n");
        return 64;
    }
    FILE *file = fopen(arguments[2], "rb");
    if (file == NULL) {
        perror(arguments[2]);
        return 2;
    }
    size_t length = fread(in, 1, sizeof in, file);
    fclose(file);
    uint64_t r = to ? gx_to_stored(in, length, out, sizeof out) : gx_from_stored(in, length, out, sizeof out);
    if (GX_ANSWER(r) == GX_REFUSED) {
        printf("refused %u place %u\n", GX_NUMBER(r), GX_SECOND(r));
        return 2;
    }
    unsigned entries = GX_COUNT(r);
    size_t blocks = GX_BYTES(entries), stored = GX_STORED_BYTES(entries), written = to ? stored : blocks;
    file = fopen(arguments[3], "wb");
    if (file == NULL || fwrite(out, 1, written, file) != written || fclose(file) != 0) {
        perror(arguments[3]);
        return 2;
    }
    printf("%u entries: %zu blocks, %zu stored\n", entries, blocks / 512, stored / 512);
    return 0;
}
