/* Tells what a supplier's description lacks for services: `missing SUPPLIER SERVICE...`, files of blocks. For each it prints the entries
 * of the service that are to be added, as kind,owner,name,number, or that there is nothing to add, or that no item fits both. `make test`
 * builds and runs this. */
#include <stdio.h>

#include "goltximen.h"

enum { LONGEST = GX_BYTES(1008) };

/* A byte more than descriptions have, so that a longer file shows. */
static uint8_t supplier[LONGEST + 1], service[LONGEST + 1], marks[GX_MISSING_BYTES];

/* Reads a file: its length; or 0, which no description has, and says why. */
static size_t read_file(const char *name, uint8_t *at) {
    FILE *file = fopen(name, "rb");
    if (file == NULL) {
        perror(name);
        return 0;
    }
    size_t length = fread(at, 1, LONGEST + 1, file);
    fclose(file);
    return length;
}

/* Prints entry n of a description. */
static void show(const uint8_t *blocks, unsigned n) {
    const uint8_t *e = blocks + 512 * ((n - 1) / 63) + 4 + 8 * ((n - 1) % 63);
    printf(" %u,%u,%u,%u", e[0], e[2] + 256u * e[3], e[4] + 256u * e[5], e[6] + 256u * e[7]);
}

int main(int count, char **arguments) {
    if (count < 3) {
        fprintf(stderr, "usage: missing SUPPLIER SERVICE...\n");
        return 64;
    }
    int status = 0;
    size_t length = read_file(arguments[1], supplier);
    for (int i = 2; i < count; i++) {
        size_t other = read_file(arguments[i], service);
        uint64_t r = gx_missing(NULL, 0, supplier, length, service, other, marks, sizeof marks);
        printf("%s:", arguments[i]);
        if (GX_ANSWER(r) == GX_REFUSED) {
            printf(" refused %u input %u place %u\n", GX_NUMBER(r), GX_FIRST(r), GX_SECOND(r));
            status = 2;
            continue;
        }
        printf(GX_ANSWER(r) == GX_NOTHING_MISSING ? " nothing to add" : GX_ANSWER(r) == GX_TO_BE_ADDED ? " to be added" : " no item fits both");
        for (unsigned n = 1, entries = GX_COUNT(gx_read_description(service, other)); n <= entries; n++)
            if (marks[n - 1])
                show(service, n);
        printf("\n");
    }
    return status;
}
