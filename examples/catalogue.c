/* Prints which services take a supplier's consignment: `catalogue SUPPLIER SERVICE...`, files of blocks, at most 64 services. The
 * services are laid end to end, and one call answers for all of them. A file that is no description is told and left out: in the
 * list it could begin no service, or two, and the answers would stand for others. `make test` builds and runs this. */
#include <stdio.h>

#include "goltximen.h"

enum { MOST = 64, LONGEST = GX_BYTES(1008) };

/* A byte more than descriptions have, so that a longer file shows. */
static uint8_t supplier[LONGEST + 1], list[MOST * LONGEST + 1];
static const char *names[MOST];

/* Reads a description from a file: its length; or 0, and says why. */
static size_t read_file(const char *name, uint8_t *at) {
    FILE *file = fopen(name, "rb");
    if (file == NULL) {
        perror(name);
        return 0;
    }
    size_t length = fread(at, 1, LONGEST + 1, file);
    fclose(file);
    uint64_t r = gx_read_description(at, length);
    if (GX_ANSWER(r) == GX_REFUSED) {
        printf("%s: refused %u place %u\n", name, GX_NUMBER(r), GX_SECOND(r));
        return 0;
    }
    return length;
}

int main(int count, char **arguments) {
    if (count < 3 || count > 2 + MOST) {
        fprintf(stderr, "usage: catalogue SUPPLIER SERVICE..., at most %d services\n", MOST);
        return 64;
    }
    size_t supplier_length = read_file(arguments[1], supplier), length = 0, services = 0;
    for (int i = 2; i < count; i++) {
        size_t read = read_file(arguments[i], list + length);
        if (read > 0)
            names[services++] = arguments[i];
        length += read;
    }

    uint8_t contained[MOST]; /* a byte for each service */
    uint64_t r = gx_catalogue(NULL, 0, NULL, 0, supplier, supplier_length, list, length, contained, sizeof contained);
    if (GX_ANSWER(r) == GX_REFUSED) {
        printf("refused %u input %u place %u\n", GX_NUMBER(r), GX_FIRST(r), GX_SECOND(r));
        return 2;
    }
    for (size_t i = 0; i < GX_COUNT(r); i++)
        printf("%s: %s\n", names[i], contained[i] ? "contained" : "not contained");
    return 0;
}
