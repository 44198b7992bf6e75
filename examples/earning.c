/* Which entries of a supplier's description earn a service's yes: `earning SUPPLIER SERVICE...`, files of blocks. For each service it
 * prints their numbers; without any one of them that is no 'every' the description is not contained. Or that it is not contained, or why
 * it is refused. `make test` builds and runs this. */
#include <stdio.h>

#include "goltximen.h"

enum { LONGEST = GX_BYTES(1008) };

/* A byte more than descriptions have, so that a longer file shows. */
static uint8_t supplier[LONGEST + 1], service[LONGEST + 1], earns[GX_EARNING_BYTES];

/* Reads a file: its length; or 0, which no description has, and says why. */
static size_t read_file(const char *name, uint8_t *at) {
    FILE *file = fopen(name, "rb");
    if (file == NULL) {
        perror(name);
        return 0;
    }
    size_t length = fread(at, 1, LONGEST + 1, file);
    fclose(file);
    return length;
}

/* Prints what a service's answer is, and gives the exit status that it makes. */
static int tell(const char *name, uint64_t r, unsigned entries) {
    if (GX_ANSWER(r) == GX_REFUSED) {
        printf("%s: refused %u input %u place %u\n", name, GX_NUMBER(r), GX_FIRST(r), GX_SECOND(r));
        return 2;
    }
    if (GX_ANSWER(r) == GX_NO) {
        printf("%s: not contained\n", name);
        return 1;
    }
    printf("%s: contained, by", name);
    unsigned needed = 0;
    for (unsigned n = 1; n <= entries; n++)
        if (earns[n - 1]) {
            printf(" %u", n);
            needed++;
        }
    /* Whatever fits a service without entries, or with ones that every item meets, is contained in it. */
    printf(needed == 0 ? " no entry\n" : "\n");
    return 0;
}

int main(int count, char **arguments) {
    if (count < 3) {
        fprintf(stderr, "usage: earning SUPPLIER SERVICE...\n");
        return 64;
    }
    int status = 0;
    size_t c = read_file(arguments[1], supplier);
    unsigned entries = GX_COUNT(gx_read_description(supplier, c));
    for (int i = 2; i < count; i++) {
        size_t d = read_file(arguments[i], service);
        uint64_t r = gx_earning(NULL, 0, supplier, c, service, d, earns, sizeof earns);
        int told = tell(arguments[i], r, entries);
        status = told > status ? told : status;
    }
    return status;
}
