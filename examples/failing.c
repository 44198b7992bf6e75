/* Which entries of a service a supplier's description does not say: `failing SUPPLIER SERVICE`, two files of blocks. Prints the number of
 * each, or 'contained', or why it is refused. `make test` builds and runs this. */
#include <stdio.h>

#include "goltximen.h"

enum { LONGEST = GX_BYTES(1008) };

/* A byte more than descriptions have, so that a longer file shows. */
static uint8_t supplier[LONGEST + 1], service[LONGEST + 1], fails[GX_FAILING_BYTES];

static size_t read_file(const char *name, uint8_t *bytes) {
    FILE *file = fopen(name, "rb");
    if (file == NULL) {
        perror(name);
        return 0;
    }
    size_t length = fread(bytes, 1, LONGEST + 1, file);
    fclose(file);
    return length;
}

int main(int count, char **arguments) {
    if (count != 3)
        return 64;
    size_t c = read_file(arguments[1], supplier), d = read_file(arguments[2], service);
    uint64_t r = gx_failing(NULL, 0, supplier, c, service, d, fails, sizeof fails);
    if (GX_ANSWER(r) == GX_REFUSED) {
        printf("refused %u input %u place %u\n", GX_NUMBER(r), GX_FIRST(r), GX_SECOND(r));
        return 2;
    }
    if (GX_ANSWER(r) == GX_YES) {
        printf("contained\n");
        return 0;
    }
    for (unsigned n = 0; n < GX_FAILING_BYTES; n++)
        if (fails[n])
            printf("entry %u fails\n", n + 1);
    return 1;
}
