/* Drafts a description on a desk that is kept in a file from one day to the next: `desk FILE`. On the first day there is no such file:
 * two entries are added, and what stands in the evening is named 1. On the next the draft is gone on with, given up for what stood in
 * the evening, and written out. `make test` builds and runs this. */
#include <stdio.h>

#include "goltximen.h"

static uint8_t desk[GX_DESK_BYTES], out[GX_BYTES(1008)];

/* An entry as a number. */
static uint64_t entry(uint64_t kind, uint64_t owner, uint64_t name, uint64_t number) {
    return kind | owner << 16 | name << 32 | number << 48;
}

/* Prints what a call answers. */
static void tell(const char *call, uint64_t r) {
    if (GX_ANSWER(r) == GX_REFUSED)
        printf("%s: refused %u place %u\n", call, GX_NUMBER(r), GX_SECOND(r));
    else
        printf("%s: %u entries\n", call, GX_COUNT(r));
}

int main(int count, char **arguments) {
    if (count != 2) {
        fprintf(stderr, "usage: desk FILE\n");
        return 64;
    }
    FILE *file = fopen(arguments[1], "rb");
    if (file == NULL) {
        /* All zero is the empty desk. 'every item by link 1 has property 7'. */
        tell("add", gx_desk_add(desk, sizeof desk, entry(5, 0, 1, 0)));
        tell("add", gx_desk_add(desk, sizeof desk, entry(1, 1, 7, 0)));
        tell("name", gx_desk_name(desk, sizeof desk, 1));
    } else {
        size_t length = fread(desk, 1, sizeof desk, file);
        fclose(file);
        tell("take off", gx_desk_take_off(desk, length));
        tell("add", gx_desk_add(desk, length, entry(2, 1, 8, 0)));
        /* Entry 2 may own nothing. */
        tell("add", gx_desk_add(desk, length, entry(1, 2, 9, 0)));
        tell("go back", gx_desk_go_back(desk, length, 1));
        tell("write", gx_desk_write(desk, length, out, sizeof out));
        tell("read", gx_read_description(out, GX_BYTES(2)));
    }
    file = fopen(arguments[1], "wb");
    if (file == NULL || fwrite(desk, 1, sizeof desk, file) != sizeof desk || fclose(file) != 0) {
        perror(arguments[1]);
        return 1;
    }
    return 0;
}
