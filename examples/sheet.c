/* Reads field sheets: `sheet FILE...`, files of blocks. Tells for each how many entries it has, or which entry no field sheet has, or why
 * it is no description at all. `make test` builds and runs this. */
#include <stdio.h>

#include "goltximen.h"

enum { OUTSIDE = 19, LONGEST = GX_BYTES(1008) };

/* A byte more than descriptions have, so that a longer file shows. */
static uint8_t bytes[LONGEST + 1];

int main(int count, char **arguments) {
    int status = 0;
    for (int i = 1; i < count; i++) {
        FILE *file = fopen(arguments[i], "rb");
        if (file == NULL) {
            perror(arguments[i]);
            return 64;
        }
        size_t length = fread(bytes, 1, sizeof bytes, file);
        fclose(file);

        uint64_t r = gx_read_sheet(bytes, length);
        printf("%s: ", arguments[i]);
        if (GX_ANSWER(r) != GX_REFUSED)
            printf("field sheet of %u entries\n", GX_COUNT(r));
        else if (GX_NUMBER(r) == OUTSIDE)
            printf("no field sheet, entry %u\n", GX_SECOND(r));
        else
            printf("refused %u place %u\n", GX_NUMBER(r), GX_SECOND(r));
        if (GX_ANSWER(r) == GX_REFUSED)
            status = 2;
    }
    return status;
}
