/* Ranks services from special to general: `hierarchy SERVICE...`, files of blocks, at most 64. The services are laid end to end, and
 * one call tells which contains which, which are the direct superiors of each, and which say the same. A file that is no description
 * is told and left out: in the list it could begin no service, or two. `make test` builds and runs this. */
#include <stdio.h>

#include "goltximen.h"

enum { MOST = 64, LONGEST = GX_BYTES(1008) };

/* A byte more than descriptions have, so that a longer file shows. */
static uint8_t list[MOST * LONGEST + 1], out[GX_HIERARCHY_BYTES(MOST)];
static const char *names[MOST];

/* Reads a description from a file: its length; or 0, and says why. */
static size_t read_file(const char *name, uint8_t *at) {
    FILE *file = fopen(name, "rb");
    if (file == NULL) {
        perror(name);
        return 0;
    }
    size_t length = fread(at, 1, LONGEST + 1, file);
    fclose(file);
    uint64_t r = gx_read_description(at, length);
    if (GX_ANSWER(r) == GX_REFUSED) {
        printf("%s: refused %u place %u\n", name, GX_NUMBER(r), GX_SECOND(r));
        return 0;
    }
    return length;
}

/* Prints a service and the classes directly above it, each by the first of its services. */
static void show(size_t i, size_t n) {
    const uint8_t *superiors = out + n * n, *classes = superiors + n * n;
    size_t shown = 0;
    printf("%s:", names[i]);
    if (classes[i] != i + 1) {
        printf(" says the same as %s\n", names[classes[i] - 1]);
        return;
    }
    for (size_t j = 0; j < n; j++)
        if (superiors[n * i + j] && classes[j] == j + 1)
            printf("%s %s", shown++ == 0 ? " below" : "", names[j]);
    printf("%s\n", shown == 0 ? " at the top" : "");
}

int main(int count, char **arguments) {
    if (count < 2 || count > 1 + MOST) {
        fprintf(stderr, "usage: hierarchy SERVICE..., at most %d services\n", MOST);
        return 64;
    }
    size_t length = 0, services = 0;
    for (int i = 1; i < count; i++) {
        size_t read = read_file(arguments[i], list + length);
        if (read > 0)
            names[services++] = arguments[i];
        length += read;
    }

    uint64_t r = gx_hierarchy(NULL, 0, list, length, out, sizeof out);
    if (GX_ANSWER(r) == GX_REFUSED) {
        printf("refused %u input %u place %u\n", GX_NUMBER(r), GX_FIRST(r), GX_SECOND(r));
        return 2;
    }
    for (size_t i = 0; i < services; i++)
        show(i, services);
    return 0;
}
