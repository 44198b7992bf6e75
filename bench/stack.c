/* The stack that each call of the library takes: the call runs on a stack filled with a pattern, and what is no longer the
 * pattern afterwards was used. Each call gets the inputs that lead furthest down: all entries out of order, so that the sort
 * halves to the end, and chains of owners of the greatest depth, as many as a specimen holds, by a link that leads to one item
 * only. Each place of the description that these are fitted to has an entry before the 'every', so that each level takes a call.
 * The record has as many links that lead to one item only, no two of one owner and link.
 * The list has the most pairs, all with the property that is asked for last. The services are a deep one and a wide
 * one. The dictionary has these descriptions, and those that are unfolded name them. In another dictionary each description
 * names the one before, so that all 64 are open at once. */
#define _GNU_SOURCE
#include <stdio.h>
#include <string.h>
#include <ucontext.h>

#include "goltximen.h"

enum { STACK = 1 << 18, PATTERN = 0xa5, BLOCKS = 16, ENTRIES = 63 * BLOCKS, CHAIN = 33, SINGLE = 32768, PAIRS = 64, NAMES = 64 };

static uint8_t stack[STACK], wide[512 * BLOCKS], chain[512], places[1024], groups[1024 * BLOCKS], record[1024 * BLOCKS], out[1024 * BLOCKS];
static uint8_t desk[GX_DESK_BYTES], halves[2][256 * BLOCKS];
static uint8_t pairs[4 * PAIRS], list[sizeof chain + sizeof wide];
static uint8_t dictionary[sizeof wide + sizeof chain + sizeof places], named[3][512];
static uint8_t nested[512 * NAMES], last[512];
/* Two descriptions of 8 blocks each: as a dictionary they are its two. */
static uint8_t looser[512 * BLOCKS];
static ucontext_t here, there;
static uint64_t answer;

static void put(uint8_t *at, unsigned word) {
    at[0] = (uint8_t)word;
    at[1] = (uint8_t)(word >> 8);
}

/* Entry n, counted from 1. */
static void put_entry(uint8_t *s, unsigned n, unsigned kind, unsigned owner, unsigned name, unsigned number) {
    uint8_t *e = s + 512 * ((n - 1) / 63) + 4 + 8 * ((n - 1) % 63);
    put(e, kind);
    put(e + 2, owner);
    put(e + 4, name);
    put(e + 6, number);
}

/* The frame of each block of a list of entries. */
static void close_blocks(uint8_t *s, unsigned entries) {
    for (unsigned b = 0; 63 * b < entries; b++, s += 512) {
        unsigned first = 0, second = 0;
        put(s, b + 1);
        put(s + 2, entries - 63 * b < 63 ? entries - 63 * b : 63);
        for (unsigned i = 0; i < 508; i += 2) {
            unsigned word = s[i] + 256u * s[i + 1];
            first += word;
            second += (i / 2 + 1) * word;
        }
        put(s + 508, second);
        put(s + 510, first + second);
    }
}

static void make_inputs(void) {
    for (unsigned n = 1; n <= ENTRIES; n++)
        put_entry(wide, n, 3, 0, n * 397 % 1009, 1);
    for (unsigned n = 1; n <= CHAIN; n++)
        put_entry(chain, n, 5, n - 1, n == 1 ? 1 : SINGLE, 0);
    for (unsigned n = 1; n <= CHAIN; n++) {
        put_entry(places, 2 * n - 1, 2, 2 * n - 2, 7, 0);
        put_entry(places, 2 * n, 5, 2 * n - 2, n == 1 ? 1 : SINGLE, 0);
    }
    for (unsigned n = 1; n <= 2 * ENTRIES; n++) {
        unsigned first = n % CHAIN == 1;
        put_entry(groups, n, 7, first ? 0 : n - 1, first ? 1 : SINGLE, 0);
    }
    for (unsigned n = 1; n <= 2 * ENTRIES; n++)
        put_entry(record, n, 8, 1 + n * 77 % 256, SINGLE + n / 256, 1 + n % 256);
    for (unsigned i = 0; i < PAIRS; i++) {
        put(pairs + 4 * i, 7);
        put(pairs + 4 * i + 2, 8 + i);
    }
    put_entry(chain, CHAIN + 1, 2, 0, 7, 0);
    put_entry(chain, CHAIN + 2, 2, CHAIN - 1, 7, 0);
    put_entry(chain, CHAIN + 3, 4, CHAIN - 1, 1, 9);
    close_blocks(wide, ENTRIES);
    close_blocks(chain, CHAIN + 3);
    close_blocks(places, 2 * CHAIN);
    close_blocks(groups, 2 * ENTRIES);
    close_blocks(record, 2 * ENTRIES);
    for (unsigned n = 1; n <= ENTRIES / 2; n++) {
        put_entry(halves[0], n, 3, 0, n * 397 % 1009, 1);
        put_entry(halves[1], n, 3, 0, (ENTRIES / 2 + n) * 397 % 1009, 1);
        put_entry(looser, n, 3, 0, n * 397 % 1009, 1);
        put_entry(looser + sizeof looser / 2, n, 3, 0, n * 397 % 1009, 2);
    }
    close_blocks(halves[0], ENTRIES / 2);
    close_blocks(halves[1], ENTRIES / 2);
    close_blocks(looser, ENTRIES / 2);
    close_blocks(looser + sizeof looser / 2, ENTRIES / 2);
    memcpy(list, chain, sizeof chain);
    memcpy(list + sizeof chain, wide, sizeof wide);
    memcpy(dictionary, wide, sizeof wide);
    memcpy(dictionary + sizeof wide, chain, sizeof chain);
    memcpy(dictionary + sizeof wide + sizeof chain, places, sizeof places);
    /* A desk with the wide description but its last entry, and four stands that have the same. */
    for (unsigned n = 1; n < ENTRIES; n++) {
        const uint8_t *e = wide + 512 * ((n - 1) / 63) + 4 + 8 * ((n - 1) % 63);
        uint64_t entry = 0;
        for (unsigned i = 8; i-- > 0;)
            entry = entry << 8 | e[i];
        gx_desk_add(desk, sizeof desk, entry);
    }
    for (unsigned n = 1; n <= 4; n++)
        gx_desk_name(desk, sizeof desk, (uint16_t)n);
    for (unsigned n = 0; n < 3; n++) {
        put_entry(named[n], 1, 9, 0, n + 1, 0);
        close_blocks(named[n], 1);
    }
    for (unsigned n = 1; n <= NAMES; n++) {
        uint8_t *one = nested + 512 * (n - 1);
        put_entry(one, 1, 1, 0, n, 0);
        if (n > 1)
            put_entry(one, 2, 9, 0, n - 1, 0);
        close_blocks(one, n > 1 ? 2 : 1);
    }
    put_entry(last, 1, 9, 0, NAMES, 0);
    close_blocks(last, 1);
}

static void read_description(void) { answer = gx_read_description(wide, sizeof wide); }
static void read_specimen(void) { answer = gx_read_specimen(groups, sizeof groups); }
static void read_sheet(void) { answer = gx_read_sheet(wide, sizeof wide); }
static void fit(void) { answer = gx_fit(groups, sizeof groups, places, sizeof places); }
static void fit_counted(void) { answer = gx_fit_counted(groups, sizeof groups, places, sizeof places); }
static void normal(void) { answer = gx_normal(wide, sizeof wide, out, sizeof out); }
static void compare(void) { answer = gx_compare(wide, sizeof wide, chain, sizeof chain, out, sizeof out); }
static void fit_with(void) { answer = gx_fit_with(pairs, sizeof pairs, NULL, 0, groups, sizeof groups, places, sizeof places); }
static void normal_with(void) { answer = gx_normal_with(pairs, sizeof pairs, NULL, 0, wide, sizeof wide, out, sizeof out); }
static void compare_with(void) {
    answer = gx_compare_with(pairs, sizeof pairs, NULL, 0, wide, sizeof wide, chain, sizeof chain, out, sizeof out);
}
static void narrowest(void) {
    size_t half = sizeof looser / 2;
    answer = gx_narrowest(pairs, sizeof pairs, NULL, 0, looser, half, looser + half, half, out, sizeof out);
}
static void catalogue(void) {
    answer = gx_catalogue(pairs, sizeof pairs, NULL, 0, wide, sizeof wide, list, sizeof list, out, sizeof out);
}
static void earning(void) {
    answer = gx_earning(pairs, sizeof pairs, wide, sizeof wide, wide, sizeof wide, out, sizeof out);
}
static void failing(void) {
    answer = gx_failing(pairs, sizeof pairs, wide, sizeof wide, wide, sizeof wide, out, sizeof out);
}
static void missing(void) {
    answer = gx_missing(pairs, sizeof pairs, halves[0], sizeof halves[0], halves[1], sizeof halves[1], out, sizeof out);
}
static void hierarchy(void) { answer = gx_hierarchy(pairs, sizeof pairs, list, sizeof list, out, sizeof out); }
static void fit_all(void) {
    answer = gx_fit_all(pairs, sizeof pairs, NULL, 0, 256, record, sizeof record, places, sizeof places, out, sizeof out);
}
static void fit_all_named(void) {
    answer = gx_fit_all(pairs, sizeof pairs, dictionary, sizeof dictionary, 256, record, sizeof record, named[2], 512, out, sizeof out);
}
static uint8_t stored[6144];
static void to_stored(void) { answer = gx_to_stored(wide, sizeof wide, stored, sizeof stored); }
static void from_stored(void) { answer = gx_from_stored(stored, sizeof stored, out, sizeof out); }
static void unfold(void) { answer = gx_unfold(dictionary, sizeof dictionary, named[0], 512, out, sizeof out); }
static void fit_named(void) {
    answer = gx_fit_with(pairs, sizeof pairs, dictionary, sizeof dictionary, groups, sizeof groups, named[2], 512);
}
static void normal_named(void) {
    answer = gx_normal_with(pairs, sizeof pairs, dictionary, sizeof dictionary, named[0], 512, out, sizeof out);
}
static void compare_named(void) {
    answer = gx_compare_with(pairs, sizeof pairs, dictionary, sizeof dictionary, named[0], 512, named[1], 512, out, sizeof out);
}
static void narrowest_named(void) {
    answer = gx_narrowest(pairs, sizeof pairs, looser, sizeof looser, named[0], 512, named[1], 512, out, sizeof out);
}
static void catalogue_named(void) {
    answer = gx_catalogue(pairs, sizeof pairs, dictionary, sizeof dictionary, named[0], 512, named[1], 1024, out, sizeof out);
}
static void desk_add(void) { answer = gx_desk_add(desk, sizeof desk, 1 | 7ull << 32); }
static void desk_take_off(void) { answer = gx_desk_take_off(desk, sizeof desk); }
static void desk_name(void) { answer = gx_desk_name(desk, sizeof desk, 4); }
static void desk_go_back(void) { answer = gx_desk_go_back(desk, sizeof desk, 3); }
static void desk_drop(void) { answer = gx_desk_drop(desk, sizeof desk, 1); }
static void desk_write(void) { answer = gx_desk_write(desk, sizeof desk, out, sizeof out); }
static void unfold_nested(void) { answer = gx_unfold(nested, sizeof nested, last, 512, out, sizeof out); }
static void fit_nested(void) {
    answer = gx_fit_with(pairs, sizeof pairs, nested, sizeof nested, groups, sizeof groups, last, 512);
}
static void normal_nested(void) {
    answer = gx_normal_with(pairs, sizeof pairs, nested, sizeof nested, last, 512, out, sizeof out);
}
static void compare_nested(void) {
    answer = gx_compare_with(pairs, sizeof pairs, nested, sizeof nested, last, 512, last, 512, out, sizeof out);
}
static void narrowest_nested(void) {
    answer = gx_narrowest(pairs, sizeof pairs, nested, sizeof nested, last, 512, last, 512, out, sizeof out);
}
static void catalogue_nested(void) {
    answer = gx_catalogue(pairs, sizeof pairs, nested, sizeof nested, last, 512, last, 512, out, sizeof out);
}
static void nothing(void) {}

/* The bytes from the lowest that changed to the top. */
static size_t used_by(void (*call)(void)) {
    size_t kept = 0;
    memset(stack, PATTERN, sizeof stack);
    getcontext(&there);
    there.uc_stack.ss_sp = stack;
    there.uc_stack.ss_size = sizeof stack;
    there.uc_link = &here;
    makecontext(&there, call, 0);
    swapcontext(&here, &there);
    while (kept < sizeof stack && stack[kept] == PATTERN)
        kept++;
    return sizeof stack - kept;
}

static void show(const char *name, void (*call)(void)) {
    size_t used = used_by(call);
    printf("%s: %zu bytes (answer %u, %u, %u, %u)\n", name, used, GX_ANSWER(answer), GX_NUMBER(answer),
           GX_FIRST(answer), GX_SECOND(answer));
}

int main(void) {
    make_inputs();
    printf("an empty call: %zu bytes\n", used_by(nothing));
    show("gx_read_description", read_description);
    show("gx_read_specimen", read_specimen);
    show("gx_read_sheet", read_sheet);
    show("gx_fit", fit);
    show("gx_fit_counted", fit_counted);
    show("gx_normal", normal);
    show("gx_compare", compare);
    show("gx_fit_with", fit_with);
    show("gx_normal_with", normal_with);
    show("gx_compare_with", compare_with);
    show("gx_narrowest", narrowest);
    show("gx_catalogue", catalogue);
    show("gx_hierarchy", hierarchy);
    show("gx_earning", earning);
    show("gx_failing", failing);
    show("gx_missing", missing);
    show("gx_desk_add", desk_add);
    show("gx_desk_take_off", desk_take_off);
    show("gx_desk_name", desk_name);
    show("gx_desk_go_back", desk_go_back);
    show("gx_desk_drop", desk_drop);
    show("gx_desk_write", desk_write);
    show("gx_fit_all", fit_all);
    show("gx_to_stored", to_stored);
    show("gx_from_stored", from_stored);
    show("gx_unfold", unfold);
    show("gx_fit_with, named", fit_named);
    show("gx_normal_with, named", normal_named);
    show("gx_compare_with, named", compare_named);
    show("gx_narrowest, named", narrowest_named);
    show("gx_catalogue, named", catalogue_named);
    show("gx_unfold, nested", unfold_nested);
    show("gx_fit_with, nested", fit_nested);
    show("gx_normal_with, nested", normal_nested);
    show("gx_compare_with, nested", compare_nested);
    show("gx_narrowest, nested", narrowest_nested);
    show("gx_catalogue, nested", catalogue_nested);
    show("gx_fit_all, named", fit_all_named);
    return 0;
}
