/*
 * Goltximen: soil sample descriptions, what fits them, their normal form, and whether one holds another.
 *
 * The static library is target/staticlib/libcapi.a, for x86-64 Linux; `make lib` builds it. Its functions are proved to
 * answer what is said here for all bytes and lengths, to read and write no memory but that of their slices and their own
 * stack, and to return.
 *
 * Slices. A slice is a pointer and a length in bytes. Any bytes may stand in it. An input is only read. Inputs may be the same
 * memory, or overlap each other; the output must overlap no input. Nobody else may write an input or touch the output during
 * a call. An empty slice may come with any pointer, also a null pointer; any other slice must lie in memory of the caller's.
 * Nothing is allocated and nothing is kept between calls, so any number of threads may call at once, each on its own stack.
 *
 * An output that shares even one byte with an input breaks these terms. The library does not look for it and does not refuse
 * it, and nothing that is said here holds of such a call: neither its answer nor the bytes that it writes. So no call works
 * in place; give it an output of its own.
 *
 * Descriptions have 1 to 16 blocks of 512 bytes, 63 entries to a block, specimens 1 to 32; k entries take GX_BYTES(k) bytes.
 * docs/FORMAT.md says what stands in a block, and examples/build.c makes one.
 *
 * The shorter stored form has entries of 6 bytes, 84 to a block, in the same frame; each has its depth in place of its owner, and
 * entries stand in walking order, each followed by what it owns. gx_to_stored writes it, and gx_from_stored reads it back; an input
 * in it has 1 to 12 blocks, and k entries take GX_STORED_BYTES(k) bytes. No other call takes it.
 *
 * Links from 32,768 up lead to one item only: a finite record keeps the rule that no item has two items by one of them. What a
 * yes, a no and a normal form promise is about such records.
 *
 * Properties that exclude each other. gx_fit_with, gx_normal_with, gx_compare_with, gx_narrowest, gx_catalogue,
 * gx_hierarchy, gx_earning, gx_failing, gx_missing and gx_fit_all take a list of pairs of properties, such as clay and
 * sand, that never hold of one item: 0 to 64 pairs of four bytes, in each pair two properties of two bytes, low byte
 * first. Which of the two stands first says nothing; a pair may stand there twice, and a property in several pairs.
 * The list says which records are spoken of: what these calls promise is about every finite record that keeps the list
 * and the rule on links from 32,768 up. So a place of a description with both properties of a pair is impossible, and
 * one with the one of them lacks the other. gx_fit, gx_normal and gx_compare are the first three with no pairs and no
 * dictionary, and stay so.
 *
 * Dictionaries. All of these but gx_hierarchy, gx_earning, gx_failing and gx_missing, and gx_unfold, take a dictionary
 * of named descriptions: 0 to 64 descriptions laid end to end, where the first block and each later one numbered 1
 * begins a description; of length 0 it has none. In the descriptions that these calls take, an entry of kind 9 with
 * name n and number 0 stands for the n-th description of the dictionary, put in at that place. A description of the
 * dictionary may name only earlier ones. gx_unfold writes the plain description that is meant. All answers and written
 * bytes, numbers of entries included, are those for the unfolded descriptions, and an output is measured by them too;
 * one of them has at most GX_BYTES(1008) bytes. The limit of 16 blocks is about a description as it is sent. gx_fit,
 * gx_fit_counted, gx_normal and gx_compare have a dictionary of length 0, so they refuse every name with 13; the three
 * readers, gx_hierarchy, gx_earning, gx_failing, gx_missing, gx_to_stored, gx_from_stored and a desk take no
 * dictionary and refuse kind 9 with 4.
 *
 * Lists of services. gx_catalogue and gx_hierarchy take 1 to 64 descriptions laid end to end: the first block and each later one numbered 1
 * begins a service. Only the stored number counts for this, and it is looked at before any check: a block whose number is damaged
 * belongs to another service than it did, or begins one, and a refusal is that of the service in which it then stands.
 *
 * A desk is one buffer of GX_DESK_BYTES bytes that the caller keeps between calls, in memory, in a file or from one day to the next;
 * all zero is the empty desk. It holds one description that is drafted entry by entry, and up to four named stands to return to. The
 * gx_desk functions read and write no other memory than the buffer, and gx_desk_write only reads it. Each looks first whether the
 * buffer holds what some list of these calls gives; where it does not, it is refused with 20, so that a damaged desk is not gone on with.
 *
 * The answer is one number of 64 bits, answer + 256 * number + 65,536 * first + 4,294,967,296 * second:
 *
 *     case            answer       number              first                 second
 *                     (bits 0-7)   (bits 8-15)         (bits 16-31)          (bits 32-63)
 *     refused         0            refusal's number    input                 place
 *     yes; contained  1            0                   0                     0
 *     no              2            0                   0                     0
 *     not contained   2            0                   entry that fails      entries of the specimen
 *     nothing missing 1            0                   0                     0
 *     to be added     2            0                   0                     0
 *     none fits both  3            0                   0                     0
 *     a count         1            0                   0                     the count
 *     yes, counted    1            0                   additions: the walk   additions: the table
 *     no, counted     2            0                   additions: the walk   additions: the table
 *
 * The refusals, of which the first that applies is answered: 11 before all others, then the dictionary's, which are 1, 8 and
 * then those of its descriptions, one after the other, then those of input 1, those of input 2, and 7 last. Those of a list of
 * services are 1, 8 and then those of its services, one after the other. In one input 1, then the lowest block that breaks 2 or
 * 3, 2 before 3, then the lowest entry that breaks 4, 13, 10, 15, 5, 6, 9 or 19, in that order, and 12 or 14 after all of these.
 * The 10 of a total comes before the 1 of its record:
 *
 *     number   when                                                                              place
 *     1        an input's length is 0, no multiple of 512, or over the limit; of a dictionary
 *              only: it is no multiple of 512; of a list of services: it is 0 or no such
 *              multiple; of gx_narrowest and gx_missing at input 2: both inputs, each accepted, have more
 *              than 16 blocks together                                                           0
 *     2        a block's first check (bytes 510-511) or second (bytes 508-509) is wrong          block
 *     3        a block's number or used count is wrong, or a byte of its unused entries is
 *              not zero                                                                          block
 *     4        an entry's kind is not allowed, its byte 1 is not zero, or its name or number
 *              is outside the table                                                              entry
 *     5        an entry's owner is neither 0, the top, which always passes, nor an earlier
 *              entry of kind 5 (description) or 7 (specimen)                                     entry
 *     6        an entry's depth is over 32                                                       entry
 *     7        the output is too short; of gx_narrowest also: the result has more than 1,008
 *              entries                                                                           0
 *     8        a dictionary has more than 64 descriptions, or a list more than 64 services       0
 *     9        a specimen's group brings its owner a second item by a link from 32,768 up;
 *              a delivered record links an item by one to another than an earlier entry did      entry
 *     10       a delivered record is to have 0 items or more than 256                            0
 *              otherwise: the number of an item is 0 or above the total                          entry
 *     11       the length of a list of pairs is no multiple of 4, or over 64 pairs               0
 *              otherwise: a pair has a 0 or two equal numbers; the lowest such pair              pair
 *     12       a specimen or a record has an item with both properties of a pair; the lowest entry that
 *              completes one: its owner has the other property from an earlier entry             entry
 *     13       the name of an entry of kind 9 is 0 or above the number of descriptions in the
 *              dictionary, or in the dictionary not that of an earlier description               entry
 *     14       a description, in the dictionary or not, has more than 1,008 entries or an entry
 *              of depth over 32 once unfolded                                                    0
 *     15       an entry of the stored form has a depth above 0, and the nearest earlier entry of
 *              lesser depth is no 'every' of a depth one less, or there is none                  entry
 *     16       an entry is added to a desk that holds 1,008                                      0
 *     17       an entry is taken off a desk that holds none                                      0
 *     18       a stand's number is 0; or, to name one, it is not known and four are; or, to go
 *              back to it or drop it, it is not known                                            0
 *     19       an entry of a field sheet is of another kind than 1, 3, 4 and 5, has a number
 *              over 99, or stands more than 3 links deep                                         entry
 *     20       a desk's buffer is shorter than GX_DESK_BYTES, or holds what no list of calls
 *              gives                                                                             0
 *
 * Blocks, entries and pairs count from 1. The input is 1 or 2, in the order of the arguments after pairs and dict; it is 0 for
 * numbers 7 and 11, 100 for a dictionary and 100 + n for its n-th description. A list of services is input 2, and its n-th service
 * is input 1 + n, 2 to 65, also in gx_hierarchy, which has no input 1; blocks and entries count from 1 in each. Of a desk's calls, 20
 * comes before all other refusals, and all but 7 are of input 1.
 *
 * Stack. The most that each call took of the caller's stack, on the inputs that lead furthest down (`make stack` measures it):
 *
 *     gx_read_description      2,232 bytes
 *     gx_read_specimen        26,568 bytes
 *     gx_read_sheet            1,176 bytes
 *     gx_fit                  59,544 bytes
 *     gx_fit_counted          50,200 bytes
 *     gx_normal               74,904 bytes
 *     gx_compare              80,392 bytes
 *     gx_unfold               33,360 bytes
 *     gx_fit_with             68,904 bytes
 *     gx_normal_with          84,216 bytes
 *     gx_compare_with         97,976 bytes
 *     gx_narrowest           128,776 bytes
 *     gx_catalogue            95,232 bytes
 *     gx_hierarchy            50,840 bytes
 *     gx_earning              61,272 bytes
 *     gx_failing              46,680 bytes
 *     gx_missing              78,712 bytes
 *     gx_fit_all              66,712 bytes
 *     gx_to_stored            22,600 bytes
 *     gx_from_stored           8,280 bytes
 *     gx_desk_write            9,272 bytes
 *     other desk calls        1,288 bytes
 *
 * The library calls memset, memcpy and memmove; a program that binds them at their first call took up to 1,072 bytes more there. A
 * thread with 128 KiB of stack has room for each call but gx_narrowest, which wants one with 160 KiB.
 */
#ifndef GOLTXIMEN_H
#define GOLTXIMEN_H

#include <stddef.h>
#include <stdint.h>

#ifdef __cplusplus
extern "C" {
#endif

/* The fields of an answer. */
#define GX_ANSWER(r) ((unsigned)((r) & 0xff))
#define GX_NUMBER(r) ((unsigned)((r) >> 8 & 0xff))
#define GX_FIRST(r) ((unsigned)((r) >> 16 & 0xffff))
#define GX_SECOND(r) ((unsigned)((r) >> 32 & 0xffffffff))

/* The count, where the answer is a count: its second field. */
#define GX_COUNT(r) GX_SECOND(r)

/* The cases of an answer. */
#define GX_REFUSED 0
#define GX_YES 1
#define GX_NO 2

/* The cases of gx_missing's answer. */
#define GX_NOTHING_MISSING 1
#define GX_TO_BE_ADDED 2
#define GX_NONE_FITS_BOTH 3

/*
 * The bytes that k entries take as blocks: 512 times the blocks, of which there are k / 63, rounded up, and at least one.
 * Evaluates k once, and is a constant where k is. For k = 0 it counts on -1 / 63 being 0.
 */
#define GX_BYTES(k) ((size_t)(512 * (1 + ((int64_t)(k) - 1) / 63)))

/* Reads the description d: a count, its number of entries; or refused. */
uint64_t gx_read_description(const uint8_t *d, size_t d_len);

/*
 * Reads the specimen s: a count, its number of entries; or refused. Only specimens, here and in the fit calls, and
 * delivered records, in gx_fit_all, are refused with 9. Reading takes no list, so it never refuses with 12.
 */
uint64_t gx_read_specimen(const uint8_t *s, size_t s_len);

/*
 * Reads the field sheet d: a count, its number of entries; or refused. A field sheet is a description whose entries are of kinds 1, 3,
 * 4 and 5, with numbers of at most 99, at most 3 links deep; an 'every' that stands there owns nothing. It is accepted exactly where
 * gx_read_description accepts it, with the same count, and each entry is one of a sheet. It is refused with 19, which no other call
 * answers, at the lowest entry that is not, where nothing else refuses the blocks, an entry before that one, or that one itself. Any
 * other refusal is that of gx_read_description.
 */
uint64_t gx_read_sheet(const uint8_t *d, size_t d_len);

/* Whether the top item of the specimen s, input 1, fits the description d, input 2: yes or no; or refused. */
uint64_t gx_fit(const uint8_t *s, size_t s_len, const uint8_t *d, size_t d_len);

/*
 * The same, with the additions of items that it took: GX_FIRST in the walk over entries, which is always 0, and GX_SECOND in making
 * the table of totals, which is the number of the specimen's groups.
 */
uint64_t gx_fit_counted(const uint8_t *s, size_t s_len, const uint8_t *d, size_t d_len);

/*
 * Writes the normal form of the description d in blocks from the start of out: a count, the number of entries written; or
 * refused. In every finite record that keeps the rule that links from 32,768 up never lead to two items, the same items fit
 * both. Later bytes of out stay. Refused with 7 where out is shorter than d. Where refused, out is unchanged.
 */
uint64_t gx_normal(const uint8_t *d, size_t d_len, uint8_t *out, size_t out_len);

/*
 * Whether in every finite record that keeps the rule that links from 32,768 up never lead to two items each item that fits the
 * description c, input 1, fits the description d, input 2: contained or not contained; or refused. Not contained comes with
 * the number of the first entry of d that fails, and with a specimen, which keeps the rule and whose top item fits c and not
 * d: its blocks are written from the start of out, and later bytes of out stay. Refused with 7 where out is shorter than c and
 * d together. Where contained or refused, out is unchanged.
 */
uint64_t gx_compare(const uint8_t *c, size_t c_len, const uint8_t *d, size_t d_len, uint8_t *out, size_t out_len);

/*
 * Writes the plain description that d, input 1, stands for with a dictionary, in blocks from the start of out: a count, the
 * number of entries written; or refused. Each named entry is replaced by the contents of the description that it names, which is
 * unfolded itself, in their order; what stands at the top there is then owned by the owner of the named entry. Later bytes of out
 * stay. Refused with 7 where out is shorter than what would be written; GX_BYTES(1008) bytes are always enough. Where refused, out
 * is unchanged.
 */
uint64_t gx_unfold(const uint8_t *dict, size_t dict_len, const uint8_t *d, size_t d_len, uint8_t *out, size_t out_len);

/*
 * gx_fit under a list of pairs and with a dictionary. What fits is as without a list; but a specimen that does not keep the list
 * is refused with 12, after its other checks and before those of d.
 */
uint64_t gx_fit_with(const uint8_t *pairs, size_t pairs_len, const uint8_t *dict, size_t dict_len, const uint8_t *s,
                     size_t s_len, const uint8_t *d, size_t d_len);

/*
 * gx_normal under a list of pairs and with a dictionary: in every finite record that keeps the list and the rule on links from
 * 32,768 up, the same items fit both. A place with both properties of a pair is impossible, as one with has and lacks of one
 * property is; a lack is left out where the same place has a property that excludes the one lacked. The normal form is its own
 * under the same list. Refused with 7 where out is shorter than d once unfolded.
 */
uint64_t gx_normal_with(const uint8_t *pairs, size_t pairs_len, const uint8_t *dict, size_t dict_len, const uint8_t *d,
                        size_t d_len, uint8_t *out, size_t out_len);

/*
 * gx_compare under a list of pairs and with a dictionary: whether in every finite record that keeps the list and the rule on
 * links from 32,768 up each item that fits the description c, input 1, fits the description d, input 2. The entry that fails is
 * counted in d once unfolded. The specimen of a not contained keeps both, and gx_fit_with says yes to it for c and no for d under
 * the same list and with the same dictionary. Refused with 7 where out is shorter than c and d together once unfolded.
 */
uint64_t gx_compare_with(const uint8_t *pairs, size_t pairs_len, const uint8_t *dict, size_t dict_len, const uint8_t *c,
                         size_t c_len, const uint8_t *d, size_t d_len, uint8_t *out, size_t out_len);

/*
 * The narrowest description that contains both a, input 1, and b, input 2, under a list of pairs and with a dictionary (their least
 * common subsumer): it contains both as gx_compare_with says, and an accepted description contains it exactly if it contains both.
 * It is written in normal form in blocks from the start of out: a count, the number of entries written; or refused. Either order of
 * a and b gives the same bytes. It has the properties that both have, lacks what both lack, the smaller at least, the larger at most,
 * and below a link that both have an 'every' of, the same of the two places below; where one has at most 0 of a link, the place of the
 * other; where one is impossible, it is the other. Refused by the first that applies: 11; the dictionary; a in full; b in full; 1 at
 * input 2, place 0, where both together, once unfolded, have more than 16 blocks; 7 where out is shorter than both together, once
 * unfolded, or the result has more than 1,008 entries, or out is shorter than the result. With no pairs an out as long as both is
 * always long enough; GX_BYTES(1008) bytes are always. With no pairs, of two field sheets of which some item fits at least one,
 * gx_read_sheet accepts what is written, with the same count. Later bytes of out stay. Where refused, out is unchanged.
 */
uint64_t gx_narrowest(const uint8_t *pairs, size_t pairs_len, const uint8_t *dict, size_t dict_len, const uint8_t *a, size_t a_len,
                      const uint8_t *b, size_t b_len, uint8_t *out, size_t out_len);

/*
 * Compares the description c, input 1, with each service of a list, input 2, and fills a byte of out for each, from the start:
 * 1 where gx_compare_with answers contained for c and the service under the same list of pairs and with the same dictionary, and
 * 0 where it answers not contained. A count, the number of bytes filled, which is that of the services; or refused. Later bytes
 * of out stay. Refused with 7 where out has fewer bytes than there are services, whatever the lengths of the descriptions; 64
 * bytes are always enough. Where refused, out is unchanged.
 */
uint64_t gx_catalogue(const uint8_t *pairs, size_t pairs_len, const uint8_t *dict, size_t dict_len, const uint8_t *c,
                      size_t c_len, const uint8_t *list, size_t list_len, uint8_t *out, size_t out_len);

/* The bytes that gx_hierarchy writes for n services: 3 for one, and 8,256 for 64, which are enough for any list. */
#define GX_HIERARCHY_BYTES(n) ((size_t)(2 * (n) * (n) + (n)))

/*
 * Ranks the n services of a list, input 2, from special to general under a list of pairs. It writes, from the start of out:
 *
 *     n rows of n bytes: byte j of row i is 1 where gx_compare_with answers contained for service i and service j under the same
 *     list of pairs, else 0. Each service contains itself, so the diagonal is 1.
 *     n rows of n bytes: byte j of row i is 1 where service j is a direct superior of service i, else 0. It contains i, i does not
 *     contain it, and no third service stands strictly between them in this sense. The diagonal is 0. Where several services
 *     contain each other, either all of them are superiors of i or none is.
 *     n bytes: the class of each service, which is the lowest position, from 1, of the services that contain it and that it
 *     contains. Two services have one class exactly if each contains the other.
 *
 * Whoever follows the direct superiors from a service reaches each service that strictly contains it, and no other. A count, the
 * number of bytes written, GX_HIERARCHY_BYTES(n); or refused, by the first that applies: 11 for the pairs; 1 for a list of length 0
 * or no multiple of 512 and then 8 for more than 64 services, both at input 2, place 0; each service in full before the next; 7
 * where out is shorter than what is written. It takes no dictionary, so kind 9 is 4. Later bytes of out stay. Where refused, out is
 * unchanged.
 */
uint64_t gx_hierarchy(const uint8_t *pairs, size_t pairs_len, const uint8_t *list, size_t list_len, uint8_t *out, size_t out_len);

/* The bytes that gx_earning writes at most: one for each entry of a description. */
#define GX_EARNING_BYTES 1008

/*
 * Which entries of the description c, input 1, earn the yes of gx_compare_with for c and d, input 2, under a list of pairs. It writes
 * a byte of out for each entry of c, from the start: 1 for each entry of a kind other than 5 that is left when leaving out is tried
 * from the last entry to the first, each time it is c without the entry that is still contained, and for its owners at any depth;
 * else 0. c cut down to the marked entries, numbered anew, is contained in d; without any one of them that is no 'every' it is not.
 * Contained, or not contained, and then all bytes are 0; first and second are 0. Or refused, by the first that applies: 11 for the
 * pairs; input 1; input 2; 7 where out has fewer bytes than c has entries, contained or not. It takes no dictionary, so kind 9 is 4.
 * Later bytes of out stay. Where refused, out is unchanged.
 */
uint64_t gx_earning(const uint8_t *pairs, size_t pairs_len, const uint8_t *c, size_t c_len, const uint8_t *d, size_t d_len, uint8_t *out,
                    size_t out_len);

/* The bytes that gx_failing writes at most: one for each entry of a description. */
#define GX_FAILING_BYTES 1008

/*
 * Which entries of the description d, input 2, fail for the description c, input 1, under a list of pairs, each by itself: all of them,
 * where gx_compare_with names the first. It writes a byte of out for each entry of d, from the start: 1 where c is not contained in
 * that entry with its owners alone, else 0; for an 'every' 0. The lowest 1 is the entry of gx_compare_with. Contained, and then all
 * bytes are 0, or not contained; first and second are 0. Or refused, by the first that applies: 11 for the pairs; input 1; input 2; 7
 * where out has fewer bytes than d has entries, contained or not. It takes no dictionary, so kind 9 is 4. Later bytes of out stay.
 * Where refused, out is unchanged.
 */
uint64_t gx_failing(const uint8_t *pairs, size_t pairs_len, const uint8_t *c, size_t c_len, const uint8_t *d, size_t d_len, uint8_t *out,
                     size_t out_len);

/* The bytes that gx_missing writes at most: one for each entry of a description. */
#define GX_MISSING_BYTES 1008

/*
 * What the description c, input 1, lacks to be contained in d, input 2, under a list of pairs. It writes a byte of out for each entry of
 * d, from the start: 1 for each entry of a kind other than 5 that is left when leaving out is tried from the last entry to the first,
 * each time it is c with the entries that are left of d, without this one, that is contained in d, and for its owners at any depth;
 * else 0. The addition is d cut down to the marked entries, numbered anew: an item that fits c and the addition fits d, and without any
 * one marked entry that is no 'every' that ends. c and the addition in one description, the owners of the addition counting on, are
 * contained in d by gx_compare_with.
 * Nothing missing: c is contained in d, and all bytes are 0. To be added: what is marked. None fits both: no item of any record fits both
 * c and d, so that nothing can be added, and what is marked contradicts c. First and second are 0. Or refused, by the first that applies: 11
 * for the pairs; input 1; input 2; 1 of input 2 where both have more than 16 blocks together; 7 where out has fewer bytes than d has
 * entries, whatever is missing. It takes no dictionary, so kind 9 is 4. Later bytes of out stay. Where refused, out is unchanged.
 */
uint64_t gx_missing(const uint8_t *pairs, size_t pairs_len, const uint8_t *c, size_t c_len, const uint8_t *d, size_t d_len, uint8_t *out,
                    size_t out_len);

/* The bytes of a desk: ten words of two bytes, and five areas of 1,008 entries of 8 bytes; docs/FORMAT.md says what stands where. */
#define GX_DESK_BYTES ((size_t)40340)

/*
 * Adds an entry at the end of the description on a desk: a count, how many entries are left; or refused, by the first that applies: 20;
 * 16; and 4, 5 or 6 at the number that the entry would have, as for that entry of a description (kind 9 is 4). The entry is its 8
 * bytes as a number, low byte first: kind + 65,536 * owner + 4,294,967,296 * name + 281,474,976,710,656 * number. Where a call on a desk
 * is refused, every byte of it is unchanged; else bytes past GX_DESK_BYTES are.
 */
uint64_t gx_desk_add(uint8_t *desk, size_t desk_len, uint64_t entry);

/* Takes off the last entry: a count, how many entries are left; or refused, with 20, or 17 where there is none. */
uint64_t gx_desk_take_off(uint8_t *desk, size_t desk_len);

/*
 * Keeps the description under a number, 1 to 65,535: a count, how many entries it has; or refused, with 20, or 18 for 0 and for a fifth. A
 * number that is used again replaces its stand, also where four stand.
 */
uint64_t gx_desk_name(uint8_t *desk, size_t desk_len, uint16_t stand);

/*
 * Goes back to a stand, which stays: a count, how many entries are left; or refused, with 20, or 18 where the number is not known. After
 * any list of calls since the number was last given, in which the stand was not dropped, the description is the one held then.
 */
uint64_t gx_desk_go_back(uint8_t *desk, size_t desk_len, uint16_t stand);

/* Drops a stand; the description stays: a count, how many entries it has; or refused, with 20, or 18 where the number is not known. */
uint64_t gx_desk_drop(uint8_t *desk, size_t desk_len, uint16_t stand);

/*
 * Writes the description on a desk in blocks from the start of out: a count, how many entries are written; or refused, with 20, or with 7
 * where out is shorter than GX_BYTES of their number. gx_read_description accepts what is written. Later bytes of out stay. Where refused,
 * out is unchanged.
 */
uint64_t gx_desk_write(const uint8_t *desk, size_t desk_len, uint8_t *out, size_t out_len);

/* The most items that a delivered record may have, and so the most bytes that gx_fit_all fills. */
#define GX_ITEMS 256

/*
 * Judges each item of a delivered record, input 1, by the description d, input 2, under a list of pairs and with a dictionary. The
 * record is no specimen: its items are numbered 1 to total, may be shared, and links may go round. It has 1 to 32 blocks, with
 * entries of two kinds, byte 1 zero:
 *
 *     kind   owner    name                   number
 *     1      an item  a property, from 1 up  0           the item has the property
 *     8      an item  a link, from 1 up      an item     the link leads from the owner to that item
 *
 * What is said twice counts once, and items of which nothing is said are there too. It fills a byte of out for each item, from the
 * first on: 1 exactly if the item fits d in this record, else 0. A count, the number of bytes filled, which is total; or refused, by
 * the first that applies: 11; the dictionary; 10 for a total of 0 or above 256; the record, by 1, 2, 3, then 4, 10 and 9 entry by
 * entry, then 12; d in full; 7 where out has fewer than total bytes. Later bytes of out stay. Where refused, out is unchanged.
 */
uint64_t gx_fit_all(const uint8_t *pairs, size_t pairs_len, const uint8_t *dict, size_t dict_len, size_t total, const uint8_t *record,
                    size_t record_len, const uint8_t *d, size_t d_len, uint8_t *out, size_t out_len);

/*
 * The bytes that k entries take in the shorter stored form: 512 times the blocks, of which there are k / 84, rounded up, and at least
 * one. As GX_BYTES otherwise; GX_STORED_BYTES(1008), 6,144 bytes, are enough for any description.
 */
#define GX_STORED_BYTES(k) ((size_t)(512 * (1 + ((int64_t)(k) - 1) / 84)))

/*
 * Writes the description d, input 1, in the shorter stored form in blocks from the start of out: a count, the number of entries
 * written, which is that of d; or refused, as gx_read_description refuses d, and with 7 exactly where out is shorter than what is
 * written. The entries stand in walking order, each followed by what it owns, and those of one owner by their numbers. What is
 * written is accepted by gx_from_stored, which gives these entries back in that order; the same items fit them as d. Later bytes of
 * out stay. Where refused, out is unchanged.
 */
uint64_t gx_to_stored(const uint8_t *d, size_t d_len, uint8_t *out, size_t out_len);

/*
 * Writes the description that s, input 1, is in the shorter stored form, in blocks from the start of out: a count, the number of
 * entries written; or refused, by the first that applies: 1 where s has length 0, no multiple of 512, or more than 12 blocks; the
 * lowest block that breaks 2 or 3, where 84 entries fill one; the lowest entry that breaks 4, 15 or 6, in that order; and 7 exactly
 * where out is shorter than what is written. The owner of an entry is the nearest earlier entry of lesser depth. What is written is
 * accepted as a description, and gx_to_stored writes the bytes of s of it again. Later bytes of out stay. Where refused, out is
 * unchanged. Of all inputs only two are accepted here and by gx_read_description: no entries, and kind 6 alone.
 */
uint64_t gx_from_stored(const uint8_t *s, size_t s_len, uint8_t *out, size_t out_len);

#ifdef __cplusplus
}
#endif

#endif
