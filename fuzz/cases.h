/* Random cases: two tables, lawful or not, a buffer's length, and words to judge. A case is fixed by a seed and its
 * number, so that it can be had again without those before it. */
#ifndef CASES_H
#define CASES_H

#include "reference.h"

enum origin { LAWFUL, AT_LIMIT, DAMAGED, CUT, LENGTHENED, RANDOM, EMPTY, ORIGINS };
enum room { ROOM_NONE, ROOM_SHORT, ROOM_ONE_LESS, ROOM_EXACT, ROOM_LONGER, ROOMS };
enum { MOST_BYTES = 160 * 1024, TABLES = 2 };

extern const char *const origin_names[ORIGINS];
extern const char *const room_names[ROOMS];

struct bytes {
    size_t len;
    uint8_t at[MOST_BYTES];
};

/* The room is in relation to the table that the two would compose to before they were spoiled. */
struct fuzz_case {
    enum origin origin[TABLES];
    enum room room;
    struct bytes table[TABLES];
    size_t out_len;
    uint64_t fill;
    size_t word_count;
    uint8_t words[MOST_WORDS];
};

void make_case(struct fuzz_case *made, uint64_t seed, uint64_t number);

/* What byte i of the buffer holds before the call. */
uint8_t fill_byte(const struct fuzz_case *of, size_t i);

/* Stirs a number well, for random draws and for digests. */
uint64_t stirred(uint64_t x);

#endif
