/* One case, given to the library and to the reference, and what differs. */
#ifndef EXAMINE_H
#define EXAMINE_H

#include "buffers.h"
#include "cases.h"

enum call { PATTERN_CHECKED, PATTERN_AS_SCOPE, SCOPE_CHECKED, SCOPE_AS_PATTERN, COMPOSING, COMPOSED_CHECKED, CALLS };

/* An answer, a byte of the destination, or a byte of a table is another; a composed table's verdict is not that of
 * the stretches; the call was stopped by a signal; valgrind reports something. */
enum fault { OTHER_ANSWER, OTHER_BYTES, TABLE_CHANGED, OTHER_VERDICT, STOPPED, MEMORY_MISUSED, FAULTS };

extern const char *const call_names[CALLS];
extern const char *const fault_names[FAULTS];

/* The reference's answers; the verdicts by stretches on each beginning of the words; how many of each fault there
 * were, and the first in words, with the destination as it should be and as it was found. */
struct report {
    int32_t wanted[CALLS];
    unsigned yes, no;
    unsigned faults[FAULTS], total;
    char first[200];
    uint8_t found_out[MOST_BYTES], wanted_out[MOST_BYTES];
};

void examine(const struct fuzz_case *of, struct report *report);

/* Tries lengths above what 31 and 32 bits hold. Gives NULL, or what was wrong first, and at which length. */
const char *examine_vast_lengths(size_t *len);

#endif
