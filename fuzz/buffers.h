/* Buffers of exactly the asked length, with nothing beside them that may be touched. */
#ifndef BUFFERS_H
#define BUFFERS_H

#include <stddef.h>
#include <stdint.h>

/* In a heap block of its own; ending where a page begins that may not be touched; beginning where such a page ends. */
enum placement { IN_HEAP, AHEAD_OF_GUARD, BEHIND_GUARD, PLACEMENTS };
enum { SLOTS = 6 };

extern const char *const placement_names[PLACEMENTS];

void buffers_prepare(void);

/* A buffer of len bytes, until the slot is asked for again. Where len is 0 one byte is there, as the header asks. */
uint8_t *buffer_in(enum placement placement, unsigned slot, size_t len);

/* Carries out work(of). Gives 0 where it came back, or the signal that ended it: memory that is not there, an
 * instruction that is none, or ten seconds gone. */
int guarded(void (*work)(void *), void *of);

#endif
