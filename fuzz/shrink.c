#include "shrink.h"

#include <string.h>
#include <time.h>

enum { MOST_TRIES = 20000, MOST_SECONDS = 30 };

/* The case at hand, what was said of it last, how often it was changed to see, and when to stop that. */
struct search {
    struct fuzz_case *of;
    struct report *report;
    unsigned tries;
    time_t until;
};

static bool goes_on(const struct search *s)
{
    return s->tries < MOST_TRIES && time(NULL) < s->until;
}

size_t case_size(const struct fuzz_case *of)
{
    size_t bytes = of->table[PATTERN_TABLE].len + of->table[SCOPE_TABLE].len + of->out_len;

    return bytes * (MOST_WORDS + 1) + of->word_count;
}

static bool differs(struct search *s)
{
    s->tries++;
    examine(s->of, s->report);
    return s->report->total > 0;
}

static bool try_length(struct search *s, size_t *len, size_t shorter)
{
    size_t old = *len;

    *len = shorter;
    if (differs(s))
        return true;
    *len = old;
    return false;
}

static bool try_without(struct search *s, uint8_t *at, size_t *len, size_t from, size_t count)
{
    static uint8_t old[MOST_BYTES];
    size_t old_len = *len;

    memcpy(old, at, old_len);
    memmove(at + from, at + from + count, old_len - from - count);
    if (try_length(s, len, old_len - count))
        return true;
    memcpy(at, old, old_len);
    return false;
}

static bool try_byte(struct search *s, uint8_t *byte, uint8_t lower)
{
    uint8_t old = *byte;

    *byte = lower;
    if (lower < old && differs(s))
        return true;
    *byte = old;
    return false;
}

static bool shrink_bytes(struct search *s, uint8_t *at, size_t *len)
{
    bool shrunk = false;
    size_t count, i;

    for (count = *len; count > 0; count /= 2)
        for (i = 0; i + count <= *len && goes_on(s); i += count)
            shrunk |= try_without(s, at, len, i, count);
    for (i = 0; i < *len && goes_on(s); i++)
        shrunk |= try_byte(s, &at[i], 0) || try_byte(s, &at[i], at[i] & 192) ||
                  try_byte(s, &at[i], (uint8_t)(at[i] - 1));
    return shrunk;
}

static bool shrink_room(struct search *s)
{
    size_t *room = &s->of->out_len, by;
    bool shrunk = false;

    for (by = *room; by > 0; by /= 2)
        while (*room >= by && goes_on(s) && try_length(s, room, *room - by))
            shrunk = true;
    return shrunk;
}

void shrink(struct fuzz_case *smallest, struct report *report)
{
    struct search s = {smallest, report, 0, time(NULL) + MOST_SECONDS};
    bool again = true;
    int i;

    while (again && goes_on(&s)) {
        again = shrink_room(&s);
        for (i = 0; i < TABLES; i++)
            again |= shrink_bytes(&s, smallest->table[i].at, &smallest->table[i].len);
        again |= shrink_bytes(&s, smallest->words, &smallest->word_count);
    }
    differs(&s);
}
