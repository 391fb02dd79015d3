#include "reference.h"

/* What the layout says of a table, lawful or at least as long as is looked at. */
static size_t states_of(const uint8_t *table)
{
    return table[0];
}

static unsigned width_of(const uint8_t *table)
{
    return table[1 + states_of(table)];
}

static bool flag_of(const uint8_t *table, size_t state)
{
    return table[1 + state] == 1;
}

static unsigned entry_of(const uint8_t *table, size_t state, unsigned word)
{
    size_t letters = (size_t)1 << width_of(table);

    return table[2 + states_of(table) + state * letters + word % letters];
}

/* A scope's entry is a state and a mark. */
static size_t state_in(unsigned scope_entry)
{
    return scope_entry % 64;
}

static enum mark mark_in(unsigned scope_entry)
{
    return (enum mark)(scope_entry / 64);
}

size_t reference_size(size_t states, unsigned width)
{
    return 2 + states + (states << width);
}

size_t reference_composed_states(size_t pattern_states, size_t scope_states)
{
    return scope_states * (pattern_states + 1) + 1;
}

int32_t reference_check(enum table_kind kind, const uint8_t *bytes, size_t len)
{
    size_t most = kind == PATTERN_TABLE ? MOST_PATTERN_STATES : MOST_SCOPE_STATES;
    size_t n, at;

    if (len == 0)
        return -9;
    n = states_of(bytes);
    if (n == 0 || n > most)
        return -10;
    if (len < n + 2)
        return -9;
    for (at = 1; at <= n; at++)
        if (bytes[at] > 1)
            return -11;
    if (width_of(bytes) > MOST_WIDTH)
        return -12;
    if (len != reference_size(n, width_of(bytes)))
        return -9;
    for (at = n + 2; at < len; at++)
        if ((kind == PATTERN_TABLE ? bytes[at] : state_in(bytes[at])) >= n)
            return -13;
    return 0;
}

/* A composed state, taken apart: what the scope is in, and whether a stretch is open with the pattern in `at`. */
struct place {
    bool failed, open;
    size_t scope, at;
};

static struct place place_of(const uint8_t *pattern, const uint8_t *scope, size_t number)
{
    size_t each = states_of(pattern) + 1;
    size_t within = number % each;
    struct place place = {
        .failed = number == states_of(scope) * each,
        .open = within > 0,
        .scope = number / each,
        .at = within > 0 ? within - 1 : 0,
    };

    return place;
}

static bool composed_flag(const uint8_t *pattern, const uint8_t *scope, size_t number)
{
    struct place place = place_of(pattern, scope, number);

    if (place.failed)
        return false;
    return !place.open || !flag_of(scope, place.scope) || flag_of(pattern, place.at);
}

static size_t composed_next(const uint8_t *pattern, const uint8_t *scope, size_t number, unsigned letter)
{
    struct place place = place_of(pattern, scope, number);
    size_t each = states_of(pattern) + 1, failed = states_of(scope) * each;
    size_t on, shut;
    unsigned step;

    if (place.failed)
        return failed;
    step = entry_of(scope, place.scope, letter);
    shut = state_in(step) * each;
    on = entry_of(pattern, place.at, letter);
    switch (mark_in(step)) {
    case MARK_IN:
        return shut + 1 + on;
    case MARK_ANEW:
        return shut + 1 + entry_of(pattern, 0, letter);
    case MARK_OUT:
        return place.open && !flag_of(pattern, place.at) ? failed : shut;
    default:
        return flag_of(pattern, on) ? shut : failed;
    }
}

static void write_composed(const uint8_t *pattern, const uint8_t *scope, size_t total, uint8_t *out)
{
    unsigned width = width_of(pattern), letter;
    size_t number;

    out[0] = (uint8_t)total;
    out[1 + total] = (uint8_t)width;
    for (number = 0; number < total; number++) {
        out[1 + number] = composed_flag(pattern, scope, number);
        for (letter = 0; letter < 1u << width; letter++)
            out[2 + total + (number << width) + letter] =
                (uint8_t)composed_next(pattern, scope, number, letter);
    }
}

int32_t reference_compose(const uint8_t *pattern, size_t pattern_len, const uint8_t *scope, size_t scope_len,
                          uint8_t *out, size_t out_len)
{
    int32_t refusal = reference_check(PATTERN_TABLE, pattern, pattern_len);
    size_t total, size;

    if (refusal == 0)
        refusal = reference_check(SCOPE_TABLE, scope, scope_len);
    if (refusal != 0)
        return refusal;
    if (width_of(pattern) != width_of(scope))
        return -14;
    total = reference_composed_states(states_of(pattern), states_of(scope));
    if (total > MOST_PATTERN_STATES)
        return -15;
    size = reference_size(total, width_of(pattern));
    if (size > out_len)
        return -16;
    write_composed(pattern, scope, total, out);
    return (int32_t)size;
}

bool reference_accepts(const uint8_t *pattern, const uint8_t *words, size_t count)
{
    size_t state = 0, i;

    for (i = 0; i < count; i++)
        state = entry_of(pattern, state, words[i]);
    return flag_of(pattern, state);
}

/* The marks that a scope table gives to a list of words, and its answer after them. */
struct reading {
    enum mark marks[MOST_WORDS];
    size_t count;
    bool yes;
};

static struct reading read_scope(const uint8_t *scope, const uint8_t *words, size_t count)
{
    struct reading reading = {.count = count};
    size_t state = 0, i;

    for (i = 0; i < count; i++) {
        unsigned step = entry_of(scope, state, words[i]);

        reading.marks[i] = mark_in(step);
        state = state_in(step);
    }
    reading.yes = flag_of(scope, state);
    return reading;
}

/* Whether a block can begin at place i. */
static bool begins(const struct reading *reading, size_t i)
{
    enum mark here = reading->marks[i];
    bool nothing_open = i == 0 || reading->marks[i - 1] == MARK_OUT || reading->marks[i - 1] == MARK_LAST;

    return here == MARK_ANEW || ((here == MARK_IN || here == MARK_LAST) && nothing_open);
}

static bool is_block(const struct reading *reading, size_t i, size_t j)
{
    size_t x;

    for (x = i; x <= j; x++) {
        enum mark here = reading->marks[x];

        if (here == MARK_OUT || (here == MARK_LAST && x < j) || (here == MARK_ANEW && x > i))
            return false;
    }
    return begins(reading, i);
}

static bool is_judged(const struct reading *reading, size_t i, size_t j)
{
    bool final = j + 1 == reading->count;
    bool last = reading->marks[j] == MARK_LAST;
    bool closed = last || (!final && reading->marks[j + 1] == MARK_OUT);
    bool unclosed = final && !last;

    return is_block(reading, i, j) && (closed || (unclosed && reading->yes));
}

bool reference_stretches_accepted(const uint8_t *pattern, const uint8_t *scope, const uint8_t *words, size_t count)
{
    struct reading reading = read_scope(scope, words, count);
    size_t i, j;

    for (i = 0; i < count; i++)
        for (j = i; j < count; j++)
            if (is_judged(&reading, i, j) && !reference_accepts(pattern, words + i, j - i + 1))
                return false;
    return true;
}
