/* Checks and composes good and bad tables through the C entries, and compares with what the format says of each. */
#include <stdio.h>
#include <string.h>

#include "vontiqa.h"

typedef int32_t (*check_fn)(const uint8_t *, size_t);

struct table_case {
    const char *what;
    check_fn check;
    int32_t expected;
    size_t len;
    uint8_t bytes[24];
};

static const struct table_case cases[] = {
    {"pattern: never bit 0, width 3", vontiqa_check_pattern_table, 0, 20,
     {2, 1, 0, 3, 0, 1, 0, 1, 0, 1, 0, 1, 1, 1, 1, 1, 1, 1, 1, 1}},
    {"scope: between bits 1 and 2, width 3", vontiqa_check_scope_table, 0, 20,
     {2, 0, 0, 3, 0, 0, 65, 65, 0, 0, 0, 0, 65, 65, 65, 65, 0, 0, 0, 0}},
    {"the same scope as a pattern", vontiqa_check_pattern_table, -13, 20,
     {2, 0, 0, 3, 0, 0, 65, 65, 0, 0, 0, 0, 65, 65, 65, 65, 0, 0, 0, 0}},
    {"empty", vontiqa_check_pattern_table, -9, 0, {0}},
    {"no state", vontiqa_check_pattern_table, -10, 4, {0, 0, 0, 0}},
    {"nine scope states", vontiqa_check_scope_table, -10, 1, {9}},
    {"nine pattern states, cut short", vontiqa_check_pattern_table, -9, 1, {9}},
    {"flag of 2", vontiqa_check_scope_table, -11, 4, {1, 2, 0, 64}},
    {"width of 7", vontiqa_check_scope_table, -12, 4, {1, 1, 7, 64}},
    {"one byte too many", vontiqa_check_pattern_table, -9, 5, {1, 1, 0, 0, 0}},
    {"scope entry for state 1 of one", vontiqa_check_scope_table, -13, 4, {1, 1, 0, 65}},
};

/* The largest pattern table: 250 states at width 6. */
static uint8_t largest[16252];

static int check_largest(void)
{
    size_t i;
    int failed = 0;

    largest[0] = 250;
    memset(largest + 1, 1, 250);
    largest[251] = 6;
    for (i = 252; i < sizeof largest; i++)
        largest[i] = (uint8_t)(i % 250);
    if (vontiqa_check_pattern_table(largest, sizeof largest) != 0)
        failed = 1;
    largest[16251] = 250;
    if (vontiqa_check_pattern_table(largest, sizeof largest) != -13)
        failed = 1;
    printf("largest table, good and with its last entry bad: %s\n", failed ? "WRONG" : "as expected");
    return failed;
}

/* Never bit 0, between bits 1 and 2: two pattern states and two scope states give seven states. */
static const uint8_t never[20] = {2, 1, 0, 3, 0, 1, 0, 1, 0, 1, 0, 1, 1, 1, 1, 1, 1, 1, 1, 1};
static const uint8_t between[20] = {2, 0, 0, 3, 0, 0, 65, 65, 0, 0, 0, 0, 65, 65, 65, 65, 0, 0, 0, 0};
static const uint8_t never_between[65] = {
    7,
    1, 1, 1, 1, 1, 1, 0,
    3,
    0, 0, 4, 5, 0, 0, 0, 0,
    0, 0, 4, 5, 0, 0, 0, 0,
    6, 6, 5, 5, 6, 6, 6, 6,
    4, 5, 4, 5, 0, 0, 0, 0,
    4, 5, 4, 5, 0, 0, 0, 0,
    5, 5, 5, 5, 6, 6, 6, 6,
    6, 6, 6, 6, 6, 6, 6, 6,
};
static const uint8_t narrow[4] = {1, 1, 0, 0};
static const uint8_t flag_of_2[4] = {1, 2, 0, 64};

static int all(const uint8_t *bytes, size_t len, uint8_t value)
{
    size_t i;

    for (i = 0; i < len; i++)
        if (bytes[i] != value)
            return 0;
    return 1;
}

static int report(const char *what, int fine)
{
    printf("%s: %s\n", what, fine ? "as expected" : "WRONG");
    return !fine;
}

/* A composer's answer, and whether a refusal has left the buffer as it was. */
static int refused(const uint8_t *pattern, size_t pattern_len, const uint8_t *scope, size_t scope_len, size_t room,
                   int32_t expected)
{
    uint8_t out[72];

    memset(out, 9, sizeof out);
    return vontiqa_compose(pattern, pattern_len, scope, scope_len, out, room) == expected && all(out, sizeof out, 9);
}

static int check_composing(void)
{
    uint8_t out[72];
    int32_t len;
    int failed = 0;

    memset(out, 9, sizeof out);
    len = vontiqa_compose(never, sizeof never, between, sizeof between, out, sizeof out);
    failed |= report("composed: never bit 0 between bits 1 and 2",
                     len == 65 && memcmp(out, never_between, 65) == 0 && vontiqa_check_pattern_table(out, 65) == 0);
    failed |= report("composed: the bytes after the table", all(out + 65, sizeof out - 65, 9));
    failed |= report("refused: a buffer of 64", refused(never, 20, between, 20, 64, -16));
    failed |= report("refused: widths 0 and 3", refused(narrow, 4, between, 20, 72, -14));
    failed |= report("refused: both tables bad, the pattern first", refused(never, 19, flag_of_2, 4, 72, -9));
    failed |= report("refused: the scope table as a pattern", refused(between, 20, between, 20, 72, -13));
    failed |= report("refused: a bad scope table of another width", refused(never, 20, flag_of_2, 4, 72, -11));
    return failed;
}

/* Eight scope states with 30 pattern states give 249 states, with 31 they give 257. */
static int check_sizes(void)
{
    static uint8_t pattern[2 + 31 + 31 * 64], scope[2 + 8 + 8 * 64], out[16252];
    int32_t len;
    int failed = 0;

    scope[0] = 8;
    scope[9] = 6;
    memset(scope + 10, 64, 8 * 64);
    pattern[0] = 30;
    pattern[31] = 6;
    len = vontiqa_compose(pattern, 2 + 30 + 30 * 64, scope, sizeof scope, out, sizeof out);
    failed |= report("composed: 30 and 8 states", len == 2 + 249 + 249 * 64 && out[0] == 249 &&
                                                     vontiqa_check_pattern_table(out, (size_t)len) == 0);
    pattern[0] = 31;
    pattern[31] = 0;
    pattern[32] = 6;
    len = vontiqa_compose(pattern, sizeof pattern, scope, sizeof scope, out, sizeof out);
    return failed | report("refused: 31 and 8 states", len == -15);
}

int main(void)
{
    size_t i;
    int failed = 0;

    for (i = 0; i < sizeof cases / sizeof cases[0]; i++) {
        int32_t got = cases[i].check(cases[i].bytes, cases[i].len);

        printf("%s: %d%s\n", cases[i].what, (int)got, got == cases[i].expected ? "" : " WRONG");
        failed |= got != cases[i].expected;
    }
    failed |= check_largest();
    failed |= check_composing();
    failed |= check_sizes();
    return failed;
}
