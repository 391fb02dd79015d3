/* Entries that go wrong in one way, chosen by PLANT, put in place of the library's by the linker (--wrap): to see that
 * the harness reports each. No part of an ordinary run. */
#include "vontiqa.h"

int32_t __real_vontiqa_check_pattern_table(const uint8_t *bytes, size_t len);
int32_t __real_vontiqa_check_scope_table(const uint8_t *bytes, size_t len);
int32_t __real_vontiqa_compose(const uint8_t *pattern, size_t pattern_len, const uint8_t *scope, size_t scope_len,
                               uint8_t *out, size_t out_len);
int32_t __wrap_vontiqa_check_pattern_table(const uint8_t *bytes, size_t len);
int32_t __wrap_vontiqa_check_scope_table(const uint8_t *bytes, size_t len);
int32_t __wrap_vontiqa_compose(const uint8_t *pattern, size_t pattern_len, const uint8_t *scope, size_t scope_len,
                               uint8_t *out, size_t out_len);

enum {
    LOOKS_AT_WIDTH_BEFORE_FLAGS = 1,
    REFUSES_250_STATES,
    READS_AHEAD_OF_TABLE,
    READS_BEHIND_TABLE,
    CHANGES_LAST_ENTRY,
    WRITES_AFTER_COMPOSED,
    WRITES_BEHIND_BUFFER,
    REFUSES_AND_WRITES,
    CHANGES_ITS_INPUT,
    LOOKS_AT_OLD_BYTES,
    NEVER_RETURNS,
};

static volatile uint8_t seen;

int32_t __wrap_vontiqa_check_pattern_table(const uint8_t *bytes, size_t len)
{
    int32_t answer = __real_vontiqa_check_pattern_table(bytes, len);

    if (PLANT == LOOKS_AT_WIDTH_BEFORE_FLAGS && answer == -11 && bytes[bytes[0] + 1] > 6)
        return -12;
    if (PLANT == REFUSES_250_STATES && answer == 0 && bytes[0] == 250)
        return -10;
    if (PLANT == READS_AHEAD_OF_TABLE)
        seen = *(bytes - 1);
    return answer;
}

int32_t __wrap_vontiqa_check_scope_table(const uint8_t *bytes, size_t len)
{
    if (PLANT == READS_BEHIND_TABLE && len > 0)
        seen = bytes[len];
    return __real_vontiqa_check_scope_table(bytes, len);
}

int32_t __wrap_vontiqa_compose(const uint8_t *pattern, size_t pattern_len, const uint8_t *scope, size_t scope_len,
                               uint8_t *out, size_t out_len)
{
    int32_t answer;

    if (PLANT == LOOKS_AT_OLD_BYTES && out_len > 0 && out[0] == 77)
        seen = 1;
    answer = __real_vontiqa_compose(pattern, pattern_len, scope, scope_len, out, out_len);
    if (PLANT == REFUSES_AND_WRITES && answer == -16 && out_len > 0)
        out[out_len - 1]++;
    if (answer < 0)
        return answer;
    if (PLANT == CHANGES_LAST_ENTRY)
        out[answer - 1] = 0;
    if (PLANT == WRITES_AFTER_COMPOSED && (size_t)answer < out_len)
        out[answer] = 0;
    if (PLANT == WRITES_BEHIND_BUFFER)
        out[out_len] = 0;
    if (PLANT == CHANGES_ITS_INPUT)
        ((uint8_t *)pattern)[pattern_len - 1] = 0;
    while (PLANT == NEVER_RETURNS && answer == 8 && out_len == 8)
        seen = 0;
    return answer;
}
