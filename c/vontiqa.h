/* Vontiqa's entries for C programs: link target/staticlib/libgateway.a, which tools/staticlib makes. */
#ifndef VONTIQA_H
#define VONTIQA_H

#include <stddef.h>
#include <stdint.h>

#ifdef __cplusplus
extern "C" {
#endif

/*
 * Whether len bytes are a lawful table: 0 if so, else minus the number of the refusal, -9 to -13
 * (docs/REFUSALS.md). bytes points to at least len readable bytes, and to at least one byte where len
 * is 0. Nothing is written and nothing is kept.
 */
int32_t vontiqa_check_pattern_table(const uint8_t *bytes, size_t len);
int32_t vontiqa_check_scope_table(const uint8_t *bytes, size_t len);

/*
 * Composes a scope table with a pattern table of the same width: the pattern table that accepts a list of
 * words exactly when the pattern accepts each stretch that the scope cuts out of it and that is judged.
 * Writes it at the front of out and gives its length, which is at most 16252. Else it gives minus the number
 * of the refusal and writes nothing: -9 to -13 for a table that is not lawful, the pattern looked at first,
 * -14 for differing widths, -15 for more than 250 states, -16 where out_len is too small. The bytes of out
 * after the composed table are left as they were. out points to out_len writable bytes that overlap with
 * neither table, and each pointer to at least one byte where its length is 0.
 */
int32_t vontiqa_compose(const uint8_t *pattern, size_t pattern_len, const uint8_t *scope, size_t scope_len,
                        uint8_t *out, size_t out_len);

#ifdef __cplusplus
}
#endif

#endif
