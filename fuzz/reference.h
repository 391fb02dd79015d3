/* A second reading of the documents, in C: the format of tables (docs/TABLES.md), composing (docs/WATCH.md), and
 * what a scope over a pattern accepts, by judged stretches (docs/RULES.md). Shares no code with the library. */
#ifndef REFERENCE_H
#define REFERENCE_H

#include <stdbool.h>
#include <stddef.h>
#include <stdint.h>

enum table_kind { PATTERN_TABLE, SCOPE_TABLE };
enum mark { MARK_OUT, MARK_IN, MARK_LAST, MARK_ANEW };
enum { MOST_PATTERN_STATES = 250, MOST_SCOPE_STATES = 8, MOST_WIDTH = 6, MOST_WORDS = 48 };

/* How many bytes a table of this many states and this width has. */
size_t reference_size(size_t states, unsigned width);

/* How many states come of composing. */
size_t reference_composed_states(size_t pattern_states, size_t scope_states);

/* 0 for a lawful table, else minus the number of the refusal, -9 to -13. */
int32_t reference_check(enum table_kind kind, const uint8_t *bytes, size_t len);

/* The composed table's length, with the table at the front of out; or minus the number of the refusal. */
int32_t reference_compose(const uint8_t *pattern, size_t pattern_len, const uint8_t *scope, size_t scope_len,
                          uint8_t *out, size_t out_len);

/* Whether a lawful pattern table accepts the words. */
bool reference_accepts(const uint8_t *pattern, const uint8_t *words, size_t count);

/* Whether a lawful pattern table accepts every judged stretch that a lawful scope table cuts out of at most
 * MOST_WORDS words: each pair of places is tried as a block. */
bool reference_stretches_accepted(const uint8_t *pattern, const uint8_t *scope, const uint8_t *words, size_t count);

#endif
