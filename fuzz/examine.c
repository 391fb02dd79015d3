#define _DEFAULT_SOURCE
#include "examine.h"

#include <stdarg.h>
#include <stdio.h>
#include <string.h>
#include <sys/mman.h>

#include "vontiqa.h"

#ifdef MEMCHECK
#include <valgrind/memcheck.h>
enum { PLACEMENTS_TRIED = IN_HEAP + 1 };
#else
enum { PLACEMENTS_TRIED = PLACEMENTS };
#endif

const char *const call_names[CALLS] = {
    "the pattern table checked",        "the pattern table checked as a scope's", "the scope table checked",
    "the scope table checked as a pattern's", "composing",                        "the composed table checked",
};
const char *const fault_names[FAULTS] = {
    "answers", "bytes of the buffer", "tables changed", "verdicts", "calls stopped", "valgrind's reports",
};

/* Two implementations of the entries. */
struct entries {
    int32_t (*check[TABLES])(const uint8_t *, size_t);
    int32_t (*compose)(const uint8_t *, size_t, const uint8_t *, size_t, uint8_t *, size_t);
};

static int32_t reference_pattern(const uint8_t *bytes, size_t len)
{
    return reference_check(PATTERN_TABLE, bytes, len);
}

static int32_t reference_scope(const uint8_t *bytes, size_t len)
{
    return reference_check(SCOPE_TABLE, bytes, len);
}

static const struct entries library = {{vontiqa_check_pattern_table, vontiqa_check_scope_table}, vontiqa_compose};
static const struct entries reference = {{reference_pattern, reference_scope}, reference_compose};

/* The buffers of a case, and what one implementation makes of them. */
enum { OUT = TABLES, BUFFERS };

struct calls {
    const struct entries *entries;
    uint8_t *at[BUFFERS];
    size_t len[BUFFERS];
    int32_t answers[CALLS];
    volatile enum call running;
};

static size_t at_least_one(size_t len)
{
    return len > 0 ? len : 1;
}

static void set_up(struct calls *c, const struct entries *entries, const struct fuzz_case *of, enum placement placement)
{
    unsigned first_slot = entries == &library ? 0 : BUFFERS;
    size_t i;

    memset(c, 0, sizeof *c);
    c->entries = entries;
    for (i = 0; i < BUFFERS; i++) {
        c->len[i] = i == OUT ? of->out_len : of->table[i].len;
        c->at[i] = buffer_in(placement, first_slot + (unsigned)i, c->len[i]);
    }
    for (i = 0; i < TABLES; i++)
        memcpy(c->at[i], of->table[i].at, at_least_one(c->len[i]));
    for (i = 0; i < at_least_one(c->len[OUT]); i++)
        c->at[OUT][i] = fill_byte(of, i);
}

static bool composed(const struct calls *c)
{
    return c->answers[COMPOSING] > 0 && (size_t)c->answers[COMPOSING] <= c->len[OUT];
}

static int32_t answer(const struct calls *c, enum call call)
{
    const struct entries *e = c->entries;

    switch (call) {
    case PATTERN_CHECKED:
    case PATTERN_AS_SCOPE:
        return e->check[call == PATTERN_AS_SCOPE](c->at[PATTERN_TABLE], c->len[PATTERN_TABLE]);
    case SCOPE_CHECKED:
    case SCOPE_AS_PATTERN:
        return e->check[call == SCOPE_CHECKED](c->at[SCOPE_TABLE], c->len[SCOPE_TABLE]);
    case COMPOSING:
        return e->compose(c->at[PATTERN_TABLE], c->len[PATTERN_TABLE], c->at[SCOPE_TABLE], c->len[SCOPE_TABLE],
                          c->at[OUT], c->len[OUT]);
    default:
        return composed(c) ? e->check[PATTERN_TABLE](c->at[OUT], (size_t)c->answers[COMPOSING]) : 0;
    }
}

static void call_all(void *of)
{
    struct calls *c = of;
    int call;

    for (call = 0; call < CALLS; call++) {
        c->running = (enum call)call;
        c->answers[call] = answer(c, (enum call)call);
    }
}

__attribute__((format(printf, 3, 4))) static void note(struct report *report, enum fault fault, const char *format, ...)
{
    va_list values;

    report->faults[fault]++;
    if (report->total++ > 0)
        return;
    va_start(values, format);
    vsnprintf(report->first, sizeof report->first, format, values);
    va_end(values);
}

static void compare_buffers(const struct calls *wanted, const struct calls *got, const char *where,
                            struct report *report)
{
    static const char *const names[BUFFERS] = {"the pattern table", "the scope table", "the buffer"};
    size_t i, x;

    for (i = 0; i < BUFFERS; i++) {
        size_t len = at_least_one(wanted->len[i]);

        if (memcmp(wanted->at[i], got->at[i], len) == 0)
            continue;
        for (x = 0; wanted->at[i][x] == got->at[i][x]; x++)
            ;
        note(report, i == OUT ? OTHER_BYTES : TABLE_CHANGED, "byte %zu of %s is %u in place of %u, %s", x, names[i],
             got->at[i][x], wanted->at[i][x], where);
    }
}

/* Valgrind takes the bytes of the destination for unset while the library is at work, so that it reports an answer
 * that hangs on them. */
static unsigned memory_reports(const struct calls *c, bool at_work)
{
#ifdef MEMCHECK
    if (at_work)
        (void)VALGRIND_MAKE_MEM_UNDEFINED(c->at[OUT], at_least_one(c->len[OUT]));
    else
        (void)VALGRIND_MAKE_MEM_DEFINED(c->at[OUT], at_least_one(c->len[OUT]));
    return VALGRIND_COUNT_ERRORS;
#else
    (void)c;
    (void)at_work;
    return 0;
#endif
}

/* Whether the library's calls came back. */
static bool run_library(struct calls *c, const char *where, struct report *report)
{
    unsigned before = memory_reports(c, true), after;
    int signal_number = guarded(call_all, c);

    after = memory_reports(c, false);
    if (signal_number != 0)
        note(report, STOPPED, "%s: stopped by signal %d (%s), %s", call_names[c->running], signal_number,
             strsignal(signal_number), where);
    if (after > before)
        note(report, MEMORY_MISUSED, "valgrind reported %u, see above", after - before);
    return signal_number == 0;
}

/* Compares the composed table's verdict with that of the stretches, on every beginning of the words. */
static void compare_verdicts(const struct fuzz_case *of, const struct calls *wanted, const struct calls *got,
                             struct report *report)
{
    const uint8_t *pattern = of->table[PATTERN_TABLE].at, *scope = of->table[SCOPE_TABLE].at;
    size_t count;

    if (!composed(wanted) || !composed(got) || reference_pattern(got->at[OUT], (size_t)got->answers[COMPOSING]) != 0)
        return;
    for (count = 0; count <= of->word_count; count++) {
        bool yes = reference_stretches_accepted(pattern, scope, of->words, count);

        if (yes)
            report->yes++;
        else
            report->no++;
        if (reference_accepts(got->at[OUT], of->words, count) != yes)
            note(report, OTHER_VERDICT, "the composed table says %s of the first %zu words, the stretches %s",
                 yes ? "no" : "yes", count, yes ? "yes" : "no");
    }
}

/* One go of the library, with its buffers at one kind of place. */
static void try_placement(const struct fuzz_case *of, enum placement placement, const struct calls *wanted,
                          struct calls *got, struct report *report)
{
    const char *where = placement_names[placement];
    unsigned before = report->total;
    bool came_back;
    int call;

    set_up(got, &library, of, placement);
    came_back = run_library(got, where, report);
    if (before == 0)
        memcpy(report->found_out, got->at[OUT], got->len[OUT]);
    if (!came_back)
        return;
    for (call = 0; call < CALLS; call++)
        if (got->answers[call] != wanted->answers[call])
            note(report, OTHER_ANSWER, "%s: answer %d in place of %d, %s", call_names[call], got->answers[call],
                 wanted->answers[call], where);
    compare_buffers(wanted, got, where, report);
}

void examine(const struct fuzz_case *of, struct report *report)
{
    static struct calls wanted, got;
    int placement;

    memset(report, 0, offsetof(struct report, found_out));
    set_up(&wanted, &reference, of, IN_HEAP);
    call_all(&wanted);
    memcpy(report->wanted, wanted.answers, sizeof wanted.answers);
    memcpy(report->wanted_out, wanted.at[OUT], wanted.len[OUT]);
    for (placement = PLACEMENTS_TRIED - 1; placement >= IN_HEAP; placement--)
        try_placement(of, (enum placement)placement, &wanted, &got, report);
    compare_verdicts(of, &wanted, &got, report);
}

/* A buffer of very many bytes, all but the first few 0 and not to be looked at, and what was wrong with it first. */
struct vast {
    uint8_t *at;
    size_t len;
    const char *wrong;
};

static void see(struct vast *v, const char *what, bool fine)
{
    if (!fine && v->wrong == NULL)
        v->wrong = what;
}

static void call_with_vast(void *of)
{
    static const uint8_t pattern[] = {1, 1, 0, 0}, scope[] = {1, 1, 0, 64}, joined[] = {3, 1, 1, 0, 0, 1, 1, 2};
    struct vast *v = of;
    uint8_t none[1];

    memcpy(v->at, pattern, sizeof pattern);
    see(v, "a pattern table checked", vontiqa_check_pattern_table(v->at, v->len) == -9);
    see(v, "a pattern table composed", vontiqa_compose(v->at, v->len, scope, sizeof scope, none, 0) == -9);
    memcpy(v->at, scope, sizeof scope);
    see(v, "a scope table checked", vontiqa_check_scope_table(v->at, v->len) == -9);
    see(v, "a scope table composed", vontiqa_compose(pattern, sizeof pattern, v->at, v->len, none, 0) == -9);
    see(v, "a buffer's answer",
        vontiqa_compose(pattern, sizeof pattern, scope, sizeof scope, v->at, v->len) == (int32_t)sizeof joined);
    see(v, "a buffer's bytes", memcmp(v->at, joined, sizeof joined) == 0);
}

const char *examine_vast_lengths(size_t *len)
{
    static const size_t more[] = {0, 3, 4, 7, 8};
    size_t most = ((size_t)1 << 32) + 64, i;
    struct vast v = {.wrong = NULL};

    v.at = mmap(NULL, most, PROT_READ | PROT_WRITE, MAP_PRIVATE | MAP_ANONYMOUS | MAP_NORESERVE, -1, 0);
    if (v.at == MAP_FAILED) {
        printf("no address space to try lengths above 2^31\n");
        return NULL;
    }
    for (i = 0; i < 2 * sizeof more / sizeof more[0] && v.wrong == NULL; i++) {
        v.len = ((size_t)1 << (31 + i % 2)) + more[i / 2];
        if (guarded(call_with_vast, &v) != 0)
            v.wrong = "a call stopped by a signal";
    }
    munmap(v.at, most);
    *len = v.len;
    return v.wrong;
}
