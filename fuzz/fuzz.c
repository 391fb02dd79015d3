/* Calls the C entries with random tables and buffers and compares with the reference: fuzz SEED SECONDS CASES.
 * Ends after so many seconds or cases, of which 0 is no limit; with status 1 where anything differs. */
#include <stdio.h>
#include <stdlib.h>
#include <time.h>

#include "shrink.h"

#ifdef __SANITIZE_ADDRESS__
#include <sanitizer/common_interface_defs.h>
#endif

/* Columns of the answers: 0 or a length, then the refusals from FIRST to LAST. */
enum { FIRST = 9, LAST = 16, COLUMNS = LAST - FIRST + 2 };

enum { MOST_STATES_MET, STATES_PASSED, MOST_WIDTH_MET, WIDTH_PASSED, LIMITS };

struct tally {
    uint64_t cases, different, smallest;
    uint64_t origins[TABLES][ORIGINS], rooms[ROOMS], answers[CALLS][COLUMNS];
    uint64_t limits[TABLES + 1][LIMITS], yes, no, faults[FAULTS], digest;
};

static struct fuzz_case current, smallest;
static struct report report;

/* Counts a table that has as many states or as large a width as there may be, or one more. */
static void count_limits(uint64_t *limits, enum table_kind kind, const uint8_t *at, size_t len)
{
    unsigned most = kind == PATTERN_TABLE ? MOST_PATTERN_STATES : MOST_SCOPE_STATES;
    unsigned states = len > 0 ? at[0] : 0;
    unsigned width = len > states + 1 ? at[states + 1] : 0;

    limits[MOST_STATES_MET] += states == most;
    limits[STATES_PASSED] += states == most + 1;
    limits[MOST_WIDTH_MET] += width == MOST_WIDTH;
    limits[WIDTH_PASSED] += width == MOST_WIDTH + 1;
}

static void count(struct tally *t)
{
    int i;

    t->cases++;
    t->different += report.total > 0;
    t->rooms[current.room]++;
    t->yes += report.yes;
    t->no += report.no;
    t->digest = stirred(t->digest ^ current.fill ^ report.yes);
    for (i = 0; i < TABLES; i++) {
        t->origins[i][current.origin[i]]++;
        count_limits(t->limits[i], (enum table_kind)i, current.table[i].at, current.table[i].len);
    }
    if (report.wanted[COMPOSING] > 0)
        count_limits(t->limits[TABLES], PATTERN_TABLE, report.wanted_out, (size_t)report.wanted[COMPOSING]);
    for (i = 0; i < FAULTS; i++)
        t->faults[i] += report.faults[i];
    for (i = 0; i < CALLS; i++) {
        int32_t answer = report.wanted[i];

        t->digest = stirred(t->digest + (uint64_t)answer);
        if (i != COMPOSED_CHECKED || report.wanted[COMPOSING] > 0)
            t->answers[i][answer < 0 ? 1 - answer - FIRST : 0]++;
    }
}

static void print_bytes(const char *what, const uint8_t *at, size_t len)
{
    size_t i;

    printf("  %s, %zu bytes:", what, len);
    for (i = 0; i < len; i++)
        printf(" %u", at[i]);
    printf("\n");
}

static void print_case(const struct fuzz_case *of)
{
    size_t i;

    print_bytes("pattern table", of->table[PATTERN_TABLE].at, of->table[PATTERN_TABLE].len);
    print_bytes("scope table", of->table[SCOPE_TABLE].at, of->table[SCOPE_TABLE].len);
    printf("  buffer, %zu bytes:", of->out_len);
    for (i = 0; i < of->out_len; i++)
        printf(" %u", fill_byte(of, i));
    printf("\n");
    print_bytes("words", of->words, of->word_count);
}

static void print_smallest(uint64_t number)
{
    printf("DIFFERENT: %s\n", report.first);
    printf("the smallest was case %llu; cut down it is\n", (unsigned long long)number);
    print_case(&smallest);
    print_bytes("buffer wanted", report.wanted_out, smallest.out_len);
    print_bytes("buffer found", report.found_out, smallest.out_len);
}

static void print_row(const char *what, const uint64_t *numbers, size_t len)
{
    size_t i;

    printf("  %-38s", what);
    for (i = 0; i < len; i++)
        printf(" %8llu", (unsigned long long)numbers[i]);
    printf("\n");
}

static void print_heads(const char *what, const char *const *names, size_t len)
{
    size_t i;

    printf("%-40s", what);
    for (i = 0; i < len; i++)
        printf(" %8s", names[i]);
    printf("\n");
}

static void print_tally(const struct tally *t, uint64_t seed, double seconds)
{
    static const char *const columns[COLUMNS] = {"good", "9", "10", "11", "12", "13", "14", "15", "16"};
    static const char *const limits[LIMITS] = {"most", "one more", "width 6", "width 7"};
    static const char *const tables[TABLES + 1] = {"pattern tables", "scope tables", "composed tables"};
    int i;

    printf("seed %llu: %llu cases in %.1f s\n", (unsigned long long)seed, (unsigned long long)t->cases, seconds);
    print_heads("tables by origin", origin_names, ORIGINS);
    for (i = 0; i < TABLES; i++)
        print_row(tables[i], t->origins[i], ORIGINS);
    print_heads("tables by states and width", limits, LIMITS);
    for (i = 0; i <= TABLES; i++)
        print_row(tables[i], t->limits[i], LIMITS);
    print_heads("buffers by room", room_names, ROOMS);
    print_row("", t->rooms, ROOMS);
    print_heads("answers", columns, COLUMNS);
    for (i = 0; i < CALLS; i++)
        print_row(call_names[i], t->answers[i], COLUMNS);
    printf("verdicts on lists of words, by stretches and by the composed table: yes %llu, no %llu\n",
           (unsigned long long)t->yes, (unsigned long long)t->no);
    for (i = FIRST; i <= LAST; i++)
        if (t->answers[COMPOSING][1 + i - FIRST] == 0)
            printf("not reached by composing: %d\n", i);
    printf("digest %016llx\n", (unsigned long long)t->digest);
}

static void print_faults(const struct tally *t)
{
    int i;

    printf("different: %llu cases", (unsigned long long)t->different);
    for (i = 0; i < FAULTS; i++)
        if (t->faults[i] > 0)
            printf(", %s %llu", fault_names[i], (unsigned long long)t->faults[i]);
    printf("\n");
}

static double now(void)
{
    struct timespec time;

    timespec_get(&time, TIME_UTC);
    return (double)time.tv_sec + (double)time.tv_nsec / 1e9;
}

/* Examines cases until time or number is up, and keeps the smallest that differs. */
static void run(struct tally *t, uint64_t seed, double until, uint64_t most)
{
    while ((most == 0 || t->cases < most) && (until == 0 || now() < until)) {
        make_case(&current, seed, t->cases);
        examine(&current, &report);
        if (report.total > 0 && (t->different == 0 || case_size(&current) < case_size(&smallest))) {
            smallest = current;
            t->smallest = t->cases;
        }
        count(t);
    }
}

#ifdef __SANITIZE_ADDRESS__
static void print_current(void)
{
    printf("the sanitizer stopped this case:\n");
    print_case(&current);
    fflush(stdout);
}
#endif

int main(int argc, char **argv)
{
    static struct tally tally;
    uint64_t seed = argc > 1 ? strtoull(argv[1], NULL, 10) : 1;
    double seconds = argc > 2 ? strtod(argv[2], NULL) : 5;
    uint64_t most = argc > 3 ? strtoull(argv[3], NULL, 10) : 0;
    double began = now();
    const char *wrong;
    size_t len = 0;

    buffers_prepare();
#ifdef __SANITIZE_ADDRESS__
    __sanitizer_set_death_callback(print_current);
#endif
    wrong = examine_vast_lengths(&len);
    run(&tally, seed, seconds > 0 ? began + seconds : 0, most);
    print_tally(&tally, seed, now() - began);
    print_faults(&tally);
    if (tally.different > 0) {
        shrink(&smallest, &report);
        print_smallest(tally.smallest);
    }
    if (wrong != NULL)
        printf("DIFFERENT: %s with a length of %zu\n", wrong, len);
    return tally.different > 0 || wrong != NULL;
}
