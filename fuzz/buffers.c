#define _DEFAULT_SOURCE
#include "buffers.h"

#include <setjmp.h>
#include <signal.h>
#include <stdio.h>
#include <stdlib.h>
#include <sys/mman.h>
#include <unistd.h>

#include "cases.h"

const char *const placement_names[PLACEMENTS] = {"in a heap block", "ahead of a guard page", "behind a guard page"};

/* Pages that may be used, with as many bytes on both sides that may not. */
enum { PAGES = MOST_BYTES, LIMIT_SECONDS = 10 };

static uint8_t *pages[SLOTS], *blocks[SLOTS];
static sigjmp_buf back;
static volatile sig_atomic_t inside, stopped_by;

static void stopped(int signal_number)
{
    stopped_by = signal_number;
    if (inside)
        siglongjmp(back, 1);
    signal(signal_number, SIG_DFL);
    raise(signal_number);
}

static void must(int fine, const char *what)
{
    if (!fine) {
        perror(what);
        exit(2);
    }
}

void buffers_prepare(void)
{
    static const int signals[] = {SIGSEGV, SIGBUS, SIGILL, SIGFPE, SIGALRM};
    struct sigaction action = {.sa_handler = stopped, .sa_flags = SA_ONSTACK};
    size_t i;

    for (i = 0; i < SLOTS; i++) {
        uint8_t *all = mmap(NULL, 3 * (size_t)PAGES, PROT_NONE, MAP_PRIVATE | MAP_ANONYMOUS, -1, 0);

        must(all != MAP_FAILED, "mmap");
        pages[i] = all + PAGES;
        must(mprotect(pages[i], PAGES, PROT_READ | PROT_WRITE) == 0, "mprotect");
    }
    for (i = 0; i < sizeof signals / sizeof signals[0]; i++)
        must(sigaction(signals[i], &action, NULL) == 0, "sigaction");
}

uint8_t *buffer_in(enum placement placement, unsigned slot, size_t len)
{
    size_t there = len > 0 ? len : 1;

    if (placement == BEHIND_GUARD)
        return pages[slot];
    if (placement == AHEAD_OF_GUARD)
        return pages[slot] + PAGES - there;
    free(blocks[slot]);
    blocks[slot] = malloc(there);
    must(blocks[slot] != NULL, "malloc");
    return blocks[slot];
}

int guarded(void (*work)(void *), void *of)
{
    stopped_by = 0;
    if (sigsetjmp(back, 1) == 0) {
        inside = 1;
        alarm(LIMIT_SECONDS);
        work(of);
    }
    alarm(0);
    inside = 0;
    return stopped_by;
}
