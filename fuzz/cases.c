#include "cases.h"

const char *const origin_names[ORIGINS] = {"lawful", "limit", "damaged", "cut", "longer", "random", "empty"};
const char *const room_names[ROOMS] = {"none", "short", "one less", "exact", "longer"};

struct rng {
    uint64_t state;
};

struct shape {
    size_t states;
    unsigned width;
};

uint64_t stirred(uint64_t x)
{
    x += 0x9e3779b97f4a7c15u;
    x = (x ^ (x >> 30)) * 0xbf58476d1ce4e5b9u;
    x = (x ^ (x >> 27)) * 0x94d049bb133111ebu;
    return x ^ (x >> 31);
}

static uint64_t draw(struct rng *r)
{
    r->state += 0x9e3779b97f4a7c15u;
    return stirred(r->state);
}

static size_t below(struct rng *r, size_t n)
{
    return n == 0 ? 0 : draw(r) % n;
}

static bool chance(struct rng *r, unsigned percent)
{
    return below(r, 100) < percent;
}

/* One of the given choices, drawn by weights that add up to 100. */
static unsigned weighed(struct rng *r, const unsigned *weights)
{
    size_t left = below(r, 100);
    unsigned choice = 0;

    while (left >= weights[choice])
        left -= weights[choice++];
    return choice;
}

uint8_t fill_byte(const struct fuzz_case *of, size_t i)
{
    return (uint8_t)stirred(of->fill + i);
}

static size_t most_states(enum table_kind kind)
{
    return kind == PATTERN_TABLE ? MOST_PATTERN_STATES : MOST_SCOPE_STATES;
}

/* A table of this shape, lawful where the shape is. Its marks are drawn from few, so that some tables have only
 * one kind of mark and others all. */
static void build(struct rng *r, enum table_kind kind, struct shape shape, struct bytes *b)
{
    unsigned flagged = 25 * (1 + (unsigned)below(r, 4));
    uint8_t marks[4];
    size_t i;

    for (i = 0; i < 4; i++)
        marks[i] = kind == SCOPE_TABLE ? (uint8_t)(64 * below(r, 4)) : 0;
    b->len = reference_size(shape.states, shape.width);
    b->at[0] = (uint8_t)shape.states;
    b->at[1 + shape.states] = (uint8_t)shape.width;
    for (i = 1; i <= shape.states; i++)
        b->at[i] = chance(r, flagged);
    for (i = shape.states + 2; i < b->len; i++) {
        size_t next = below(r, shape.states);

        b->at[i] = (uint8_t)(next + marks[below(r, 4)]);
    }
}

/* Where a change is made: the first, the last or any one of the places from `from` to before `to`. */
static size_t some_place(struct rng *r, size_t from, size_t to)
{
    size_t any = from + below(r, to - from);

    switch (below(r, 3)) {
    case 0:
        return from;
    case 1:
        return to - 1;
    default:
        return any;
    }
}

/* One number of a lawful table put at its limit or just over it, with the rest of the table fitted to it. */
static void put_at_limit(struct rng *r, enum table_kind kind, struct shape shape, struct bytes *b)
{
    const size_t counts[] = {0, most_states(kind), most_states(kind) + 1, 255};
    size_t over = below(r, 2), at;

    switch (below(r, 5)) {
    case 0:
        shape.states = counts[below(r, 4)];
        build(r, kind, shape, b);
        break;
    case 1:
        shape.width = MOST_WIDTH + (unsigned)over;
        build(r, kind, shape, b);
        break;
    case 2:
        at = some_place(r, 1, 1 + shape.states);
        b->at[at] = (uint8_t)(1 + over);
        break;
    case 3:
        at = some_place(r, 2 + shape.states, b->len);
        b->at[at] = (uint8_t)((b->at[at] & (kind == SCOPE_TABLE ? 192 : 0)) + shape.states - 1 + over);
        break;
    default:
        b->len = b->len - 1 + 2 * over;
        b->at[b->len - 1] = 0;
        break;
    }
}

/* Changes one to four bytes, half of them ahead of the rows. */
static void damage(struct rng *r, struct bytes *b)
{
    size_t times = 1 + below(r, 4);

    while (b->len > 0 && times-- > 0) {
        size_t head = b->at[0] + 2u < b->len ? b->at[0] + 2u : b->len;
        uint8_t *byte = &b->at[below(r, chance(r, 50) ? head : b->len)];

        switch (below(r, 4)) {
        case 0:
            *byte = (uint8_t)draw(r);
            break;
        case 1:
            *byte ^= (uint8_t)(1u << below(r, 8));
            break;
        case 2:
            *byte = (uint8_t)(*byte + 1 - 2 * below(r, 2));
            break;
        default:
            *byte = (uint8_t)(b->at[0] - below(r, 2));
            break;
        }
    }
}

static void cut(struct rng *r, struct bytes *b)
{
    size_t head = b->at[0] + 3u < b->len ? b->at[0] + 3u : b->len;

    if (b->len > 0)
        b->len = some_place(r, below(r, head), b->len);
}

/* By one byte, by some, or by so many that a length of one or two bytes would not notice. */
static void lengthen(struct rng *r, struct bytes *b)
{
    const size_t more[] = {1, 1 + below(r, 300), 256, 65536};
    size_t to = b->len + more[below(r, 4)];

    while (b->len < to && b->len < MOST_BYTES)
        b->at[b->len++] = (uint8_t)draw(r);
}

/* Random bytes after a first byte that may be one, mostly with flags and a width that may be, and of the length
 * that goes with them half the time. */
static void fill_randomly(struct rng *r, enum table_kind kind, struct bytes *b)
{
    size_t n = 1 + below(r, most_states(kind) + 1), mask = chance(r, 50) ? 255 : 192, i;
    unsigned width = (unsigned)below(r, MOST_WIDTH + 2);

    b->len = chance(r, 50) ? reference_size(n, width) : 1 + below(r, 400);
    for (i = 0; i < b->len; i++) {
        uint8_t any = (uint8_t)draw(r);

        if (i > 0 && i <= n && chance(r, 99))
            any &= 1;
        else if (i > n + 1)
            any = (uint8_t)((any & mask) + (any & 63) % n);
        b->at[i] = any;
    }
    b->at[0] = (uint8_t)n;
    if (b->len > n + 1 && chance(r, 90))
        b->at[n + 1] = (uint8_t)width;
}

static void spoil(struct rng *r, enum origin how, enum table_kind kind, struct shape shape, struct bytes *b)
{
    switch (how) {
    case AT_LIMIT:
        put_at_limit(r, kind, shape, b);
        break;
    case DAMAGED:
        damage(r, b);
        break;
    case CUT:
        cut(r, b);
        break;
    case LENGTHENED:
        lengthen(r, b);
        break;
    case RANDOM:
        fill_randomly(r, kind, b);
        break;
    case EMPTY:
        b->len = 0;
        break;
    default:
        break;
    }
}

/* Numbers of states that compose to few, to as many as may be, to just too many, or to any number of states. */
static void draw_shapes(struct rng *r, struct shape *shapes)
{
    size_t m = 1 + below(r, MOST_SCOPE_STATES), n;
    size_t fits = (MOST_PATTERN_STATES - 1) / m - 1;
    unsigned width = (unsigned)below(r, MOST_WIDTH + 1);

    switch (below(r, 8)) {
    case 0:
        n = fits;
        break;
    case 1:
        n = fits + 1;
        break;
    case 2:
        n = 1 + below(r, MOST_PATTERN_STATES);
        break;
    case 3:
        n = 1 + below(r, fits);
        break;
    default:
        n = 1 + below(r, 3);
        m = 1 + below(r, 3);
        break;
    }
    shapes[PATTERN_TABLE] = (struct shape){n, width};
    shapes[SCOPE_TABLE] = (struct shape){m, chance(r, 10) ? (unsigned)below(r, MOST_WIDTH + 1) : width};
}

static void draw_room(struct rng *r, size_t wanted, struct fuzz_case *made)
{
    static const unsigned weights[ROOMS] = {5, 10, 15, 35, 35};
    const size_t more[] = {1, 1 + below(r, 64), 256, 16252};

    made->room = (enum room)weighed(r, weights);
    switch (made->room) {
    case ROOM_NONE:
        made->out_len = 0;
        break;
    case ROOM_SHORT:
        made->out_len = below(r, wanted);
        break;
    case ROOM_ONE_LESS:
        made->out_len = wanted - 1;
        break;
    case ROOM_EXACT:
        made->out_len = wanted;
        break;
    default:
        made->out_len = wanted + more[below(r, 4)];
        break;
    }
}

static void draw_words(struct rng *r, struct fuzz_case *made)
{
    uint8_t mask = (uint8_t)(chance(r, 50) ? 255 : draw(r));
    size_t i;

    made->word_count = below(r, chance(r, 80) ? 13 : MOST_WORDS + 1);
    for (i = 0; i < made->word_count; i++)
        made->words[i] = (uint8_t)draw(r) & mask;
}

void make_case(struct fuzz_case *made, uint64_t seed, uint64_t number)
{
    static const unsigned firsts[ORIGINS] = {70, 10, 7, 3, 3, 5, 2};
    static const unsigned seconds[ORIGINS] = {85, 0, 5, 5, 5, 0, 0};
    struct rng r = {stirred(seed) ^ stirred(~number)};
    struct shape shapes[TABLES];
    size_t total;
    int i;

    draw_shapes(&r, shapes);
    total = reference_composed_states(shapes[PATTERN_TABLE].states, shapes[SCOPE_TABLE].states);
    draw_room(&r, reference_size(total, shapes[PATTERN_TABLE].width), made);
    for (i = 0; i < TABLES; i++) {
        enum table_kind kind = (enum table_kind)i;
        enum origin origin = (enum origin)weighed(&r, firsts);

        made->origin[kind] = origin;
        build(&r, kind, shapes[kind], &made->table[kind]);
        spoil(&r, origin, kind, shapes[kind], &made->table[kind]);
        if (origin != LAWFUL)
            spoil(&r, (enum origin)weighed(&r, seconds), kind, shapes[kind], &made->table[kind]);
    }
    draw_words(&r, made);
    made->fill = draw(&r);
}
