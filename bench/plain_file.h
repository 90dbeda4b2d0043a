/*
 * A filter file's bits, for the calls in plain C: of the large file or, where PLAIN_POCKET is defined, of the pocket file. The widths are
 * constants of the compilation, so each file has code of its own from this one text.
 */
#ifndef PLAIN_FILE_H
#define PLAIN_FILE_H

#include "plain.h"

/* Counting is compiled out of the build that is timed. */
#ifdef PLAIN_COUNT
#define COUNT(what, times) (plain_counts.what += (times))
#else
#define COUNT(what, times) ((void)0)
#endif

enum {
    LARGE_STATE_BITS = 8,
    LARGE_LABEL_BITS = 6,
    LARGE_COUNT_BITS = 15, /* of the number of edges */
    LARGE_COLOUR_BITS = 6,
    POCKET_STATE_BITS = 4,
    POCKET_LABEL_BITS = 3,
    POCKET_COUNT_BITS = 8,
    POCKET_COLOUR_BITS = 4
};

#ifdef PLAIN_POCKET
#define OWN(width) POCKET_##width
#define OTHER(width) LARGE_##width
#else
#define OWN(width) LARGE_##width
#define OTHER(width) POCKET_##width
#endif

enum {
    STATE_BITS = OWN(STATE_BITS),
    LABEL_BITS = OWN(LABEL_BITS),
    COUNT_BITS = OWN(COUNT_BITS),
    COLOUR_BITS = OWN(COLOUR_BITS),
    HEADER_BITS = STATE_BITS + LABEL_BITS + STATE_BITS + COUNT_BITS,
    HEADER_BYTES = (HEADER_BITS + 7) / 8,
    EDGE_BITS = STATE_BITS + LABEL_BITS + STATE_BITS,
    MOST_STATES = 1 << STATE_BITS,
    MOST_LABELS = 1 << LABEL_BITS,
    COLOURS = 1 << COLOUR_BITS,
    FAULT_COLOUR = 63,
    HAS_FAULTS = FAULT_COLOUR < COLOURS /* not in pocket files, so that their calls have no test of it */
};

enum refusal {
    TOO_SHORT = 1,
    START,
    EDGE_COUNT,
    MISSING,
    EXCESS,
    FILLING,
    OUTSIDE,
    ORDER,
    REPEATED,
    ANSWER_ROOM,
    CLASS_ROOM,
    ROOM,
    OBSERVATION,
    LISTS,
    DRAWING,
    NOT_POCKET,
    FAULT
};

static uint64_t refused(enum refusal number, size_t place)
{
    return (uint64_t)place * 256 + number;
}

struct header {
    size_t n, m, start, e;
};

static size_t edges_begin(size_t n)
{
    return HEADER_BITS + COLOUR_BITS * n;
}

static size_t file_bits(size_t n, size_t e)
{
    return edges_begin(n) + EDGE_BITS * e;
}

static size_t bytes_for(size_t bits)
{
    return (bits + 7) / 8;
}

/* Reading bits. */

static inline uint64_t eight_bytes(const uint8_t *at)
{
    return (uint64_t)at[0] << 56 | (uint64_t)at[1] << 48 | (uint64_t)at[2] << 40 | (uint64_t)at[3] << 32 |
           (uint64_t)at[4] << 24 | (uint64_t)at[5] << 16 | (uint64_t)at[6] << 8 | (uint64_t)at[7];
}

/* The bits from `bit` on, from the top of the answer down: at least 57 of them, with zeros past the end. */
static inline uint64_t window(const uint8_t *file, size_t length, size_t bit)
{
    size_t from = bit / 8;
    uint64_t bits = 0;
    if (from + 8 <= length) {
        bits = eight_bytes(file + from);
    } else {
        for (size_t i = 0; i < 8 && from + i < length; i++)
            bits |= (uint64_t)file[from + i] << (56 - 8 * i);
    }
    return bits << bit % 8;
}

/* The field of so many bits in a window, behind the `before` bits at its top. */
static inline uint64_t field(uint64_t bits, unsigned before, unsigned width)
{
    return bits >> (64 - before - width) & ((UINT64_C(1) << width) - 1);
}

/* Writing bits: whole words go out as they fill, so that nothing behind the last byte is touched. */

struct writer {
    uint8_t *at;
    uint64_t held;
    unsigned bits;
};

static inline void push(struct writer *to, unsigned width, uint64_t value)
{
    to->held = to->held << width | value;
    to->bits += width;
    if (to->bits >= 32) {
        to->bits -= 32;
        uint32_t word = (uint32_t)(to->held >> to->bits);
        to->at[0] = (uint8_t)(word >> 24);
        to->at[1] = (uint8_t)(word >> 16);
        to->at[2] = (uint8_t)(word >> 8);
        to->at[3] = (uint8_t)word;
        to->at += 4;
    }
}

static void push_rest(struct writer *to)
{
    to->held <<= 32 - to->bits;
    for (unsigned shift = 24; to->bits > 0; shift -= 8) {
        *to->at++ = (uint8_t)(to->held >> shift);
        to->bits = to->bits > 8 ? to->bits - 8 : 0;
    }
}

static void push_header(struct writer *to, const struct header *h)
{
    push(to, STATE_BITS, h->n - 1);
    push(to, LABEL_BITS, h->m - 1);
    push(to, STATE_BITS, h->start);
    push(to, COUNT_BITS, h->e);
}

static inline void push_edge(struct writer *to, size_t source, size_t label, size_t target)
{
    push(to, EDGE_BITS, (source << LABEL_BITS | label) << STATE_BITS | target);
}

/* The tests of edges. */

/* An edge as its field holds it: source, label, target. */
static inline unsigned source_of(unsigned edge)
{
    return edge >> (LABEL_BITS + STATE_BITS);
}

static inline unsigned label_of(unsigned edge)
{
    return edge >> STATE_BITS & (MOST_LABELS - 1);
}

static inline unsigned target_of(unsigned edge)
{
    return edge & (MOST_STATES - 1);
}

/* Where an edge's parts stand, for a refusal to say: bits of a file, or the edge's index three times. */
struct places {
    size_t source, label, target;
};

static inline struct places places_in_file(size_t bit)
{
    return (struct places){bit, bit + STATE_BITS, bit + STATE_BITS + LABEL_BITS};
}

static inline struct places places_in_list(size_t i)
{
    return (struct places){i, i, i};
}

/* Which of 7, 8 and 9 an edge earns, or 0. `next` is 256 times its source plus its label plus 1 for the edge before, 0 for none. */
static uint64_t edge_fault(const struct header *h, struct places at, unsigned source, unsigned label, unsigned target, unsigned next)
{
    unsigned here = (source << 8 | label) + 1;
    if (source >= h->n)
        return refused(OUTSIDE, at.source);
    if (label >= h->m)
        return refused(OUTSIDE, at.label);
    if (target >= h->n)
        return refused(OUTSIDE, at.target);
    if (here < next)
        return refused(ORDER, at.source);
    return here == next ? refused(REPEATED, at.source) : 0;
}

/*
 * Edges that go by are tested without a branch: the sign bit of `bad` stays clear as long as each is in order. Only a list in which it
 * was set is gone through again, to find the first fault. Sources ascend where all is in order, so the last one is tested for all.
 */
struct passing {
    int most_label, most_target; /* the largest ones that are allowed */
    int source, key;             /* of the last edge; its key is source and label side by side, which orders edges as the file does */
    int bad;
};

static inline struct passing none_passed(const struct header *h)
{
    return (struct passing){(int)h->m - 1, (int)h->n - 1, 0, -1, 0};
}

static inline void pass(struct passing *p, unsigned key, unsigned source, unsigned label, unsigned target)
{
    p->bad |= ((int)key - p->key - 1) | (p->most_label - (int)label) | (p->most_target - (int)target);
    p->source = (int)source;
    p->key = (int)key;
}

static inline int all_passed(const struct passing *p)
{
    return p->bad >= 0 && p->source <= p->most_target;
}

static inline void pass_field(struct passing *p, unsigned edge)
{
    pass(p, edge >> STATE_BITS, source_of(edge), label_of(edge), target_of(edge));
}

/* The edges of a file, four at a time. A word gives 44 bits of them: two edges of a large file, all four of a pocket file. */

enum {
    GROUP = 4,
    GROUP_BITS = GROUP * EDGE_BITS,
    WORD_BITS = 44,
    IN_WORD = WORD_BITS / EDGE_BITS,
    GROUP_REACH = (GROUP_BITS - WORD_BITS) / 8 + 8 /* bytes that reading a group reaches */
};

_Static_assert(IN_WORD * EDGE_BITS == WORD_BITS, "a word has whole edges");

static inline void read_group(const uint8_t *at, unsigned bit, unsigned edges[GROUP])
{
    for (unsigned k = 0; k < GROUP; k++) {
        unsigned before = k / IN_WORD * WORD_BITS;
        uint64_t word = eight_bytes(at + before / 8) << (bit + before % 8);
        edges[k] = (unsigned)field(word, EDGE_BITS * (k % IN_WORD), EDGE_BITS);
    }
}

static inline unsigned read_one(const uint8_t *file, size_t length, size_t bit)
{
    return (unsigned)field(window(file, length, bit), 0, EDGE_BITS);
}

static uint64_t first_fault(const uint8_t *file, size_t length, const struct header *h)
{
    unsigned next = 0;
    uint64_t fault = 0;
    for (size_t i = 0; i < h->e && fault == 0; i++) {
        size_t bit = edges_begin(h->n) + EDGE_BITS * i;
        unsigned edge = read_one(file, length, bit);
        fault = edge_fault(h, places_in_file(bit), source_of(edge), label_of(edge), target_of(edge), next);
        next = (source_of(edge) << 8 | label_of(edge)) + 1;
    }
    return fault;
}

/* The rest of a file. */

/* Refusals 1 to 6. */
static inline uint64_t test_header(const uint8_t *file, size_t length, struct header *h)
{
    if (length < HEADER_BYTES)
        return refused(TOO_SHORT, 0);
    uint64_t bits = window(file, length, 0);
    h->n = field(bits, 0, STATE_BITS) + 1;
    h->m = field(bits, STATE_BITS, LABEL_BITS) + 1;
    h->start = field(bits, STATE_BITS + LABEL_BITS, STATE_BITS);
    h->e = field(bits, HEADER_BITS - COUNT_BITS, COUNT_BITS);
    if (h->start >= h->n)
        return refused(START, 0);
    if (h->e > h->n * h->m)
        return refused(EDGE_COUNT, 0);
    size_t used = file_bits(h->n, h->e);
    size_t needed = bytes_for(used);
    if (length < needed)
        return refused(MISSING, 0);
    if (length > needed)
        return refused(EXCESS, 0);
    if (window(file, length, used) != 0)
        return refused(FILLING, 0);
    return 0;
}

static void read_colours(const uint8_t *file, size_t length, size_t n, uint8_t *colours)
{
    enum { TOGETHER = 48 / COLOUR_BITS }; /* colours in one window */
    size_t bit = HEADER_BITS;
    for (size_t s = 0; s < n; s += TOGETHER, bit += TOGETHER * COLOUR_BITS) {
        uint64_t bits = window(file, length, bit);
        size_t now = n - s < TOGETHER ? n - s : TOGETHER;
        for (size_t i = 0; i < now; i++)
            colours[s + i] = (uint8_t)field(bits, COLOUR_BITS * (unsigned)i, COLOUR_BITS);
    }
}

/* Faults. */

/* A bit for each place of a window where six ones begin. */
static inline uint64_t six_ones(uint64_t bits)
{
    uint64_t two = bits & bits << 1;
    return two & two << 2 & two << 4;
}

/* Whether some state has the fault colour: six ones where a colour begins. */
static inline int has_fault(const uint8_t *file, size_t length, size_t n)
{
    enum { TOGETHER = 8, TOGETHER_BITS = 48 }; /* colours in one window */
    const uint64_t begins = UINT64_C(0x8208208208200000); /* where they begin there */
    uint64_t found = 0;
    size_t bit = HEADER_BITS;
    for (; n > TOGETHER; n -= TOGETHER, bit += TOGETHER_BITS)
        found |= six_ones(window(file, length, bit));
    found |= six_ones(window(file, length, bit)) & ~(~UINT64_C(0) >> COLOUR_BITS * n);
    return (found & begins) != 0;
}

/* The first edge, from edge i on, whose source is not below this one. The edges are known to ascend. */
static size_t seek_source(const uint8_t *file, size_t length, const struct header *h, size_t i, size_t source)
{
    size_t end = h->e;
    while (i < end) {
        size_t middle = i + (end - i) / 2;
        if (source_of(read_one(file, length, edges_begin(h->n) + EDGE_BITS * middle)) < source)
            i = middle + 1;
        else
            end = middle;
    }
    return i;
}

/* Refusal 17 of a file whose edges ascend, or 0. Those of one state stand together, and no others are looked at than a fault's. */
static uint64_t first_leaving(const uint8_t *file, size_t length, const struct header *h)
{
    uint8_t colours[MOST_STATES];
    size_t i = 0;
    read_colours(file, length, h->n, colours);
    for (size_t s = 0; s < h->n; s++) {
        if (colours[s] != FAULT_COLOUR)
            continue;
        for (i = seek_source(file, length, h, i, s); i < h->e; i++) {
            size_t bit = edges_begin(h->n) + EDGE_BITS * i;
            unsigned edge = read_one(file, length, bit);
            if (source_of(edge) != s)
                break;
            if (colours[target_of(edge)] != FAULT_COLOUR)
                return refused(FAULT, bit);
        }
    }
    return 0;
}

/* What the edges of a file that have gone by earn: 7, 8 or 9, then 17, or 0. */
static inline uint64_t verdict(const struct passing *passing, const uint8_t *file, size_t length, const struct header *h)
{
    if (!all_passed(passing))
        return first_fault(file, length, h);
    return HAS_FAULTS && has_fault(file, length, h->n) ? first_leaving(file, length, h) : 0;
}

#endif
