/* Drawings, which are of large files alone. */
#include "plain_file.h"

#include <string.h>

#define OPENING "digraph {\n"
#define CLOSING "}\n"
#define ARROW " -> "
#define LABEL " [label="
#define LINE_END "];\n"

#define LENGTH(string) (sizeof(string) - 1)
#define BEGINS(at, string) (memcmp((at), (string), LENGTH(string)) == 0)

enum {
    LONGEST_LINE = 24,   /* 999 -> 999 [label=999]; and a newline */
    TIES_OF_A_STATE = 11, /* bytes of a state's line that are no digits */
    TIES_OF_AN_EDGE = 15
};

/* What the lines of a text come to. Of the numbers only the largest are kept: the text itself is read once more to write its file. */
struct drawn {
    size_t n, e;
    unsigned most_colour, most_label;
    int bad;    /* the sign bit is set where some edge has an end that is not there, or does not ascend */
    int leaves; /* not 0 where some edge leaves a fault; of bad edges it says nothing */
};

/*
 * The lines of a text. One is read to the length of the longest before it is known how long it is; so the last bytes are copied, with
 * zeros behind them, which fit no line.
 */
struct lines {
    const uint8_t *at, *end;
    size_t least; /* bytes that have to be left where a line begins */
    uint8_t last[2 * LONGEST_LINE];
};

static void copy_last(struct lines *lines)
{
    size_t left = (size_t)(lines->end - lines->at);
    memset(lines->last, 0, sizeof lines->last);
    memcpy(lines->last, lines->at, left);
    lines->at = lines->last;
    lines->end = lines->last + left;
    lines->least = 0;
}

static inline const uint8_t *next_line(struct lines *lines)
{
    if ((size_t)(lines->end - lines->at) < lines->least)
        copy_last(lines);
    return lines->at;
}

/* Reads a number of up to three digits that is known to begin here; a zero has no digit behind it. Answers where it ends. */
static inline const uint8_t *read_digits(const uint8_t *at, unsigned *number)
{
    unsigned x = at[0] - (unsigned)'0';
    at++;
    for (int more = 2; more > 0 && x != 0; more--, at++) {
        unsigned digit = at[0] - (unsigned)'0';
        if (digit > 9)
            break;
        x = 10 * x + digit;
    }
    *number = x;
    return at;
}

/* The same where it is not known; answers where it begins if there is none. */
static inline const uint8_t *read_number(const uint8_t *at, unsigned *number)
{
    return at[0] - (unsigned)'0' > 9 ? at : read_digits(at, number);
}

/* Reads the lines of states as far as they go; 0 where one of them is outside the profile. */
static int read_states(struct lines *lines, struct drawn *d)
{
    for (;;) {
        const uint8_t *begin = next_line(lines);
        unsigned state, colour;
        const uint8_t *at = read_number(begin, &state);
        if (at == begin || state != d->n || !BEGINS(at, LABEL))
            return 1;
        begin = at + LENGTH(LABEL);
        at = read_number(begin, &colour);
        if (at == begin || !BEGINS(at, LINE_END))
            return 0;
        lines->at = at + LENGTH(LINE_END);
        d->most_colour = colour > d->most_colour ? colour : d->most_colour;
        d->n++;
    }
}

/* Reads an edge of which nothing is known; NULL where it is outside the profile. */
static inline const uint8_t *read_edge(const uint8_t *begin, unsigned *source, unsigned *label, unsigned *target)
{
    const uint8_t *at = read_number(begin, source);
    if (at == begin || !BEGINS(at, ARROW))
        return NULL;
    begin = at + LENGTH(ARROW);
    at = read_number(begin, target);
    if (at == begin || !BEGINS(at, LABEL))
        return NULL;
    begin = at + LENGTH(LABEL);
    at = read_number(begin, label);
    if (at == begin || !BEGINS(at, LINE_END))
        return NULL;
    return at + LENGTH(LINE_END);
}

/* Marks the states that have the fault colour, in lines of states that are known to be of the profile. */
static void mark_faults(const uint8_t *text, size_t n, uint8_t faults[MOST_STATES])
{
    const uint8_t *at = text + LENGTH(OPENING);
    memset(faults, 0, MOST_STATES);
    for (size_t s = 0; s < n; s++) {
        unsigned state, colour;
        at = read_digits(at, &state) + LENGTH(LABEL);
        at = read_digits(at, &colour) + LENGTH(LINE_END);
        faults[s % MOST_STATES] = colour == FAULT_COLOUR;
    }
}

/* Reads the lines of edges as far as they go. `faults` is NULL where there are none. */
static inline void read_arrows(struct lines *lines, struct drawn *d, const uint8_t *faults)
{
    int most = (int)d->n - 1;
    int last = -1;
    for (;;) {
        const uint8_t *begin = next_line(lines);
        unsigned source, label, target;
        const uint8_t *behind = read_edge(begin, &source, &label, &target);
        if (behind == NULL)
            return;
        lines->at = behind;
        int key = (int)(source << 10 | label);
        d->bad |= (key - last - 1) | (most - (int)source) | (most - (int)target);
        last = key;
        if (faults != NULL)
            d->leaves |= faults[source % MOST_STATES] > faults[target % MOST_STATES];
        d->most_label = label > d->most_label ? label : d->most_label;
        d->e++;
    }
}

/* Whether a text is of the profile, and what its lines come to. Marks the faults if there are any. */
static int read_drawing(const uint8_t *text, size_t length, struct drawn *d, uint8_t faults[MOST_STATES])
{
    if (length < LENGTH(OPENING) || !BEGINS(text, OPENING))
        return 0;
    struct lines lines = {.at = text + LENGTH(OPENING), .end = text + length, .least = LONGEST_LINE};
    *d = (struct drawn){0};
    if (!read_states(&lines, d))
        return 0;
    if (d->most_colour == FAULT_COLOUR) {
        mark_faults(text, d->n, faults);
        read_arrows(&lines, d, faults);
    } else {
        read_arrows(&lines, d, NULL);
    }
    return lines.end - lines.at == LENGTH(CLOSING) && BEGINS(lines.at, CLOSING);
}

/* Where a text leaves the profile: a byte at a time, for a text that does. */
struct walk {
    const uint8_t *text;
    size_t length;
    size_t place;
};

static int walk_along(struct walk *walk, const char *string)
{
    for (; *string != 0; string++, walk->place++)
        if (walk->place == walk->length || walk->text[walk->place] != (uint8_t)*string)
            return 0;
    return 1;
}

static int walk_number(struct walk *walk, unsigned *number)
{
    size_t digits = 0;
    *number = 0;
    for (; digits < 3 && walk->place < walk->length; digits++, walk->place++) {
        unsigned digit = walk->text[walk->place] - (unsigned)'0';
        if (digit > 9 || (digits > 0 && *number == 0))
            break;
        *number = 10 * *number + digit;
    }
    return digits > 0;
}

static int at_byte(const struct walk *walk, char byte)
{
    return walk->place < walk->length && walk->text[walk->place] == (uint8_t)byte;
}

/* One line of a state or an edge; 0 where the text leaves the profile in it. */
static int walk_line(struct walk *walk, size_t *states, size_t *edges)
{
    unsigned first, other;
    if (!walk_number(walk, &first) || !walk_along(walk, " "))
        return 0;
    if (at_byte(walk, '[') && *edges == 0 && first == *states) {
        ++*states;
        return walk_along(walk, LABEL + 1) && walk_number(walk, &other) && walk_along(walk, LINE_END);
    }
    ++*edges;
    return walk_along(walk, ARROW + 1) && walk_number(walk, &other) && walk_along(walk, LABEL) && walk_number(walk, &other) &&
           walk_along(walk, LINE_END);
}

static size_t place_outside(const uint8_t *text, size_t length)
{
    struct walk walk = {text, length, 0};
    size_t states = 0;
    size_t edges = 0;
    int inside = walk_along(&walk, OPENING);
    while (inside && !at_byte(&walk, CLOSING[0]))
        inside = walk_line(&walk, &states, &edges);
    if (inside)
        walk_along(&walk, CLOSING);
    return walk.place;
}

/* Once more through a text that is known to be of the profile. */

static const uint8_t *first_edge(const uint8_t *text, size_t n)
{
    const uint8_t *at = text + LENGTH(OPENING);
    for (size_t s = 0; s < n; s++)
        at = (const uint8_t *)memchr(at, '\n', LONGEST_LINE) + 1;
    return at;
}

static inline const uint8_t *read_known_edge(const uint8_t *at, unsigned *source, unsigned *label, unsigned *target)
{
    at = read_digits(at, source) + LENGTH(ARROW);
    at = read_digits(at, target) + LENGTH(LABEL);
    return read_digits(at, label) + LENGTH(LINE_END);
}

static uint64_t first_fault_drawn(const uint8_t *text, const struct header *h)
{
    const uint8_t *at = first_edge(text, h->n);
    unsigned next = 0;
    uint64_t fault = 0;
    for (size_t i = 0; i < h->e && fault == 0; i++) {
        unsigned source, label, target;
        at = read_known_edge(at, &source, &label, &target);
        fault = edge_fault(h, places_in_list(i), source, label, target, next);
        next = (source << 8 | label) + 1;
    }
    return fault;
}

/* There has to be an edge that leaves a fault. */
static uint64_t first_leaving_drawn(const uint8_t *text, const struct header *h, const uint8_t *faults)
{
    const uint8_t *at = first_edge(text, h->n);
    for (size_t i = 0;; i++) {
        unsigned source, label, target;
        at = read_known_edge(at, &source, &label, &target);
        if (faults[source] > faults[target])
            return refused(FAULT, i);
    }
}

static void write_drawn(const uint8_t *text, const struct header *h, uint8_t *room)
{
    const uint8_t *at = text + LENGTH(OPENING);
    struct writer to = {room, 0, 0};
    push_header(&to, h);
    for (size_t s = 0; s < h->n; s++) {
        unsigned state, colour;
        at = read_digits(at, &state) + LENGTH(LABEL);
        at = read_digits(at, &colour) + LENGTH(LINE_END);
        push(&to, COLOUR_BITS, colour);
    }
    for (size_t i = 0; i < h->e; i++) {
        unsigned source, label, target;
        at = read_known_edge(at, &source, &label, &target);
        push_edge(&to, source, label, target);
    }
    push_rest(&to);
}

uint64_t plain_from_dot(const uint8_t *text, size_t text_length,
                        uint8_t *room, size_t room_length,
                        uint64_t values[1])
{
    uint8_t faults[MOST_STATES];
    struct drawn d;
    if (!read_drawing(text, text_length, &d, faults))
        return refused(DRAWING, place_outside(text, text_length));
    struct header h = {d.n, d.most_label + 1, 0, d.e};
    if (h.n < 1 || h.n > MOST_STATES || h.m > MOST_LABELS || d.most_colour >= COLOURS)
        return refused(LISTS, 0);
    if (h.e > h.n * h.m)
        return refused(EDGE_COUNT, 0);
    if (d.bad < 0)
        return first_fault_drawn(text, &h);
    if (d.leaves)
        return first_leaving_drawn(text, &h, faults);
    size_t length = bytes_for(file_bits(h.n, h.e));
    if (room_length < length)
        return refused(ANSWER_ROOM, 0);
    write_drawn(text, &h, room);
    values[0] = length;
    return 0;
}

/* How many digits a number below 1,000 has. */
static inline size_t digits(unsigned number)
{
    return 1u + (number > 9) + (number > 99);
}

static size_t states_text(const uint8_t *hues, size_t n)
{
    size_t length = TIES_OF_A_STATE * n;
    for (size_t s = 0; s < n; s++)
        length += digits((unsigned)s) + digits(hues[s]);
    return length;
}

/* What the edges of a file come to as text. */
struct arrows {
    size_t digits;
    unsigned most_label;
};

static inline void measure(struct arrows *a, unsigned edge)
{
    a->digits += digits(source_of(edge)) + digits(label_of(edge)) + digits(target_of(edge));
    a->most_label = label_of(edge) > a->most_label ? label_of(edge) : a->most_label;
}

/* Tests the edges of a file and measures their text in one pass. */
static uint64_t test_and_measure(const uint8_t *file, size_t length, const struct header *h, struct arrows *a)
{
    struct passing passing = none_passed(h);
    size_t bit = edges_begin(h->n);
    size_t e = h->e;
    size_t i = 0;
    for (; i + GROUP <= e && bit / 8 + GROUP_REACH <= length; i += GROUP, bit += GROUP_BITS) {
        unsigned group[GROUP];
        read_group(file + bit / 8, bit % 8, group);
        for (size_t k = 0; k < GROUP; k++) {
            pass_field(&passing, group[k]);
            measure(a, group[k]);
        }
    }
    for (; i < e; i++, bit += EDGE_BITS) {
        unsigned edge = read_one(file, length, bit);
        pass_field(&passing, edge);
        measure(a, edge);
    }
    COUNT(edges_decoded, e);
    return verdict(&passing, file, length, h);
}

static inline uint8_t *put_string(uint8_t *at, const char *string, size_t length)
{
    memcpy(at, string, length);
    return at + length;
}

#define PUT(at, string) put_string((at), (string), LENGTH(string))

static inline uint8_t *put_number(uint8_t *at, unsigned number)
{
    if (number > 99)
        *at++ = (uint8_t)('0' + number / 100);
    if (number > 9)
        *at++ = (uint8_t)('0' + number / 10 % 10);
    *at++ = (uint8_t)('0' + number % 10);
    return at;
}

static inline uint8_t *put_edge(uint8_t *at, unsigned edge)
{
    at = PUT(put_number(at, source_of(edge)), ARROW);
    at = PUT(put_number(at, target_of(edge)), LABEL);
    return PUT(put_number(at, label_of(edge)), LINE_END);
}

static uint8_t *put_states(uint8_t *at, const uint8_t *hues, size_t n)
{
    for (size_t s = 0; s < n; s++) {
        at = PUT(put_number(at, (unsigned)s), LABEL);
        at = PUT(put_number(at, hues[s]), LINE_END);
    }
    return at;
}

static uint8_t *put_edges(uint8_t *at, const uint8_t *file, size_t length, const struct header *h)
{
    size_t bit = edges_begin(h->n);
    size_t e = h->e;
    size_t i = 0;
    for (; i + GROUP <= e && bit / 8 + GROUP_REACH <= length; i += GROUP, bit += GROUP_BITS) {
        unsigned group[GROUP];
        read_group(file + bit / 8, bit % 8, group);
        for (size_t k = 0; k < GROUP; k++)
            at = put_edge(at, group[k]);
    }
    for (; i < e; i++, bit += EDGE_BITS)
        at = put_edge(at, read_one(file, length, bit));
    COUNT(edges_decoded, e);
    return at;
}

uint64_t plain_to_dot(const uint8_t *file, size_t file_length,
                      uint8_t *room, size_t room_length,
                      uint64_t values[1])
{
    uint8_t hues[MOST_STATES];
    struct arrows arrows = {0, 0};
    struct header h;
    uint64_t fault = test_header(file, file_length, &h);
    if (fault == 0)
        fault = test_and_measure(file, file_length, &h, &arrows);
    if (fault != 0)
        return fault;
    if (h.start != 0 || h.m != arrows.most_label + 1)
        return refused(DRAWING, 0);
    read_colours(file, file_length, h.n, hues);
    size_t length = LENGTH(OPENING) + states_text(hues, h.n) + TIES_OF_AN_EDGE * h.e + arrows.digits + LENGTH(CLOSING);
    if (room_length < length)
        return refused(ANSWER_ROOM, 0);
    uint8_t *at = put_states(PUT(room, OPENING), hues, h.n);
    PUT(put_edges(at, file, file_length, &h), CLOSING);
    values[0] = length;
    return 0;
}
