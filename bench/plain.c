#include "plain_file.h"

#include <string.h>

/* Built for each of the two files: as it stands for the large one, by plain_pocket.c for the pocket file. */
#ifdef PLAIN_POCKET
#define CALL(name) plain_pocket_##name
#define OTHERS(name) plain_##name
#define TO_OTHER plain_to_large
typedef uint8_t label_set;
#else
#define CALL(name) plain_##name
#define OTHERS(name) plain_pocket_##name
#define TO_OTHER plain_to_pocket
typedef uint64_t label_set; /* a bit a label */
#endif

enum {
    MOST_OBSERVATIONS = 65535,
    NONE = 0xffff /* no state; every state is below 256 */
};

/* What a call looks up: the labels that each state has, a bit each, and their targets. */
struct table {
    size_t m;
    label_set all; /* all m labels */
    label_set has[MOST_STATES];
    uint8_t target[MOST_STATES * MOST_LABELS]; /* anything where there is no edge */
};

/* Edges come by ascending source, so the labels of the current source are kept at hand. */
struct filling {
    unsigned source;
    label_set labels;
};

static inline void fill(struct table *table, struct filling *now, unsigned edge)
{
    unsigned source = source_of(edge);
    label_set before = source == now->source ? now->labels : 0;
    now->source = source;
    now->labels = (label_set)(before | (label_set)1 << label_of(edge));
    table->has[source] = now->labels;
    table->target[edge >> STATE_BITS] = (uint8_t)target_of(edge);
}

/* Tests the edges of a file in one pass, and puts them into the table where there is one. */
static inline uint64_t test_edges(const uint8_t *file, size_t length, const struct header *h, struct table *table)
{
    struct passing passing = none_passed(h);
    struct filling filling = {MOST_STATES, 0};
    size_t bit = edges_begin(h->n);
    size_t e = h->e;
    size_t i = 0;
    for (; i + GROUP <= e && bit / 8 + GROUP_REACH <= length; i += GROUP, bit += GROUP_BITS) {
        unsigned edges[GROUP];
        read_group(file + bit / 8, bit % 8, edges);
        for (size_t k = 0; k < GROUP; k++) {
            pass_field(&passing, edges[k]);
            if (table != NULL)
                fill(table, &filling, edges[k]);
        }
    }
    for (; i < e; i++, bit += EDGE_BITS) {
        unsigned edge = read_one(file, length, bit);
        pass_field(&passing, edge);
        if (table != NULL)
            fill(table, &filling, edge);
    }
    COUNT(edges_decoded, e);
    return verdict(&passing, file, length, h);
}

/* The tests of a file. */

static inline uint64_t test_file(const uint8_t *file, size_t length, struct header *h)
{
    uint64_t fault = test_header(file, length, h);
    return fault != 0 ? fault : test_edges(file, length, h, NULL);
}

/* The same, with the edges put into a table. */
static inline uint64_t test_into_table(const uint8_t *file, size_t length, struct header *h, struct table *table)
{
    uint64_t fault = test_header(file, length, h);
    if (fault != 0)
        return fault;
    table->m = h->m;
    table->all = (label_set)((label_set)-1 >> (MOST_LABELS - h->m));
    memset(table->has, 0, h->n * sizeof *table->has);
    return test_edges(file, length, h, table);
}

static void tell_header(const struct header *h, uint64_t values[4])
{
    values[0] = h->n;
    values[1] = h->m;
    values[2] = h->start;
    values[3] = h->e;
}

uint64_t CALL(check)(const uint8_t *file, size_t file_length,
                     uint64_t values[4])
{
    struct header h;
    uint64_t fault = test_file(file, file_length, &h);
    if (fault == 0)
        tell_header(&h, values);
    return fault;
}

static inline void lay(uint8_t *at, unsigned edge)
{
    at[0] = (uint8_t)source_of(edge);
    at[1] = (uint8_t)label_of(edge);
    at[2] = (uint8_t)target_of(edge);
}

static void read_edges(const uint8_t *file, size_t length, const struct header *h, uint8_t *edges)
{
    size_t bit = edges_begin(h->n);
    size_t e = h->e;
    size_t i = 0;
    for (; i + GROUP <= e && bit / 8 + GROUP_REACH <= length; i += GROUP, bit += GROUP_BITS) {
        unsigned group[GROUP];
        read_group(file + bit / 8, bit % 8, group);
        for (size_t k = 0; k < GROUP; k++)
            lay(edges + 3 * (i + k), group[k]);
    }
    for (; i < e; i++, bit += EDGE_BITS)
        lay(edges + 3 * i, read_one(file, length, bit));
    COUNT(edges_decoded, e);
}

uint64_t CALL(unpack)(const uint8_t *file, size_t file_length,
                      uint8_t *colours, size_t colours_length,
                      uint8_t *edges, size_t edges_length,
                      uint64_t values[4])
{
    struct header h;
    uint64_t fault = test_file(file, file_length, &h);
    if (fault != 0)
        return fault;
    if (colours_length < h.n || edges_length < 3 * h.e)
        return refused(ROOM, 0);
    read_colours(file, file_length, h.n, colours);
    read_edges(file, file_length, &h, edges);
    tell_header(&h, values);
    return 0;
}

/* Packing. */

static uint8_t largest(const uint8_t *values, size_t count)
{
    uint8_t most = 0;
    for (size_t i = 0; i < count; i++)
        most = values[i] > most ? values[i] : most;
    return most;
}

static inline void pass_listed(struct passing *p, const uint8_t *edge)
{
    pass(p, (unsigned)edge[0] << 8 | edge[1], edge[0], edge[1], edge[2]);
}

static uint64_t first_fault_listed(const uint8_t *edges, const struct header *h)
{
    unsigned next = 0;
    uint64_t fault = 0;
    for (size_t i = 0; i < h->e && fault == 0; i++, edges += 3) {
        fault = edge_fault(h, places_in_list(i), edges[0], edges[1], edges[2], next);
        next = ((unsigned)edges[0] << 8 | edges[1]) + 1;
    }
    return fault;
}

static uint64_t test_list(const uint8_t *edges, const struct header *h)
{
    struct passing passing = none_passed(h);
    for (size_t i = 0; i < h->e; i++)
        pass_listed(&passing, edges + 3 * i);
    return all_passed(&passing) ? 0 : first_fault_listed(edges, h);
}

/* As seek_source. */
static size_t seek_source_listed(const uint8_t *edges, const struct header *h, size_t i, size_t source)
{
    size_t end = h->e;
    while (i < end) {
        size_t middle = i + (end - i) / 2;
        if (edges[3 * middle] < source)
            i = middle + 1;
        else
            end = middle;
    }
    return i;
}

/* As first_leaving. */
static uint64_t first_leaving_listed(const uint8_t *colours, const uint8_t *edges, const struct header *h)
{
    size_t i = 0;
    for (size_t s = 0; s < h->n; s++) {
        if (colours[s] != FAULT_COLOUR)
            continue;
        for (i = seek_source_listed(edges, h, i, s); i < h->e && edges[3 * i] == s; i++)
            if (colours[edges[3 * i + 2]] != FAULT_COLOUR)
                return refused(FAULT, i);
    }
    return 0;
}

static uint64_t test_lists(const uint8_t *colours, const uint8_t *edges, size_t edges_length, const struct header *h)
{
    if (h->n < 1 || h->n > MOST_STATES || h->m < 1 || h->m > MOST_LABELS)
        return refused(LISTS, 0);
    uint8_t most = largest(colours, h->n);
    if (most >= COLOURS || edges_length % 3 != 0)
        return refused(LISTS, 0);
    if (h->start >= h->n)
        return refused(START, 0);
    if (h->e > h->n * h->m)
        return refused(EDGE_COUNT, 0);
    uint64_t fault = test_list(edges, h);
    if (fault != 0)
        return fault;
    return HAS_FAULTS && most == FAULT_COLOUR ? first_leaving_listed(colours, edges, h) : 0;
}

static void push_colours(struct writer *to, const uint8_t *colours, size_t n)
{
    for (size_t s = 0; s < n; s++)
        push(to, COLOUR_BITS, colours[s]);
}

/* Writes the file of lists that were tested, or refuses a room that is too short for it. The other file's is for conversions. */
typedef uint64_t write_step(const struct header *h, const uint8_t *colours, const uint8_t *edges,
                            uint8_t *room, size_t room_length, uint64_t values[1]);

write_step CALL(write), OTHERS(write);

uint64_t CALL(write)(const struct header *h, const uint8_t *colours, const uint8_t *edges,
                     uint8_t *room, size_t room_length, uint64_t values[1])
{
    size_t length = bytes_for(file_bits(h->n, h->e));
    if (room_length < length)
        return refused(ANSWER_ROOM, 0);
    struct writer to = {room, 0, 0};
    push_header(&to, h);
    push_colours(&to, colours, h->n);
    for (size_t i = 0; i < h->e; i++)
        push_edge(&to, edges[3 * i], edges[3 * i + 1], edges[3 * i + 2]);
    push_rest(&to);
    values[0] = length;
    return 0;
}

uint64_t CALL(pack)(const uint8_t *colours, size_t colours_length,
                    const uint8_t *edges, size_t edges_length,
                    size_t m, size_t start,
                    uint8_t *room, size_t room_length,
                    uint64_t values[1])
{
    struct header h = {colours_length, m, start, edges_length / 3};
    uint64_t fault = test_lists(colours, edges, edges_length, &h);
    return fault != 0 ? fault : CALL(write)(&h, colours, edges, room, room_length, values);
}

/* Converting. */

enum {
    OTHERS_STATES = 1 << OTHER(STATE_BITS),
    OTHERS_LABELS = 1 << OTHER(LABEL_BITS),
    OTHERS_COLOURS = 1 << OTHER(COLOUR_BITS),
    COMMON_STATES = 1 << POCKET_STATE_BITS, /* the most that both files hold */
    COMMON_EDGES = COMMON_STATES << POCKET_LABEL_BITS
};

uint64_t TO_OTHER(const uint8_t *file, size_t file_length,
                  uint8_t *room, size_t room_length,
                  uint64_t values[1])
{
    uint8_t colours[COMMON_STATES];
    uint8_t edges[3 * COMMON_EDGES];
    struct header h;
    uint64_t fault = test_file(file, file_length, &h);
    if (fault != 0)
        return fault;
    if (h.n > OTHERS_STATES || h.m > OTHERS_LABELS)
        return refused(NOT_POCKET, 0);
    read_colours(file, file_length, h.n, colours);
    if (largest(colours, h.n) >= OTHERS_COLOURS)
        return refused(NOT_POCKET, 0);
    read_edges(file, file_length, &h, edges);
    return OTHERS(write)(&h, colours, edges, room, room_length, values);
}

/* Tracing. */

static size_t first_outside(const uint8_t *observations, size_t count, size_t m)
{
    size_t i = 0;
    while (i < count && observations[i] < m)
        i++;
    return i;
}

/* Answers how many observations were taken. */
static size_t ride(const struct table *table, const uint8_t *hues, size_t start,
                   const uint8_t *observations, size_t count, uint8_t *colours)
{
    size_t state = start;
    for (size_t i = 0; i < count; i++) {
        size_t label = observations[i];
        colours[i] = hues[state];
        COUNT(look_ups, 1);
        if ((table->has[state] >> label & 1) == 0)
            return i;
        state = table->target[state * MOST_LABELS + label];
    }
    colours[count] = hues[state];
    return count;
}

uint64_t CALL(trace)(const uint8_t *file, size_t file_length,
                     const uint8_t *observations, size_t observations_length,
                     uint8_t *colours, size_t colours_length,
                     uint64_t values[2])
{
    struct table table;
    uint8_t hues[MOST_STATES];
    struct header h;
    uint64_t fault = test_into_table(file, file_length, &h, &table);
    if (fault != 0)
        return fault;
    if (observations_length > MOST_OBSERVATIONS || colours_length < observations_length + 1)
        return refused(ROOM, 0);
    /* The largest is found many at a time; only a list that is refused is then searched one by one. */
    if (largest(observations, observations_length) >= h.m)
        return refused(OBSERVATION, first_outside(observations, observations_length, h.m));
    read_colours(file, file_length, h.n, hues);
    size_t taken = ride(&table, hues, h.start, observations, observations_length, colours);
    values[0] = taken < observations_length;
    values[1] = taken < observations_length ? taken : 0;
    return 0;
}

/* Reducing. */

/* Marks the states that the start leads to. Where it leads to all, the search ends with the last of them. */
static void mark_reached(const struct table *table, size_t start, size_t n, uint8_t *reached)
{
    uint8_t waiting[MOST_STATES + 1]; /* each reached state once, and the place behind them is written too */
    size_t count = 1;
    memset(reached, 0, n);
    reached[start] = 1;
    waiting[0] = (uint8_t)start;
    for (size_t i = 0; i < count && count < n; i++) {
        const uint8_t *targets = table->target + waiting[i] * MOST_LABELS;
        for (label_set labels = table->has[waiting[i]]; labels != 0; labels &= labels - 1) {
            uint8_t target = targets[__builtin_ctzll(labels)];
            waiting[count] = target;
            count += !reached[target];
            reached[target] = 1;
        }
    }
}

/*
 * The classes: of each state the name of its class and the next member behind it, NONE for the last. A state that is not reached is in
 * none, and its name is not its own.
 */
struct partition {
    uint8_t name[MOST_STATES];
    uint16_t next[MOST_STATES];
};

/* All reached states of one colour form one class. Answers how many there are. */
static size_t by_colour(struct partition *p, const uint8_t *hues, const uint8_t *reached, size_t n)
{
    uint16_t last[COLOURS]; /* the last member so far of each colour's class */
    memset(last, 0xff, sizeof last);
    size_t count = 0;
    for (size_t s = 0; s < n; s++) {
        if (!reached[s]) {
            p->name[s] = (uint8_t)~s;
            continue;
        }
        size_t before = last[hues[s]];
        if (before == NONE) {
            p->name[s] = (uint8_t)s;
            count++;
        } else {
            p->name[s] = p->name[before];
            p->next[before] = (uint16_t)s;
        }
        p->next[s] = NONE;
        last[hues[s]] = (uint16_t)s;
    }
    return count;
}

/* Whether two states that have all m labels conflict. */
static inline int conflict_full(const uint8_t *name, const uint8_t *from_a, const uint8_t *from_b, size_t m)
{
    for (size_t y = 0; y < m; y++) {
        COUNT(look_ups, 2);
        if (name[from_a[y]] != name[from_b[y]])
            return 1;
    }
    return 0;
}

/* Whether a and b conflict. Only labels that both have are tried, in ascending order. */
static inline int conflict(const struct table *table, const uint8_t *name, size_t a, size_t b)
{
    const uint8_t *from_a = table->target + a * MOST_LABELS;
    const uint8_t *from_b = table->target + b * MOST_LABELS;
    label_set both = table->has[a] & table->has[b];
    COUNT(pair_tests, 1);
    if (both == table->all)
        return conflict_full(name, from_a, from_b, table->m);
    for (; both != 0; both &= both - 1) {
        unsigned y = (unsigned)__builtin_ctzll(both);
        COUNT(look_ups, 2);
        if (name[from_a[y]] != name[from_b[y]])
            return 1;
    }
    return 0;
}

/* Whether class c has a conflicting pair. */
static int has_conflict(const struct partition *p, const struct table *table, size_t c)
{
    for (size_t a = c; a != NONE; a = p->next[a])
        for (size_t b = p->next[a]; b != NONE; b = p->next[b])
            if (conflict(table, p->name, a, b))
                return 1;
    return 0;
}

/* The class with the smallest name that has a conflicting pair; n where there is none. */
static size_t first_parted(const struct partition *p, const struct table *table, size_t n)
{
    COUNT(looks, 1);
    for (size_t c = 0; c < n; c++)
        if (p->name[c] == c && has_conflict(p, table, c))
            return c;
    return n;
}

/* Members of the class that is split, ascending, with the group of each. */
struct groups {
    size_t members;
    size_t groups;
    uint8_t member[MOST_STATES];
    uint8_t group[MOST_STATES];
};

/* The smallest group that no earlier conflicting member of member i has. */
static size_t free_group(const struct groups *g, size_t i, const struct partition *p, const struct table *table)
{
    uint8_t taken[MOST_STATES + 1] = {0};
    for (size_t j = 0; j < i; j++)
        if (!taken[g->group[j]] && conflict(table, p->name, g->member[j], g->member[i]))
            taken[g->group[j]] = 1;
    size_t free = 0;
    while (taken[free])
        free++;
    return free;
}

static void divide(struct groups *g, const struct partition *p, const struct table *table, size_t c)
{
    g->members = 0;
    g->groups = 0;
    for (size_t s = c; s != NONE; s = p->next[s])
        g->member[g->members++] = (uint8_t)s;
    for (size_t i = 0; i < g->members; i++) {
        size_t group = free_group(g, i, p, table);
        g->group[i] = (uint8_t)group;
        if (group == g->groups)
            g->groups++;
    }
}

/* Each group becomes a class, named by its first member. */
static void split(struct partition *p, const struct table *table, size_t c)
{
    struct groups g;
    uint16_t last[MOST_STATES]; /* the last member so far of each group */
    divide(&g, p, table, c);
    memset(last, 0xff, g.groups * sizeof *last);
    for (size_t i = 0; i < g.members; i++) {
        size_t s = g.member[i];
        size_t before = last[g.group[i]];
        if (before == NONE) {
            p->name[s] = (uint8_t)s;
        } else {
            p->name[s] = p->name[before];
            p->next[before] = (uint16_t)s;
        }
        p->next[s] = NONE;
        last[g.group[i]] = (uint16_t)s;
    }
}

/* Rounds until no class has a conflicting pair; answers how many. */
static size_t settle(struct partition *p, const struct table *table, size_t n)
{
    size_t rounds = 0;
    for (size_t c = first_parted(p, table, n); c < n; c = first_parted(p, table, n)) {
        split(p, table, c);
        rounds++;
    }
    return rounds;
}

/* Numbers the classes by ascending name; answers how many there are. */
static size_t number_classes(const struct partition *p, const uint8_t *reached, size_t n, uint16_t *classes)
{
    size_t count = 0;
    for (size_t s = 0; s < n; s++) {
        if (!reached[s])
            classes[s] = NONE;
        else
            classes[s] = p->name[s] == s ? (uint16_t)count++ : classes[p->name[s]];
    }
    return count;
}

/* Gives the first member of each class the edges of the others, and counts the edges of the classes. */
static size_t gather(const struct partition *p, struct table *table, size_t n)
{
    size_t e = 0;
    for (size_t c = 0; c < n; c++) {
        if (p->name[c] != c)
            continue;
        for (size_t s = p->next[c]; s != NONE; s = p->next[s]) {
            for (label_set more = table->has[s] & ~table->has[c]; more != 0; more &= more - 1) {
                unsigned y = (unsigned)__builtin_ctzll(more);
                table->target[c * MOST_LABELS + y] = table->target[s * MOST_LABELS + y];
            }
            table->has[c] |= table->has[s];
        }
        e += (size_t)__builtin_popcountll(table->has[c]);
    }
    return e;
}

static void push_row(struct writer *to, const struct table *table, size_t c, const uint16_t *classes)
{
    for (label_set labels = table->has[c]; labels != 0; labels &= labels - 1) {
        unsigned y = (unsigned)__builtin_ctzll(labels);
        push_edge(to, classes[c], y, classes[table->target[c * MOST_LABELS + y]]);
    }
}

/* Writes the file of the classes. */
static void write_classes(const struct partition *p, const struct table *table, const uint8_t *hues, size_t n,
                          const struct header *reduced, const uint16_t *classes, uint8_t *answer)
{
    struct writer to = {answer, 0, 0};
    push_header(&to, reduced);
    for (size_t c = 0; c < n; c++)
        if (p->name[c] == c)
            push(&to, COLOUR_BITS, hues[c]);
    for (size_t c = 0; c < n; c++)
        if (p->name[c] == c)
            push_row(&to, table, c, classes);
    push_rest(&to);
}

uint64_t CALL(reduce)(const uint8_t *file, size_t file_length,
                      uint8_t *answer, size_t answer_length,
                      uint16_t *classes, size_t classes_length,
                      uint64_t values[4])
{
    struct table table;
    uint8_t hues[MOST_STATES];
    uint8_t reached[MOST_STATES];
    struct partition p;
    struct header h;
    uint64_t fault = test_into_table(file, file_length, &h, &table);
    if (fault != 0)
        return fault;
    if (answer_length < file_length)
        return refused(ANSWER_ROOM, 0);
    if (classes_length < h.n)
        return refused(CLASS_ROOM, 0);
    read_colours(file, file_length, h.n, hues);
    mark_reached(&table, h.start, h.n, reached);
    size_t colours = by_colour(&p, hues, reached, h.n);
    size_t rounds = settle(&p, &table, h.n);
    struct header reduced = {.m = h.m};
    reduced.n = number_classes(&p, reached, h.n, classes);
    reduced.start = classes[h.start];
    reduced.e = gather(&p, &table, h.n);
    write_classes(&p, &table, hues, h.n, &reduced, classes, answer);
    values[0] = reduced.n;
    values[1] = colours;
    values[2] = rounds;
    values[3] = bytes_for(file_bits(reduced.n, reduced.e));
    return 0;
}

