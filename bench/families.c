#include "families.h"

#include <stdio.h>
#include <stdlib.h>
#include <string.h>

uint64_t random_next(uint64_t *seed)
{
    uint64_t x = *seed;
    x ^= x << 13;
    x ^= x >> 7;
    x ^= x << 17;
    *seed = x;
    return x;
}

size_t random_below(uint64_t *seed, size_t limit)
{
    return (size_t)((random_next(seed) >> 16) % limit);
}

static void give_up(const char *why)
{
    fprintf(stderr, "families: %s\n", why);
    exit(2);
}

static void begin(struct filter *f, size_t n, size_t m)
{
    memset(f, 0, sizeof *f);
    f->n = n;
    f->m = m;
}

static void add_edge(struct filter *f, size_t source, size_t label, size_t target)
{
    uint8_t *at = f->edges + 3 * f->e++;
    at[0] = (uint8_t)source;
    at[1] = (uint8_t)label;
    at[2] = (uint8_t)target;
}

static void colour_at_random(struct filter *f, size_t colours, uint64_t *seed)
{
    for (size_t s = 0; s < f->n; s++)
        f->colours[s] = (uint8_t)random_below(seed, colours);
}

void make_bare(struct filter *f, size_t n, size_t m, uint64_t seed)
{
    (void)seed;
    begin(f, n, m);
}

void make_chain(struct filter *f, size_t n, size_t m, uint64_t seed)
{
    (void)seed;
    begin(f, n, m);
    f->colours[n - 1] = 1;
    for (size_t s = 0; s < n; s++) {
        for (size_t y = 0; y < m - 1; y++)
            add_edge(f, s, y, y * n / m);
        add_edge(f, s, m - 1, (s + 1) % n);
    }
}

void make_dense(struct filter *f, size_t n, size_t m, uint64_t seed)
{
    begin(f, n, m);
    colour_at_random(f, 4, &seed);
    for (size_t s = 0; s < n; s++)
        for (size_t y = 0; y < m; y++)
            add_edge(f, s, y, random_below(&seed, n));
}

/* A set of `count` different labels, a bit each. */
static uint64_t some_labels(size_t count, size_t m, uint64_t *seed)
{
    uint64_t labels = 0;
    while (count > 0) {
        uint64_t label = (uint64_t)1 << random_below(seed, m);
        count -= (labels & label) == 0;
        labels |= label;
    }
    return labels;
}

void make_sparse(struct filter *f, size_t n, size_t m, uint64_t seed)
{
    begin(f, n, m);
    colour_at_random(f, 2, &seed);
    for (size_t s = 0; s < n; s++) {
        uint64_t labels = some_labels(m < 16 ? m / 4 : 4, m, &seed);
        for (size_t y = 0; y < m; y++)
            if (labels >> y & 1)
                add_edge(f, s, y, random_below(&seed, n));
    }
}

void make_leftovers(struct filter *f, size_t n, size_t m, uint64_t seed)
{
    begin(f, n, m);
    colour_at_random(f, 4, &seed);
    for (size_t s = 0; s < n; s++) {
        int live = s % 4 == 0;
        add_edge(f, s, 0, live ? (s + 4) % n : random_below(&seed, n));
        for (size_t y = 1; y < m; y++)
            add_edge(f, s, y, live ? 4 * random_below(&seed, n / 4) : random_below(&seed, n));
    }
}

void make_crowd(struct filter *f, size_t n, size_t m, uint64_t seed)
{
    (void)seed;
    begin(f, n, m);
    f->colours[n - 1] = 1;
    for (size_t s = 0; s + 1 < n; s++)
        for (size_t y = 0; y < m; y++)
            add_edge(f, s, y, s >> y & 1 ? n - 1 : (s + 1) % (n - 1));
}

void make_fault(struct filter *f, size_t n, size_t m, uint64_t seed)
{
    begin(f, n, m);
    colour_at_random(f, 4, &seed);
    for (size_t s = 0; s < n; s++) {
        int is_fault = s + 1 == n;
        if (is_fault)
            f->colours[s] = FAULT_COLOUR;
        for (size_t y = 0; y < m; y++)
            add_edge(f, s, y, is_fault || y + 1 == m ? n - 1 : random_below(&seed, n - 1));
    }
}

void make_any(struct filter *f, size_t most_states, size_t most_labels, uint64_t *seed)
{
    begin(f, 1 + random_below(seed, most_states), 1 + random_below(seed, most_labels));
    f->start = random_below(seed, f->n);
    colour_at_random(f, 1 + random_below(seed, 4), seed);
    size_t eighths = random_below(seed, 9);
    for (size_t s = 0; s < f->n; s++)
        for (size_t y = 0; y < f->m; y++)
            if (random_below(seed, 8) < eighths)
                add_edge(f, s, y, random_below(seed, f->n));
}

void make_three(struct filter *f, unsigned targets)
{
    begin(f, 3, 1);
    for (size_t s = 0; s < f->n; s++, targets >>= 2)
        if (targets % 4 < f->n)
            add_edge(f, s, 0, targets % 4);
}

void seal_faults(struct filter *f)
{
    for (uint8_t *edge = f->edges; edge < f->edges + 3 * f->e; edge += 3)
        if (f->colours[edge[0]] == FAULT_COLOUR && f->colours[edge[2]] != FAULT_COLOUR)
            edge[2] = edge[0];
}

/* A set of states of the world, a bit each: regions, or pairs of regions. */
typedef uint64_t set;

struct world {
    size_t beams;
    size_t states;
    set (*after)(const struct world *world, size_t state, size_t beam);
    int (*answer)(const struct world *world, size_t state);
};

/* The region behind the beam, or as many as there are where the beam is not at the region's edge. */
static size_t behind(size_t beams, size_t region, size_t beam)
{
    size_t next = (beam + 1) % beams;
    if (region == next)
        return beam;
    return region == beam ? next : beams;
}

static set one_after(const struct world *world, size_t region, size_t beam)
{
    size_t to = behind(world->beams, region, beam);
    return to < world->beams ? (set)1 << to : 0;
}

static int in_target_region(const struct world *world, size_t region)
{
    (void)world;
    return region == 0;
}

static set two_after(const struct world *world, size_t pair, size_t beam)
{
    size_t k = world->beams;
    size_t one = pair / k;
    size_t other = pair % k;
    size_t one_to = behind(k, one, beam);
    size_t other_to = behind(k, other, beam);
    set to = 0;
    if (one_to < k)
        to |= (set)1 << (one_to * k + other);
    if (other_to < k)
        to |= (set)1 << (one * k + other_to);
    return to;
}

static int together(const struct world *world, size_t pair)
{
    return pair / world->beams == pair % world->beams;
}

static set all_after(const struct world *world, set from, size_t beam)
{
    set to = 0;
    for (size_t s = 0; s < world->states; s++)
        if (from >> s & 1)
            to |= world->after(world, s, beam);
    return to;
}

static uint8_t colour_of(const struct world *world, set states, int if_no, int if_yes)
{
    int seen[2] = {0, 0};
    for (size_t s = 0; s < world->states; s++)
        if (states >> s & 1)
            seen[world->answer(world, s)] = 1;
    if (seen[0] && seen[1])
        return 2;
    return (uint8_t)(seen[1] ? if_yes : if_no);
}

/* The number of a set among those met so far; a new one is met last. */
static size_t number_of(set *met, size_t *count, set states)
{
    for (size_t i = 0; i < *count; i++)
        if (met[i] == states)
            return i;
    if (*count == MOST_STATES)
        give_up("more sets of states than a file holds");
    met[*count] = states;
    return (*count)++;
}

/* All sets that the first one leads to, numbered as first met; there have to be n. */
static void track(struct filter *f, const struct world *world, set first, int if_no, int if_yes, size_t n)
{
    set met[MOST_STATES] = {first};
    size_t count = 1;
    begin(f, n, world->beams);
    for (size_t source = 0; source < count; source++) {
        f->colours[source] = colour_of(world, met[source], if_no, if_yes);
        for (size_t beam = 0; beam < world->beams; beam++) {
            set to = all_after(world, met[source], beam);
            if (to != 0)
                add_edge(f, source, beam, number_of(met, &count, to));
        }
    }
    if (count != n)
        give_up("not as many sets of states as there have to be");
}

void make_one_agent(struct filter *f, size_t n, size_t beams, uint64_t seed)
{
    (void)seed;
    struct world world = {beams, beams, one_after, in_target_region};
    track(f, &world, ~(set)0 >> (64 - beams), 0, 1, n);
}

void make_two_agents_together(struct filter *f, size_t n, size_t beams, uint64_t seed)
{
    (void)seed;
    struct world world = {beams, beams * beams, two_after, together};
    set first = 0;
    for (size_t region = 0; region < beams; region++)
        first |= (set)1 << (region * beams + region);
    track(f, &world, first, 1, 0, n);
}

void make_two_agents_anywhere(struct filter *f, size_t n, size_t beams, uint64_t seed)
{
    (void)seed;
    struct world world = {beams, beams * beams, two_after, together};
    track(f, &world, ~(set)0 >> (64 - beams * beams), 1, 0, n);
}

/* Where the edges of each state begin in the list; the entry behind the last state's is e. */
static void index_edges(const struct filter *f, size_t begins[MOST_STATES + 1])
{
    size_t i = 0;
    for (size_t s = 0; s <= f->n; s++) {
        while (i < f->e && f->edges[3 * i] < s)
            i++;
        begins[s] = i;
    }
}

void make_ride(const struct filter *f, uint8_t *observations, size_t count, uint64_t seed)
{
    size_t begins[MOST_STATES + 1];
    index_edges(f, begins);
    size_t state = f->start;
    memset(observations, 0, count);
    for (size_t i = 0; i < count && begins[state] < begins[state + 1]; i++) {
        size_t edge = begins[state] + random_below(&seed, begins[state + 1] - begins[state]);
        observations[i] = f->edges[3 * edge + 1];
        state = f->edges[3 * edge + 2];
    }
}
