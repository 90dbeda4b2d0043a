/* The filters that the benchmark runs on, each from a fixed seed or from none. */
#ifndef FAMILIES_H
#define FAMILIES_H

#include <stddef.h>
#include <stdint.h>

enum {
    MOST_STATES = 256,
    MOST_LABELS = 64,
    MOST_EDGES = MOST_STATES * MOST_LABELS,
    LONGEST_FILE = 45253,
    FAULT_COLOUR = 63 /* which no edge of a large file may leave */
};

struct filter {
    size_t n, m, start, e;
    uint8_t colours[MOST_STATES];
    uint8_t edges[3 * MOST_EDGES];
};

/* Random numbers: the same ones from the same seed on every machine. */
uint64_t random_next(uint64_t *seed);
size_t random_below(uint64_t *seed, size_t limit);

/* Makes a filter of n states and m labels; most need no seed. */
typedef void maker(struct filter *f, size_t n, size_t m, uint64_t seed);

/* No edge at all, and one colour. With one state and one label it is the smallest file. */
maker make_bare;

/*
 * State i leads to the next one by the last label; only the last state has a colour of its own, and leads back to 0. One state is parted
 * a round. Each other label leads to one state from everywhere, so no pair test ends before the last label.
 */
maker make_chain;

/* Every state has every label; targets and four colours at random. */
maker make_dense;

/* Each state has four labels, or a quarter of them where that is less; labels, targets and two colours at random. */
maker make_sparse;

/*
 * Every state has every label; targets and four colours at random. The start leads to every fourth state and to no other: the rest are
 * leftovers, which lead anywhere.
 */
maker make_leftovers;

/*
 * All states but the last have one colour and every label, by which they lead to the last state or to the next one as the bits of their
 * number say. So any two of them conflict, and a round parts them all, if there are as many labels as such a number has bits.
 */
maker make_crowd;

/*
 * The last state is a fault, and all its edges stay there. Every other state has every label: by the last one it leads to the fault, by
 * the others anywhere else; targets and four colours at random.
 */
maker make_fault;

/*
 * Filters over an annulus of as many regions as beams, as sets of possible states. Beam i stands between region i and the next one
 * round; it tells that some agent has crossed it, but neither which nor in what direction. One agent, at first anywhere: is it in
 * region 0? Two agents: are they in the same region? The colours are 0 and 1 for the question's two answers, 2 for unknown. The labels are
 * the beams, and n is how many sets there have to be.
 */
maker make_one_agent;
maker make_two_agents_together; /* at first in the same region, whichever */
maker make_two_agents_anywhere; /* at first each may be anywhere */

/* A filter of at most so many states and labels with any edges at all. */
void make_any(struct filter *f, size_t most_states, size_t most_labels, uint64_t *seed);

/* Three states of one label. Two bits a state, from the lowest on, say where it leads to; 3 is nowhere. */
void make_three(struct filter *f, unsigned targets);

/* Leads each edge that leaves a fault back to where it comes from. */
void seal_faults(struct filter *f);

/* A ride of so many observations that takes a random edge of each state that it comes to; behind a state without edges, label 0. */
void make_ride(const struct filter *f, uint8_t *observations, size_t count, uint64_t seed);

#endif
