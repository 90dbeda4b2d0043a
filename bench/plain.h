/*
 * The calls of pierhollow.h once more, as plain C written for speed: the yardstick of the benchmark, with no proofs. Arguments,
 * answers and refusals are those that pierhollow.h describes.
 */
#ifndef PLAIN_H
#define PLAIN_H

#include <stddef.h>
#include <stdint.h>

/* What a call takes, the same of both files and on both sides of the benchmark. */

typedef uint64_t check_call(const uint8_t *file, size_t file_length,
                            uint64_t values[4]);

typedef uint64_t unpack_call(const uint8_t *file, size_t file_length,
                             uint8_t *colours, size_t colours_length,
                             uint8_t *edges, size_t edges_length,
                             uint64_t values[4]);

typedef uint64_t pack_call(const uint8_t *colours, size_t colours_length,
                           const uint8_t *edges, size_t edges_length,
                           size_t m, size_t start,
                           uint8_t *room, size_t room_length,
                           uint64_t values[1]);

typedef uint64_t trace_call(const uint8_t *file, size_t file_length,
                            const uint8_t *observations, size_t observations_length,
                            uint8_t *colours, size_t colours_length,
                            uint64_t values[2]);

typedef uint64_t reduce_call(const uint8_t *file, size_t file_length,
                             uint8_t *answer, size_t answer_length,
                             uint16_t *classes, size_t classes_length,
                             uint64_t values[4]);

/* One file or text made into another. */
typedef uint64_t convert_call(const uint8_t *input, size_t input_length,
                              uint8_t *room, size_t room_length,
                              uint64_t values[1]);

check_call plain_check, plain_pocket_check;
unpack_call plain_unpack, plain_pocket_unpack;
pack_call plain_pack, plain_pocket_pack;
trace_call plain_trace, plain_pocket_trace;
reduce_call plain_reduce, plain_pocket_reduce;
convert_call plain_from_dot, plain_to_dot, plain_to_large, plain_to_pocket;

/* Work done since the counters were last set to 0. Only sources that are compiled with PLAIN_COUNT count; bench.c then has the counters. */
struct plain_counts {
    uint64_t edges_decoded; /* edges taken from a file's bits */
    uint64_t pair_tests;    /* pairs of states asked whether they conflict */
    uint64_t look_ups;      /* entries of the table of edges read while tracing or testing pairs */
    uint64_t looks;         /* searches for a class with a conflicting pair */
};

extern struct plain_counts plain_counts;

#endif
