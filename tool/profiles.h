/* The two filter files, which differ in the widths of their fields and in the calls that read them. */
#ifndef PROFILES_H
#define PROFILES_H

#include <stddef.h>
#include <stdint.h>

/* Widths are in bits. An edge's source and target are as wide as the number of states, its label as that of labels. */
struct profile {
    unsigned states;
    unsigned labels;
    unsigned start;
    unsigned edges;
    unsigned colour;
    size_t longest_file;
    uint64_t (*check)(const uint8_t *file, size_t file_length, uint64_t values[4]);
    uint64_t (*trace)(const uint8_t *file, size_t file_length, const uint8_t *observations, size_t observations_length,
                      uint8_t *colours, size_t colours_length, uint64_t values[2]);
    uint64_t (*reduce)(const uint8_t *file, size_t file_length, uint8_t *answer, size_t answer_length,
                       uint16_t *classes, size_t classes_length, uint64_t values[4]);
};

extern const struct profile large;
extern const struct profile pocket;

/* Bits of the four numbers that stand before the colours. */
unsigned header_bits(const struct profile *profile);

/* Bits of an edge. */
unsigned edge_bits(const struct profile *profile);

#endif
