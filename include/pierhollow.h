/*
 * Pierhollow: combinatorial filters, read, written, traced and reduced.
 *
 * Every call returns 0 where it accepts. A refusal returns its place times 256 plus its number: use
 * pierhollow_number() and pierhollow_place(). A place of 2^56 or more, which only a text of that length
 * could have, is told as 2^56 - 1. A refusal changes nothing that was lent to the call: no byte, no entry,
 * no value. Where a call accepts, it writes to the front of its rooms and leaves the rest of them as found.
 *
 * A filter stands in one of two files, which differ in the widths of their fields. Nothing in a file says which of the
 * two it is. Bits, and the most that a file holds:
 *
 *             states  labels  start  edges  colour  edge        most states  labels  colour  bytes
 *   large          8       6      8     15       6  8 + 6 + 8           256      64      63  45253
 *   pocket         4       3      4      8       4  4 + 3 + 4            16       8      15    187
 *
 * The calls whose names begin with pierhollow_pocket_ are for pocket files, to_large and to_pocket make of each file the
 * other, and all others are for large files.
 *
 * Colour 63 tells the driver to shut down, and a fault stays a fault: no edge of a large file leads from a state of colour
 * 63 to a state of another colour, whether or not the start can reach them. Pocket colours end at 15, so that the pocket
 * calls and to_large have no such rule.
 *
 * Of several refusals the first in this order is given. A file's own: 1 to 6; 7, 8 and 9, where the first faulty edge
 * decides; and only where every edge has passed these, 17. Behind them 15 of to_dot or 16 of to_pocket; then 10 to 13, as
 * the call has them. pack: 14, 2, 3, then 7, 8 and 9, then 17, then 10. from_dot: 15, then those of pack.
 *
 * Of a file that is refused with 7, 8, 9 or 17 the place is a bit's position: the first bit of the faulty field, counted
 * from 0, from the first byte on and within a byte from the highest bit. Byte place / 8 has it, place % 8 bits from
 * the left; a source or target has 8 bits, a label 6, in a pocket file 4 and 3. Both packs and from_dot, which have no
 * bits, give the edge's index, counted from 0.
 *
 * A room is a pointer and the number of its elements. NULL with 0 elements is an empty room, and nothing
 * else may be NULL. What is lent to be written must not overlap anything else that is lent to the same
 * call. The calls keep no state, allocate nothing and may be made from several threads at once. The archive
 * needs memcpy and memset of the C library and nothing else. It has an object each for large files, for pocket files
 * and for the two that turn one into the other, so that a program links only those that it calls.
 *
 * Values come back in an array of fixed length; each call says which value stands at which index.
 */
#ifndef PIERHOLLOW_H
#define PIERHOLLOW_H

#include <stddef.h>
#include <stdint.h>

#ifdef __cplusplus
extern "C" {
#endif

/* The numbers of refusal. */
enum pierhollow_refusal {
    PIERHOLLOW_ACCEPTED = 0,
    PIERHOLLOW_TOO_SHORT = 1,    /* fewer than 5 bytes, of a pocket file 3 */
    PIERHOLLOW_START = 2,        /* start is n or more */
    PIERHOLLOW_EDGE_COUNT = 3,   /* e exceeds n times m */
    PIERHOLLOW_MISSING = 4,      /* fewer bytes than the file's length */
    PIERHOLLOW_EXCESS = 5,       /* more bytes than the file's length */
    PIERHOLLOW_FILLING = 6,      /* a filling bit is not 0 */
    PIERHOLLOW_OUTSIDE = 7,      /* an edge's source or target is n or more, or its label m or more; place: the first such field */
    PIERHOLLOW_ORDER = 8,        /* an edge comes before the edge before it; place: the edge's source */
    PIERHOLLOW_REPEATED = 9,     /* an edge has source and label of the edge before it; place: the edge's source */
    PIERHOLLOW_ANSWER_ROOM = 10, /* reduce: answer room shorter than the file; pack, from_dot, to_dot, to_large, to_pocket: shorter
                                    than what is written */
    PIERHOLLOW_CLASS_ROOM = 11,  /* reduce: fewer class entries than n */
    PIERHOLLOW_ROOM = 12,        /* unpack: a room is too short; trace: more than 65,535 observations or a short room */
    PIERHOLLOW_OBSERVATION = 13, /* trace: an observation is m or more; place: the index of the first */
    PIERHOLLOW_LISTS = 14,       /* pack: not 1 to 256 colours, m not 1 to 64, a colour above 63, or edge bytes no multiple of 3;
                                    pocket_pack: the same with 16, 8 and 15;
                                    from_dot: not 1 to 256 states, or a colour or a label above 63 */
    PIERHOLLOW_DRAWING = 15,     /* from_dot: text outside the profile; place: the length of the text's longest beginning that some
                                    text of the profile also has; to_dot: start is not 0, or m not the largest label plus one
                                    (without edges: not 1) */
    PIERHOLLOW_POCKET = 16,      /* to_pocket: n above 16, m above 8, or a colour above 15 */
    PIERHOLLOW_LEAVING = 17      /* an edge leads from a state of colour 63 to a state of another colour; place: the first such
                                    edge's source */
};

/* The refusal's number in what a call returned; 0 for accepted. */
static inline unsigned pierhollow_number(uint64_t returned)
{
    return (unsigned)(returned % 256);
}

/* The refusal's place in what a call returned. A bit position of the largest file is below 362,024. */
static inline uint64_t pierhollow_place(uint64_t returned)
{
    return returned / 256;
}

/* The longest large file and the longest drawing of one, in bytes, and the most states and labels that a large file has. */
#define PIERHOLLOW_LONGEST_FILE 45253
#define PIERHOLLOW_LONGEST_DRAWING 371230
#define PIERHOLLOW_MOST_STATES 256
#define PIERHOLLOW_MOST_LABELS 64

/* The colour that tells the driver to shut down: no edge of a large file leads from it to another. */
#define PIERHOLLOW_FAULT_COLOUR 63

/* The longest pocket file in bytes, and the most states and labels that it has. */
#define PIERHOLLOW_POCKET_LONGEST_FILE 187
#define PIERHOLLOW_POCKET_MOST_STATES 16
#define PIERHOLLOW_POCKET_MOST_LABELS 8

/* What the class list has for a state that the start cannot reach. */
#define PIERHOLLOW_DROPPED 65535

/*
 * Reads the numbers of a large file.
 * values: 0 states (n), 1 labels (m), 2 start, 3 edges (e).
 */
uint64_t pierhollow_check(const uint8_t *file, size_t file_length,
                          uint64_t values[4]);

/*
 * The same, with the first n bytes of colours and the first 3e bytes of edges filled: a colour a state; source, label and
 * target an edge.
 * values: 0 states (n), 1 labels (m), 2 start, 3 edges (e).
 */
uint64_t pierhollow_unpack(const uint8_t *file, size_t file_length,
                           uint8_t *colours, size_t colours_length,
                           uint8_t *edges, size_t edges_length,
                           uint64_t values[4]);

/*
 * Writes the large file of a colour list, an edge list (three bytes an edge), m and a start.
 * values: 0 the file's length in bytes.
 */
uint64_t pierhollow_pack(const uint8_t *colours, size_t colours_length,
                         const uint8_t *edges, size_t edges_length,
                         size_t m, size_t start,
                         uint8_t *room, size_t room_length,
                         uint64_t values[1]);

/*
 * Traces observations, a byte each, from the start, and writes the colours that are shown: the start's, and one after each
 * observation up to the first without an edge. The room has observations + 1 bytes or more, wherever the ride stops.
 * values: 0 is 0 where all is traced and 1 where the ride stops; 1 the index of the observation that it stops at, else 0.
 */
uint64_t pierhollow_trace(const uint8_t *file, size_t file_length,
                          const uint8_t *observations, size_t observations_length,
                          uint8_t *colours, size_t colours_length,
                          uint64_t values[2]);

/*
 * Reduces a large file: writes the reduced file, which is never longer than the original, and the new number of each of
 * the n states. States that the start cannot reach take no part: they keep no other states apart, the reduced file has
 * neither them nor their edges, and their new number is PIERHOLLOW_DROPPED. They count for the rooms: the answer room has as
 * many bytes as the file or more, the class list n entries or more. In the reduced file too a fault stays a fault.
 * values: 0 reduced states, 1 distinct colours of the states that can be reached, 2 rounds, 3 the reduced file's length in
 * bytes.
 */
uint64_t pierhollow_reduce(const uint8_t *file, size_t file_length,
                           uint8_t *answer, size_t answer_length,
                           uint16_t *classes, size_t classes_length,
                           uint64_t values[4]);

/*
 * Pocket files. Each call is that of the same name without pocket, with the pocket file's widths: what it reads and what it
 * writes are pocket files, and rooms and values are as above.
 */
uint64_t pierhollow_pocket_check(const uint8_t *file, size_t file_length,
                                 uint64_t values[4]);

uint64_t pierhollow_pocket_unpack(const uint8_t *file, size_t file_length,
                                  uint8_t *colours, size_t colours_length,
                                  uint8_t *edges, size_t edges_length,
                                  uint64_t values[4]);

uint64_t pierhollow_pocket_pack(const uint8_t *colours, size_t colours_length,
                                const uint8_t *edges, size_t edges_length,
                                size_t m, size_t start,
                                uint8_t *room, size_t room_length,
                                uint64_t values[1]);

uint64_t pierhollow_pocket_trace(const uint8_t *file, size_t file_length,
                                 const uint8_t *observations, size_t observations_length,
                                 uint8_t *colours, size_t colours_length,
                                 uint64_t values[2]);

uint64_t pierhollow_pocket_reduce(const uint8_t *file, size_t file_length,
                                  uint8_t *answer, size_t answer_length,
                                  uint16_t *classes, size_t classes_length,
                                  uint64_t values[4]);

/*
 * Writes the large file of a pocket file's filter; to_pocket gives the pocket file back. Refusals: the file's own, then 10.
 * values: 0 the large file's length in bytes.
 */
uint64_t pierhollow_to_large(const uint8_t *file, size_t file_length,
                             uint8_t *room, size_t room_length,
                             uint64_t values[1]);

/*
 * Writes the pocket file of a large file's filter; to_large gives the large file back. Refusals: the file's own, 17 among
 * them, then 16 with place 0, then 10.
 * values: 0 the pocket file's length in bytes.
 */
uint64_t pierhollow_to_pocket(const uint8_t *file, size_t file_length,
                              uint8_t *room, size_t room_length,
                              uint64_t values[1]);

/*
 * Drawings are texts of a narrow profile of Graphviz's DOT. The line "digraph {"; a line "3 [label=1];" a state, with its
 * colour, the states ascending from 0 with none missing; a line "0 -> 2 [label=1];" an edge; the line "}". Every line ends
 * in one newline byte; numbers are decimal, one to three digits, without leading zeros; spaces as shown. The start is state
 * 0, and m is the largest label plus one, or 1 without edges. The two calls read and write large files.
 */

/*
 * Writes the file of a drawing. Refusals: 15, then those of pack: 14, 3, then 7, 8 and 9 with the edge's index, then 17 with
 * the edge's index, then 10.
 * values: 0 the file's length in bytes.
 */
uint64_t pierhollow_from_dot(const uint8_t *text, size_t text_length,
                             uint8_t *room, size_t room_length,
                             uint64_t values[1]);

/*
 * Writes the drawing of a file, edges in file order; from_dot gives the file back. Refusals: the file's own, 17 among them,
 * then 15 with place 0, then 10.
 * values: 0 the drawing's length in bytes.
 */
uint64_t pierhollow_to_dot(const uint8_t *file, size_t file_length,
                           uint8_t *room, size_t room_length,
                           uint64_t values[1]);

#ifdef __cplusplus
}
#endif

#endif
