/*
 * Every call of the library from C: the values at their documented places, refusals with number and place, and rooms that a
 * refusal leaves as found. The cases are document 01's rides K, P, Q and R, K with faulty edges, each as a large file and as
 * a pocket file, ride K drawn, one file turned into the other, and faults that are left and that are kept.
 */
#include <stdio.h>
#include <string.h>

#include "pierhollow.h"

static const uint8_t k_file[18] = {0x02, 0x04, 0x00, 0x00, 0x20, 0x00, 0x82, 0x00, 0x00,
                                   0x08, 0x00, 0x20, 0x40, 0x20, 0x00, 0x01, 0x02, 0x00};
static const uint8_t k_reduced[18] = {0x01, 0x04, 0x00, 0x00, 0x20, 0x00, 0x80, 0x00, 0x02,
                                      0x00, 0x08, 0x08, 0x08, 0x00, 0x00, 0x20, 0x80, 0x00};
static const uint8_t k_colours[3] = {0, 1, 1};
static const uint8_t k_edges[12] = {0, 0, 1, 0, 1, 2, 1, 0, 0, 2, 1, 0};
static const uint8_t p_file[13] = {0x02, 0x00, 0x00, 0x00, 0x10, 0x00, 0x02, 0x00, 0x00, 0x00, 0x08, 0x00, 0x40};
static const uint8_t p_reduced[9] = {0x00, 0x00, 0x00, 0x00, 0x08, 0x00, 0x00, 0x00, 0x00};

/* The same as pocket files. Behind a bar begins a byte, behind a dot a field.
 *
 * K, n - 1 = 2, m - 1 = 1, start 0, e = 4:  0010.001.0|000.00000|100.
 * colours 0 1 1:                            0000.0|001.0001.
 * edges (0,0,1) (0,1,2) (1,0,0) (2,1,0):    0|000.000.00|01. 0000.00|1.0010. 000|1.000.0000| 0010.001.0|000. and 00000 fill it up.
 */
static const uint8_t k_pocket[10] = {0x22, 0x00, 0x80, 0x22, 0x00, 0x40, 0x90, 0x80, 0x22, 0x00};
/* K reduced, n - 1 = 1, as above:           0001.001.0|000.00000|100.
 * colours 0 1:                              0000.0|001.
 * edges (0,0,1) (0,1,1) (1,0,0) (1,1,0):    0000.0|00.0001. 00|00.001.000|1. 0001.000.|0000. 0001|001.0000. and 0 fills it up.
 */
static const uint8_t k_pocket_reduced[9] = {0x12, 0x00, 0x80, 0x20, 0x04, 0x08, 0x88, 0x01, 0x20};
/* P, n - 1 = 2, m - 1 = 0, start 0, e = 2:  0010.000.0|000.00000|010.
 * colours 0 0 1:                            0000.0|000.0001.
 * edges (0,0,0) (1,0,2):                    0|000.000.00|00. 0001.00|0.0010. and 000 fill it up.
 */
static const uint8_t p_pocket[7] = {0x20, 0x00, 0x40, 0x02, 0x00, 0x04, 0x10};
/* P reduced, all 0 but e = 1:               0000.000.0|000.00000|001. 0000.0|000.000.00|00. and 000000 fill it up. */
static const uint8_t p_pocket_reduced[5] = {0x00, 0x00, 0x20, 0x00, 0x00};

#define THREE_STATES "digraph {\n0 [label=0];\n1 [label=1];\n2 [label=1];\n"
#define K_EDGES "0 -> 1 [label=0];\n0 -> 2 [label=1];\n1 -> 0 [label=0];\n2 -> 0 [label=1];\n"
static const char k_drawing[] = THREE_STATES K_EDGES "}\n";

/* A fault that is kept: K with colour 63 for states 1 and 2, which lead to each other.
 *
 * header as K's, colours 0 63 63:           00000010|000001.00|000000.00|00000000|00100. 000|000.11111|1.111111.
 * edges (0,0,1) (0,1,2) (1,0,2) (2,1,1):    0|0000000.0|00000.000|00001. 000|00000.000|001.00000|010. 00000|001.00000|0.0000001|0.
 *                                           0000001|0.000001.0|0000001. and 0 fills it up.
 */
static const uint8_t kept_file[18] = {0x02, 0x04, 0x00, 0x00, 0x20, 0x1F, 0xFE, 0x00, 0x00,
                                      0x08, 0x00, 0x20, 0x40, 0x20, 0x01, 0x01, 0x02, 0x02};
static const uint8_t kept_colours[3] = {0, PIERHOLLOW_FAULT_COLOUR, PIERHOLLOW_FAULT_COLOUR};
static const uint8_t kept_edges[12] = {0, 0, 1, 0, 1, 2, 1, 0, 2, 2, 1, 1};
static const char kept_drawing[] = "digraph {\n0 [label=0];\n1 [label=63];\n2 [label=63];\n"
                                   "0 -> 1 [label=0];\n0 -> 2 [label=1];\n1 -> 2 [label=0];\n2 -> 1 [label=1];\n}\n";
/* Reduced, n - 1 = 1, as K reduced:         00000001|000001.00|000000.00|00000000|00100. 000|000.11111|1.
 * edges (0,0,1) (0,1,1) (1,0,1) (1,1,1):    0000000|0.000000.0|0000001. 0|0000000.0|00001.000|00001. 000|00001.000|000.00000|001.
 *                                           00000|001.00000|1.0000000|1. and 0000000 fill it up.
 */
static const uint8_t kept_reduced[18] = {0x01, 0x04, 0x00, 0x00, 0x20, 0x1F, 0x80, 0x00, 0x02,
                                         0x00, 0x08, 0x08, 0x08, 0x00, 0x20, 0x20, 0x80, 0x80};

struct bytes {
    const uint8_t *at;
    size_t length;
};
#define BYTES(array) {array, sizeof array}

/* A call that makes of one file or text another, and answers its length. */
typedef uint64_t turning(const uint8_t *from, size_t from_length, uint8_t *room, size_t room_length, uint64_t values[1]);

/* One of the two files: its calls, the most that it holds, and the rides in it. */
struct profile {
    const char *name;
    uint64_t (*check)(const uint8_t *file, size_t file_length, uint64_t values[4]);
    uint64_t (*unpack)(const uint8_t *file, size_t file_length, uint8_t *colours, size_t colours_length,
                       uint8_t *edges, size_t edges_length, uint64_t values[4]);
    uint64_t (*pack)(const uint8_t *colours, size_t colours_length, const uint8_t *edges, size_t edges_length,
                     size_t m, size_t start, uint8_t *room, size_t room_length, uint64_t values[1]);
    uint64_t (*trace)(const uint8_t *file, size_t file_length, const uint8_t *observations, size_t observations_length,
                      uint8_t *colours, size_t colours_length, uint64_t values[2]);
    uint64_t (*reduce)(const uint8_t *file, size_t file_length, uint8_t *answer, size_t answer_length,
                       uint16_t *classes, size_t classes_length, uint64_t values[4]);
    turning *to_the_other;
    turning *to_dot; /* NULL: it has no drawing */
    size_t header_length;
    size_t most_states;
    size_t most_labels;
    uint8_t highest_colour;
    size_t length_without_edges; /* of a file with the most states */
    struct bytes k, k_reduced, p, p_reduced;
};

static const struct profile large = {
    "large file",
    pierhollow_check, pierhollow_unpack, pierhollow_pack, pierhollow_trace, pierhollow_reduce, pierhollow_to_pocket,
    pierhollow_to_dot,
    5, 256, 64, 63, 197, /* 37 + 6 * 256 = 1573 bits */
    BYTES(k_file), BYTES(k_reduced), BYTES(p_file), BYTES(p_reduced)};

static const struct profile pocket = {
    "pocket file",
    pierhollow_pocket_check, pierhollow_pocket_unpack, pierhollow_pocket_pack, pierhollow_pocket_trace,
    pierhollow_pocket_reduce, pierhollow_to_large, NULL,
    3, 16, 8, 15, 11, /* 19 + 4 * 16 = 83 bits */
    BYTES(k_pocket), BYTES(k_pocket_reduced), BYTES(p_pocket), BYTES(p_pocket_reduced)};

static const char *subject;
static int checks;
static int failures;

static void expect(int holds, const char *what)
{
    checks++;
    if (!holds) {
        failures++;
        printf("FAILED: %s: %s\n", subject, what);
    }
}

static void expect_refusal(uint64_t returned, unsigned number, uint64_t place, const char *what)
{
    expect(pierhollow_number(returned) == number && pierhollow_place(returned) == place, what);
}

static int all(const uint8_t *bytes, size_t length, uint8_t value)
{
    for (size_t i = 0; i < length; i++)
        if (bytes[i] != value)
            return 0;
    return 1;
}

static int values_are(const uint64_t *values, size_t count, const uint64_t *wanted)
{
    return memcmp(values, wanted, count * sizeof *values) == 0;
}

static void check(const struct profile *of)
{
    static const uint8_t zeros[5] = {0};
    uint64_t values[4] = {9, 9, 9, 9};
    expect_refusal(of->check(NULL, 0, values), PIERHOLLOW_TOO_SHORT, 0, "check of no bytes");
    expect_refusal(of->check(zeros, of->header_length - 1, values), PIERHOLLOW_TOO_SHORT, 0, "check of a header cut off");
    expect_refusal(of->check(of->k.at, of->header_length, values), PIERHOLLOW_MISSING, 0, "check of a header alone");
    expect_refusal(of->check(of->k.at, of->k.length - 1, values), PIERHOLLOW_MISSING, 0, "check of K cut off");
    expect(values_are(values, 4, (const uint64_t[4]){9, 9, 9, 9}), "check: a refusal leaves the values");
    expect(of->check(of->k.at, of->k.length, values) == 0, "check of K");
    expect(values_are(values, 4, (const uint64_t[4]){3, 2, 0, 4}), "check: n, m, start, e");
}

/* K with edges that are faulty: the place is the faulty field's first bit, whichever call reads the file. */
static void name_the_bit(const struct profile *of, const uint8_t *file, unsigned number, uint64_t bit, const char *what)
{
    uint64_t values[4] = {9, 9, 9, 9};
    uint8_t room[200];
    uint8_t edges[14];
    uint16_t classes[4] = {7, 7, 7, 7};
    size_t length = of->k.length;
    memset(room, 0xAA, sizeof room);
    memset(edges, 0xAA, sizeof edges);
    const uint64_t returned[6] = {
        of->check(file, length, values),
        of->unpack(file, length, room, 200, edges, 14, values),
        of->trace(file, length, k_colours, 3, room, 200, values),
        of->reduce(file, length, room, 200, classes, 4, values),
        of->to_the_other(file, length, room, 200, values),
        of->to_dot == NULL ? 0 : of->to_dot(file, length, room, 200, values),
    };
    static const char *const calls[6] = {"check", "unpack", "trace", "reduce", "the other file", "to_dot"};
    for (size_t i = 0; i < (of->to_dot == NULL ? 5 : 6); i++) {
        char told[100];
        snprintf(told, sizeof told, "%s of K, edge 2 %s", calls[i], what);
        expect_refusal(returned[i], number, bit, told);
    }
    expect(all(room, 200, 0xAA) && all(edges, 14, 0xAA) && values_are(values, 4, (const uint64_t[4]){9, 9, 9, 9}) &&
               memcmp(classes, (const uint16_t[4]){7, 7, 7, 7}, sizeof classes) == 0,
           "a faulty edge leaves rooms and values");
}

static void name_bits(void)
{
    /* Edge 2 begins at bit 37 + 3 * 6 + 2 * 22 = 99, in byte 12; its label 8 and its target 14 bits behind that. */
    uint8_t file[18];
    memcpy(file, k_file, 18);
    file[13] = 0x21;
    name_the_bit(&large, file, PIERHOLLOW_OUTSIDE, 107, "with the label 2");
    file[15] = 0x81;
    name_the_bit(&large, file, PIERHOLLOW_OUTSIDE, 107, "with the label 2 and the target 1");
    file[14] = 0x01;
    name_the_bit(&large, file, PIERHOLLOW_OUTSIDE, 107, "with the label 2 and the target 3");
    file[13] = 0x20;
    name_the_bit(&large, file, PIERHOLLOW_OUTSIDE, 113, "with the target 3");
    file[13] = 0x60;
    name_the_bit(&large, file, PIERHOLLOW_OUTSIDE, 99, "with the source 3 and the target 3");
    memcpy(file, k_file, 18);
    file[13] = 0x00;
    name_the_bit(&large, file, PIERHOLLOW_ORDER, 99, "from 0 with the label 0");
    file[14] = 0x80;
    name_the_bit(&large, file, PIERHOLLOW_REPEATED, 99, "from 0 with the label 1");
}

static void name_pocket_bits(void)
{
    /* Edge 2 begins at bit 19 + 3 * 4 + 2 * 11 = 53, with the last three bits of byte 6 and the first of byte 7; its label 4
       and its target 7 bits behind that. */
    uint8_t file[10];
    memcpy(file, k_pocket, 10);
    file[7] = 0xA0;
    name_the_bit(&pocket, file, PIERHOLLOW_OUTSIDE, 57, "with the label 2");
    file[7] = 0xA1;
    name_the_bit(&pocket, file, PIERHOLLOW_OUTSIDE, 57, "with the label 2 and the target 1");
    file[7] = 0xA3;
    name_the_bit(&pocket, file, PIERHOLLOW_OUTSIDE, 57, "with the label 2 and the target 3");
    file[7] = 0x83;
    name_the_bit(&pocket, file, PIERHOLLOW_OUTSIDE, 60, "with the target 3");
    file[6] = 0x91;
    name_the_bit(&pocket, file, PIERHOLLOW_OUTSIDE, 53, "with the source 3 and the target 3");
    memcpy(file, k_pocket, 10);
    file[7] = 0x00;
    name_the_bit(&pocket, file, PIERHOLLOW_ORDER, 53, "from 0 with the label 0");
    file[7] = 0x10;
    name_the_bit(&pocket, file, PIERHOLLOW_REPEATED, 53, "from 0 with the label 1");
}

static void unpack(const struct profile *of)
{
    uint64_t values[4] = {9, 9, 9, 9};
    uint8_t colours[5];
    uint8_t edges[14];
    struct bytes k = of->k;
    memset(colours, 0xAA, sizeof colours);
    memset(edges, 0xAA, sizeof edges);
    expect_refusal(of->unpack(NULL, 0, NULL, 0, NULL, 0, values), PIERHOLLOW_TOO_SHORT, 0, "unpack: nothing lent");
    expect_refusal(of->unpack(k.at, k.length, colours, 2, edges, 14, values), PIERHOLLOW_ROOM, 0, "unpack: two colours");
    expect_refusal(of->unpack(k.at, k.length, colours, 5, edges, 11, values), PIERHOLLOW_ROOM, 0, "unpack: 11 edge bytes");
    expect(all(colours, 5, 0xAA) && all(edges, 14, 0xAA), "unpack: a refusal leaves the rooms");
    expect(values_are(values, 4, (const uint64_t[4]){9, 9, 9, 9}), "unpack: a refusal leaves the values");
    expect(of->unpack(k.at, k.length, colours, 5, edges, 14, values) == 0, "unpack of K");
    expect(values_are(values, 4, (const uint64_t[4]){3, 2, 0, 4}), "unpack: n, m, start, e");
    expect(memcmp(colours, k_colours, 3) == 0 && all(colours + 3, 2, 0xAA), "unpack: colours, and the room behind them");
    expect(memcmp(edges, k_edges, 12) == 0 && all(edges + 12, 2, 0xAA), "unpack: edges, and the room behind them");
}

static void pack(const struct profile *of)
{
    uint64_t values[1] = {9};
    uint8_t room[20];
    static const uint8_t outside[3] = {0, 2, 1};
    static const uint8_t order[6] = {0, 1, 2, 0, 0, 1};
    static const uint8_t repeated[6] = {0, 0, 1, 0, 0, 2};
    size_t length = of->k.length;
    memset(room, 0xAA, sizeof room);
    expect_refusal(of->pack(k_colours, 3, outside, 3, 2, 0, room, 20, values), PIERHOLLOW_OUTSIDE, 0, "pack: 7 at 0");
    expect_refusal(of->pack(k_colours, 3, order, 6, 2, 0, room, 20, values), PIERHOLLOW_ORDER, 1, "pack: 8 at 1");
    expect_refusal(of->pack(k_colours, 3, repeated, 6, 2, 0, room, 20, values), PIERHOLLOW_REPEATED, 1, "pack: 9 at 1");
    expect_refusal(of->pack(k_colours, 3, k_edges, 12, 2, 3, room, 20, values), PIERHOLLOW_START, 0, "pack: start 3");
    expect_refusal(of->pack(k_colours, 3, k_edges, 12, 1, 0, room, 20, values), PIERHOLLOW_EDGE_COUNT, 0,
                   "pack: 4 edges, and one label");
    expect_refusal(of->pack(NULL, 0, NULL, 0, 2, 0, NULL, 0, values), PIERHOLLOW_LISTS, 0, "pack: nothing lent");
    expect_refusal(of->pack(k_colours, 3, k_edges, 12, 2, 0, NULL, 0, values), PIERHOLLOW_ANSWER_ROOM, 0, "pack: no room");
    expect_refusal(of->pack(k_colours, 3, k_edges, 12, 2, 0, room, length - 1, values), PIERHOLLOW_ANSWER_ROOM, 0,
                   "pack: a byte too few");
    expect(all(room, 20, 0xAA) && values[0] == 9, "pack: a refusal leaves room and values");
    expect(of->pack(k_colours, 3, k_edges, 12, 2, 0, room, 20, values) == 0, "pack of K");
    expect(values[0] == length, "pack: the length");
    expect(memcmp(room, of->k.at, length) == 0 && all(room + length, 20 - length, 0xAA), "pack: the file, and the room behind it");
}

/* 14, and what is just not refused. */
static void pack_limits(const struct profile *of)
{
    uint64_t values[1] = {9};
    uint8_t colours[257] = {0};
    uint8_t room[200];
    memset(room, 0xAA, sizeof room);
    expect_refusal(of->pack(NULL, 0, NULL, 0, 1, 0, room, 200, values), PIERHOLLOW_LISTS, 0, "pack: no colours");
    expect_refusal(of->pack(colours, of->most_states + 1, NULL, 0, 1, 0, room, 200, values), PIERHOLLOW_LISTS, 0,
                   "pack: a state too many");
    expect_refusal(of->pack(colours, 1, NULL, 0, 0, 0, room, 200, values), PIERHOLLOW_LISTS, 0, "pack: no label");
    expect_refusal(of->pack(colours, 1, NULL, 0, of->most_labels + 1, 0, room, 200, values), PIERHOLLOW_LISTS, 0,
                   "pack: a label too many");
    expect_refusal(of->pack(colours, 1, k_edges, 4, 1, 0, room, 200, values), PIERHOLLOW_LISTS, 0, "pack: four edge bytes");
    colours[0] = (uint8_t)(of->highest_colour + 1);
    expect_refusal(of->pack(colours, 1, NULL, 0, 1, 0, room, 200, values), PIERHOLLOW_LISTS, 0, "pack: a colour too high");
    expect(all(room, 200, 0xAA) && values[0] == 9, "pack: 14 leaves room and values");
    colours[0] = of->highest_colour;
    expect(of->pack(colours, of->most_states, NULL, 0, of->most_labels, of->most_states - 1, room, 200, values) == 0,
           "pack of the most states and labels and the highest colour");
    expect(values[0] == of->length_without_edges, "pack: the length of the most states");
}

static void trace(const struct profile *of)
{
    uint64_t values[2] = {9, 9};
    uint8_t colours[4];
    static const uint8_t rides[2] = {0, 1};
    static const uint8_t outside[2] = {0, 2};
    struct bytes k = of->k;
    struct bytes reduced = of->k_reduced;
    memset(colours, 0xAA, sizeof colours);
    expect_refusal(of->trace(NULL, 0, NULL, 0, NULL, 0, values), PIERHOLLOW_TOO_SHORT, 0, "trace: nothing lent");
    expect_refusal(of->trace(k.at, k.length, NULL, 0, NULL, 0, values), PIERHOLLOW_ROOM, 0, "trace: no room");
    expect_refusal(of->trace(k.at, k.length, outside, 2, colours, 2, values), PIERHOLLOW_ROOM, 0, "trace: room for two");
    expect_refusal(of->trace(k.at, k.length, outside, 2, colours, 3, values), PIERHOLLOW_OBSERVATION, 1, "trace: 13 at 1");
    expect(all(colours, 4, 0xAA) && values[0] == 9 && values[1] == 9, "trace: a refusal leaves room and values");
    expect(of->trace(k.at, k.length, rides, 2, colours, 4, values) == 0, "trace of K");
    expect(values[0] == 1 && values[1] == 1, "trace: K stops at 1");
    expect(colours[0] == 0 && colours[1] == 1 && all(colours + 2, 2, 0xAA), "trace: two colours, and the room behind them");
    expect(of->trace(reduced.at, reduced.length, rides, 2, colours, 4, values) == 0, "trace of K reduced");
    expect(values[0] == 0 && values[1] == 0, "trace: K reduced traces both");
    expect(colours[0] == 0 && colours[1] == 1 && colours[2] == 0 && colours[3] == 0xAA, "trace: colours 0 1 0");
    expect(of->trace(k.at, k.length, NULL, 0, colours, 1, values) == 0 && values[0] == 0, "trace of no observations");
}

static void reduce(const struct profile *of)
{
    uint64_t values[4] = {9, 9, 9, 9};
    uint8_t answer[20];
    uint16_t classes[4] = {7, 7, 7, 7};
    struct bytes k = of->k;
    struct bytes reduced = of->k_reduced;
    memset(answer, 0xAA, sizeof answer);
    expect_refusal(of->reduce(NULL, 0, NULL, 0, NULL, 0, values), PIERHOLLOW_TOO_SHORT, 0, "reduce: nothing lent");
    expect_refusal(of->reduce(k.at, k.length, answer, k.length - 1, classes, 2, values), PIERHOLLOW_ANSWER_ROOM, 0,
                   "reduce: a byte too few");
    expect_refusal(of->reduce(k.at, k.length, answer, k.length, classes, 2, values), PIERHOLLOW_CLASS_ROOM, 0,
                   "reduce: two entries");
    expect(all(answer, 20, 0xAA) && classes[0] == 7 && classes[1] == 7 && values[0] == 9, "reduce: a refusal leaves the rooms");
    expect(of->reduce(k.at, k.length, answer, 20, classes, 4, values) == 0, "reduce of K");
    expect(values_are(values, 4, (const uint64_t[4]){2, 2, 0, reduced.length}), "reduce: states, colours, rounds, length");
    expect(memcmp(answer, reduced.at, reduced.length) == 0 && all(answer + reduced.length, 20 - reduced.length, 0xAA),
           "reduce: the file, and the room behind it");
    expect(classes[0] == 0 && classes[1] == 1 && classes[2] == 1 && classes[3] == 7, "reduce: the class list");
}

/* Ride P: the start leads to itself alone, and the rooms are still those of three states. */
static void drop(const struct profile *of)
{
    uint64_t values[4] = {9, 9, 9, 9};
    uint8_t answer[15];
    uint16_t classes[4] = {7, 7, 7, 7};
    struct bytes p = of->p;
    struct bytes reduced = of->p_reduced;
    memset(answer, 0xAA, sizeof answer);
    expect_refusal(of->reduce(p.at, p.length, answer, p.length - 1, classes, 3, values), PIERHOLLOW_ANSWER_ROOM, 0,
                   "reduce of P: a byte too few");
    expect_refusal(of->reduce(p.at, p.length, answer, p.length, classes, 2, values), PIERHOLLOW_CLASS_ROOM, 0,
                   "reduce of P: two entries");
    expect(all(answer, 15, 0xAA) && classes[0] == 7 && values[0] == 9, "reduce of P: a refusal leaves the rooms");
    expect(of->reduce(p.at, p.length, answer, 15, classes, 4, values) == 0, "reduce of P");
    expect(values_are(values, 4, (const uint64_t[4]){1, 1, 0, reduced.length}),
           "reduce of P: one state, one colour, no round, and the length");
    expect(memcmp(answer, reduced.at, reduced.length) == 0 && all(answer + reduced.length, 15 - reduced.length, 0xAA),
           "reduce of P: the file, and the room behind it");
    expect(classes[0] == 0 && classes[1] == 65535 && classes[2] == PIERHOLLOW_DROPPED && classes[3] == 7,
           "reduce of P: the class list");
    expect(of->reduce(reduced.at, reduced.length, answer, reduced.length, classes, 1, values) == 0 &&
               memcmp(answer, reduced.at, reduced.length) == 0 && classes[0] == 0,
           "reduce of P reduced");
    expect(of->check(p.at, p.length, values) == 0 && values_are(values, 4, (const uint64_t[4]){3, 1, 0, 2}),
           "check of P counts every state and edge");
}

/* A file turned into the other one: room, the file's own refusal before that of the room, bytes. */
static void turn(const struct profile *of, struct bytes from, struct bytes to, const char *what)
{
    uint64_t values[1] = {9};
    uint8_t room[20];
    char about[60];
    const char *before = subject;
    snprintf(about, sizeof about, "%s turned, %s", of->name, what);
    subject = about;
    memset(room, 0xAA, sizeof room);
    expect_refusal(of->to_the_other(from.at, from.length, room, to.length - 1, values), PIERHOLLOW_ANSWER_ROOM, 0, "a byte too few");
    expect_refusal(of->to_the_other(from.at, from.length, NULL, 0, values), PIERHOLLOW_ANSWER_ROOM, 0, "no room");
    expect_refusal(of->to_the_other(from.at, from.length - 1, NULL, 0, values), PIERHOLLOW_MISSING, 0, "4 before 10");
    expect(all(room, 20, 0xAA) && values[0] == 9, "a refusal leaves room and value");
    expect(of->to_the_other(from.at, from.length, room, to.length, values) == 0 && values[0] == to.length, "the length");
    expect(memcmp(room, to.at, to.length) == 0 && all(room + to.length, 20 - to.length, 0xAA), "the bytes, a room just long enough");
    memset(room, 0xAA, sizeof room);
    expect(of->to_the_other(from.at, from.length, room, 20, values) == 0 && values[0] == to.length &&
               memcmp(room, to.at, to.length) == 0 && all(room + to.length, 20 - to.length, 0xAA),
           "the bytes, and the room behind them");
    subject = before;
}

static void turn_rides(const struct profile *of, const struct profile *to)
{
    uint64_t values[1] = {9};
    turn(of, of->k, to->k, "K");
    turn(of, of->k_reduced, to->k_reduced, "K reduced");
    turn(of, of->p, to->p, "P");
    turn(of, of->p_reduced, to->p_reduced, "P reduced");
    expect_refusal(of->to_the_other(NULL, 0, NULL, 0, values), PIERHOLLOW_TOO_SHORT, 0, "turned: nothing lent");
    expect(values[0] == 9, "turned: a refusal leaves the value");
}

static void from_dot_refuses(const char *text, unsigned number, uint64_t place, const char *what)
{
    uint64_t values[1] = {9};
    uint8_t room[20];
    memset(room, 0xAA, sizeof room);
    expect_refusal(pierhollow_from_dot((const uint8_t *)text, strlen(text), room, 20, values), number, place, what);
    expect(all(room, 20, 0xAA) && values[0] == 9, what);
}

static void from_dot(void)
{
    const uint8_t *text = (const uint8_t *)k_drawing;
    size_t length = sizeof k_drawing - 1;
    uint64_t values[1] = {9};
    uint8_t room[20];
    from_dot_refuses("", PIERHOLLOW_DRAWING, 0, "from_dot: no text");
    from_dot_refuses("digraph {\n1 [", PIERHOLLOW_DRAWING, 12, "from_dot: state 1 first");
    from_dot_refuses(THREE_STATES, PIERHOLLOW_DRAWING, 49, "from_dot: cut off");
    from_dot_refuses(THREE_STATES "}\n}", PIERHOLLOW_DRAWING, 51, "from_dot: a brace too many");
    from_dot_refuses("digraph {\n}\n", PIERHOLLOW_LISTS, 0, "from_dot: no states");
    from_dot_refuses("digraph {\n0 [label=64];\n}\n", PIERHOLLOW_LISTS, 0, "from_dot: a colour of 64");
    from_dot_refuses(THREE_STATES "0 -> 1 [label=64];\n}\n", PIERHOLLOW_LISTS, 0, "from_dot: a label of 64");
    from_dot_refuses("digraph {\n0 [label=0];\n0 -> 0 [label=0];\n0 -> 0 [label=0];\n}\n",
                     PIERHOLLOW_EDGE_COUNT, 0, "from_dot: two edges where one can be");
    from_dot_refuses(THREE_STATES "0 -> 3 [label=0];\n}\n", PIERHOLLOW_OUTSIDE, 0, "from_dot: 7 at 0");
    from_dot_refuses(THREE_STATES "0 -> 1 [label=0];\n256 -> 0 [label=0];\n}\n", PIERHOLLOW_OUTSIDE, 1, "from_dot: 7 at 1");
    from_dot_refuses(THREE_STATES "0 -> 2 [label=1];\n0 -> 1 [label=0];\n}\n", PIERHOLLOW_ORDER, 1, "from_dot: 8 at 1");
    from_dot_refuses(THREE_STATES "0 -> 1 [label=0];\n0 -> 2 [label=0];\n}\n", PIERHOLLOW_REPEATED, 1, "from_dot: 9 at 1");
    memset(room, 0xAA, sizeof room);
    expect_refusal(pierhollow_from_dot(NULL, 0, NULL, 0, values), PIERHOLLOW_DRAWING, 0, "from_dot: nothing lent");
    expect_refusal(pierhollow_from_dot(text, length, room, 17, values), PIERHOLLOW_ANSWER_ROOM, 0, "from_dot: 17 bytes");
    expect(all(room, 20, 0xAA) && values[0] == 9, "from_dot: a refusal leaves room and values");
    expect(pierhollow_from_dot(text, length, room, 18, values) == 0, "from_dot of K, a room of 18 bytes");
    expect(pierhollow_from_dot(text, length, room, 20, values) == 0 && values[0] == 18, "from_dot of K, and the length");
    expect(memcmp(room, k_file, 18) == 0 && all(room + 18, 2, 0xAA), "from_dot: the file, and the room behind it");
}

static void to_dot(void)
{
    size_t length = sizeof k_drawing - 1;
    uint64_t values[1] = {9};
    uint8_t room[sizeof k_drawing + 1];
    uint8_t other[18];
    memset(room, 0xAA, sizeof room);
    expect_refusal(pierhollow_to_dot(NULL, 0, room, sizeof room, values), PIERHOLLOW_TOO_SHORT, 0, "to_dot of no bytes");
    expect_refusal(pierhollow_to_dot(k_file, 17, room, sizeof room, values), PIERHOLLOW_MISSING, 0, "to_dot of 17 bytes");
    memcpy(other, k_file, 18);
    other[17] = 1;
    expect_refusal(pierhollow_to_dot(other, 18, NULL, 0, values), PIERHOLLOW_FILLING, 0, "to_dot: 6 before 10");
    memcpy(other, k_file, 18);
    other[2] = 0x04;
    expect_refusal(pierhollow_to_dot(other, 18, NULL, 0, values), PIERHOLLOW_DRAWING, 0, "to_dot: start 1, and 15 before 10");
    memcpy(other, k_file, 18);
    other[1] = 0x08;
    expect_refusal(pierhollow_to_dot(other, 18, room, sizeof room, values), PIERHOLLOW_DRAWING, 0, "to_dot: a third label");
    expect_refusal(pierhollow_to_dot(k_file, 18, room, length - 1, values), PIERHOLLOW_ANSWER_ROOM, 0, "to_dot: a byte too few");
    expect(all(room, sizeof room, 0xAA) && values[0] == 9, "to_dot: a refusal leaves room and values");
    expect(pierhollow_to_dot(k_file, 18, room, length, values) == 0, "to_dot of K, a room just long enough");
    expect(pierhollow_to_dot(k_file, 18, room, sizeof room, values) == 0 && values[0] == length, "to_dot of K, and the length");
    expect(memcmp(room, k_drawing, length) == 0 && all(room + length, 2, 0xAA), "to_dot: the drawing, and the room behind it");
}

static void not_for_a_pocket(const uint8_t *file, size_t length, const char *what)
{
    uint64_t values[1] = {9};
    uint8_t room[20];
    memset(room, 0xAA, sizeof room);
    expect_refusal(pierhollow_to_pocket(file, length, room, 20, values), PIERHOLLOW_POCKET, 0, what);
    expect_refusal(pierhollow_to_pocket(file, length, NULL, 0, values), PIERHOLLOW_POCKET, 0, what);
    expect(all(room, 20, 0xAA) && values[0] == 9, what);
}

/* 16, before 10 and behind the file's own. */
static void too_large_for_a_pocket(void)
{
    /* n - 1 = 16, all else 0: 37 + 17 * 6 = 139 bits. */
    static const uint8_t seventeen_states[18] = {0x10};
    /* n = 1, m - 1 = 8:  00000000|001000.00|000000.00|... of 37 + 6 bits. */
    static const uint8_t nine_labels[6] = {0x00, 0x20};
    /* n = 1, colour 16:  37 zero bits, then 010|000. */
    static const uint8_t colour_16[6] = {0x00, 0x00, 0x00, 0x00, 0x02};
    /* n - 1 = 1, colours 0 and 63:  00000001|, 29 zero bits, 000|000.11111|1 of 37 + 12 bits. */
    static const uint8_t last_colour_63[7] = {0x01, 0x00, 0x00, 0x00, 0x00, 0x1F, 0x80};
    /* 17 states and start 17:  00010000|000000.00|010001.00|... */
    static const uint8_t start_17[18] = {0x10, 0x00, 0x44};
    /* 17 states and the edge (0,0,17), e = 1 in the count's last five bits 00001.000 of byte 4; the edge begins at bit 139 and its
       target at 153, in byte 19 behind one bit: 0.0001000|1, of 161 bits. */
    static const uint8_t target_17[21] = {[0] = 0x10, [4] = 0x08, [19] = 0x08, [20] = 0x80};
    uint64_t values[1] = {9};
    uint8_t room[20];
    not_for_a_pocket(seventeen_states, 18, "17 states for a pocket");
    not_for_a_pocket(nine_labels, 6, "nine labels for a pocket");
    not_for_a_pocket(colour_16, 6, "a colour of 16 for a pocket");
    not_for_a_pocket(last_colour_63, 7, "a last colour of 63 for a pocket");
    expect_refusal(pierhollow_to_pocket(start_17, 18, room, 20, values), PIERHOLLOW_START, 0, "to_pocket: 2 before 16");
    expect_refusal(pierhollow_to_pocket(target_17, 21, room, 20, values), PIERHOLLOW_OUTSIDE, 153, "to_pocket: 7 before 16");
}

/* As much of everything but edges as a pocket file holds: 16 states with colours 0 to 15, 8 labels, start 15. */
static void just_for_a_pocket(void)
{
    /* 1111.111.1|111.00000|000. and each colour of four bits begins three bits behind a half of a byte: 0000.0|001.0010.0|011.0100.0|...
       to 111 and five filling bits, of 19 + 64. */
    static const uint8_t small[11] = {0xFF, 0xE0, 0x00, 0x24, 0x68, 0xAC, 0xF1, 0x35, 0x79, 0xBD, 0xE0};
    /* 00001111|000111.00|001111.00|00000000|00000. and colours of six bits: 000|000.00000|1.000010.0|00011.000|100.00010|1.000110.0|
       00111.001|000.00100|1.001010.0|01011.001|100.00110|1.001110.0|01111. and three filling bits, of 37 + 96. */
    static const uint8_t wide[17] = {0x0F, 0x1C, 0x3C, 0x00, 0x00, 0x00, 0x84, 0x18, 0x82,
                                     0x8C, 0x39, 0x04, 0x94, 0x59, 0x86, 0x9C, 0x78};
    uint64_t values[4];
    expect(pierhollow_pocket_check(small, 11, values) == 0 && values_are(values, 4, (const uint64_t[4]){16, 8, 15, 0}),
           "pocket_check of 16 states");
    turn(&pocket, (struct bytes)BYTES(small), (struct bytes)BYTES(wide), "16 states");
    turn(&large, (struct bytes)BYTES(wide), (struct bytes)BYTES(small), "16 states");
}

/* A pocket file of one state has 19 + 4 bits, and with three edges 56, which leave none to fill. */
static void smallest_pocket(void)
{
    static const uint8_t zeros[4] = {0};
    /* m - 1 = 2 and e = 3:  0000.010.0|000.00000|011. 0000.0|000.000.00|00. 0000.00|1.0000.000|0.010.0000 */
    uint8_t three_edges[7] = {0x04, 0x00, 0x60, 0x00, 0x00, 0x80, 0x20};
    uint64_t values[4];
    uint8_t room[6];
    expect(pierhollow_pocket_check(zeros, 3, values) == 0 && values_are(values, 4, (const uint64_t[4]){1, 1, 0, 0}),
           "pocket_check of three zero bytes");
    expect_refusal(pierhollow_pocket_check(zeros, 4, values), PIERHOLLOW_EXCESS, 0, "pocket_check of four zero bytes");
    expect_refusal(pierhollow_pocket_check((const uint8_t[3]){0, 0, 1}, 3, values), PIERHOLLOW_FILLING, 0,
                   "pocket_check of a filling bit");
    expect(pierhollow_to_large(zeros, 3, room, 6, values) == 0 && values[0] == 6 && all(room, 6, 0), "to_large of one state");
    expect(pierhollow_pocket_check(three_edges, 7, values) == 0 && values_are(values, 4, (const uint64_t[4]){1, 3, 0, 3}),
           "pocket_check of a file without a filling bit");
    three_edges[6] = 0x21;
    expect_refusal(pierhollow_pocket_check(three_edges, 7, values), PIERHOLLOW_OUTSIDE, 52,
                   "pocket_check: the last bit is edge 2's target");
}

/* A pocket file with as many edges as there can be: 19 + 64 + 128 * 11 = 1491 bits, and 37 + 96 + 128 * 22 = 2949 in the large file. */
static void longest_pocket(void)
{
    uint8_t edges[3 * 16 * 8];
    uint8_t file[PIERHOLLOW_POCKET_LONGEST_FILE];
    uint8_t again[PIERHOLLOW_POCKET_LONGEST_FILE];
    uint8_t turned[369];
    uint8_t unpacked[sizeof edges];
    uint8_t colours[PIERHOLLOW_POCKET_MOST_STATES];
    uint64_t values[4];
    memset(colours, 15, sizeof colours);
    for (size_t i = 0; i < 16 * 8; i++) {
        edges[3 * i] = (uint8_t)(i / 8);
        edges[3 * i + 1] = (uint8_t)(i % 8);
        edges[3 * i + 2] = (uint8_t)(i % 16);
    }
    expect_refusal(pierhollow_pocket_pack(colours, 16, edges, sizeof edges, PIERHOLLOW_POCKET_MOST_LABELS, 0, file, 186, values),
                   PIERHOLLOW_ANSWER_ROOM, 0, "pocket_pack of the largest: a byte too few");
    expect(pierhollow_pocket_pack(colours, 16, edges, sizeof edges, PIERHOLLOW_POCKET_MOST_LABELS, 0, file, 187, values) == 0,
           "pocket_pack of the largest");
    expect(values[0] == PIERHOLLOW_POCKET_LONGEST_FILE, "pocket_pack: the longest file");
    expect(pierhollow_pocket_unpack(file, 187, colours, 16, unpacked, sizeof unpacked, values) == 0 &&
               values_are(values, 4, (const uint64_t[4]){16, 8, 0, 128}) && memcmp(unpacked, edges, sizeof edges) == 0,
           "pocket_unpack of the largest");
    expect_refusal(pierhollow_to_large(file, 187, turned, 368, values), PIERHOLLOW_ANSWER_ROOM, 0,
                   "to_large of the largest: a byte too few");
    expect(pierhollow_to_large(file, 187, turned, 369, values) == 0 && values[0] == 369, "to_large of the largest");
    expect(pierhollow_to_pocket(turned, 369, again, 187, values) == 0 && values[0] == 187 && memcmp(again, file, 187) == 0,
           "to_pocket gives the largest back");
}

/* A filter with as many edges as there can be; its colours and targets have as many digits as they can. */
static void longest(void)
{
    static uint8_t edges[3 * 256 * 64];
    static uint8_t file[PIERHOLLOW_LONGEST_FILE];
    static uint8_t again[PIERHOLLOW_LONGEST_FILE];
    static uint8_t drawing[PIERHOLLOW_LONGEST_DRAWING];
    uint8_t colours[256];
    uint64_t values[1];
    memset(colours, 63, sizeof colours);
    for (size_t i = 0; i < 256 * 64; i++) {
        edges[3 * i] = (uint8_t)(i / 64);
        edges[3 * i + 1] = (uint8_t)(i % 64);
        edges[3 * i + 2] = (uint8_t)(100 + i % 156);
    }
    expect(pierhollow_pack(colours, 256, edges, sizeof edges, 64, 0, file, sizeof file, values) == 0, "pack of the largest");
    expect(values[0] == PIERHOLLOW_LONGEST_FILE, "pack: the longest file");
    expect_refusal(pierhollow_to_dot(file, sizeof file, drawing, sizeof drawing - 1, values), PIERHOLLOW_ANSWER_ROOM, 0,
                   "to_dot of the largest: a byte too few");
    expect(pierhollow_to_dot(file, sizeof file, drawing, sizeof drawing, values) == 0, "to_dot of the largest");
    expect(values[0] == PIERHOLLOW_LONGEST_DRAWING, "to_dot: the longest drawing");
    expect(pierhollow_from_dot(drawing, sizeof drawing, again, sizeof again, values) == 0, "from_dot of the longest drawing");
    expect(values[0] == sizeof again && memcmp(again, file, sizeof file) == 0, "from_dot: the largest file");
    expect_refusal(pierhollow_to_pocket(file, sizeof file, again, sizeof again, values), PIERHOLLOW_POCKET, 0,
                   "to_pocket of the largest");
}

/* K's file with a fault that is left: 17 at the bit by every call that reads a large file, whatever else the call would refuse. */
static void leave_a_fault(const uint8_t file[18], uint64_t bit, const char *what)
{
    static const uint8_t outside[2] = {0, 64};
    static const uint8_t many[65536] = {0};
    uint64_t values[4] = {9, 9, 9, 9};
    uint8_t room[200];
    uint8_t edges[14];
    uint16_t classes[4] = {7, 7, 7, 7};
    memset(room, 0xAA, sizeof room);
    memset(edges, 0xAA, sizeof edges);
    const struct {
        const char *call;
        uint64_t returned;
    } made[] = {
        {"check", pierhollow_check(file, 18, values)},
        {"unpack", pierhollow_unpack(file, 18, room, 200, edges, 14, values)},
        {"unpack, two colours", pierhollow_unpack(file, 18, room, 2, edges, 14, values)},
        {"unpack, 11 edge bytes", pierhollow_unpack(file, 18, room, 200, edges, 11, values)},
        {"unpack, no room", pierhollow_unpack(file, 18, NULL, 0, NULL, 0, values)},
        {"trace", pierhollow_trace(file, 18, k_colours, 3, room, 200, values)},
        {"trace of no observations", pierhollow_trace(file, 18, NULL, 0, room, 200, values)},
        {"trace of an observation outside", pierhollow_trace(file, 18, outside, 2, room, 200, values)},
        {"trace, room for two", pierhollow_trace(file, 18, outside, 2, room, 2, values)},
        {"trace of 65,536 observations", pierhollow_trace(file, 18, many, sizeof many, NULL, 0, values)},
        {"reduce", pierhollow_reduce(file, 18, room, 200, classes, 4, values)},
        {"reduce, two entries", pierhollow_reduce(file, 18, room, 200, classes, 2, values)},
        {"reduce, a byte too few", pierhollow_reduce(file, 18, room, 17, classes, 4, values)},
        {"reduce, no room", pierhollow_reduce(file, 18, NULL, 0, NULL, 0, values)},
        {"to_pocket", pierhollow_to_pocket(file, 18, room, 200, values)},
        {"to_pocket, no room", pierhollow_to_pocket(file, 18, NULL, 0, values)},
        {"to_dot", pierhollow_to_dot(file, 18, room, 200, values)},
        {"to_dot, no room", pierhollow_to_dot(file, 18, NULL, 0, values)},
    };
    for (size_t i = 0; i < sizeof made / sizeof *made; i++) {
        char told[100];
        snprintf(told, sizeof told, "%s: %s", made[i].call, what);
        expect_refusal(made[i].returned, PIERHOLLOW_LEAVING, bit, told);
    }
    expect(all(room, 200, 0xAA) && all(edges, 14, 0xAA) && values_are(values, 4, (const uint64_t[4]){9, 9, 9, 9}) &&
               memcmp(classes, (const uint16_t[4]){7, 7, 7, 7}, sizeof classes) == 0,
           "a fault that is left leaves rooms and values");
}

/* K with other colours: state 0's stands in bytes 4 and 5, 00100.000|000, state 1's in 5 and 6, 00000|0, state 2's in 6, 000000. */
static void colour_k(uint8_t file[18], uint8_t byte_4, uint8_t byte_5, uint8_t byte_6)
{
    memcpy(file, k_file, 18);
    file[4] = byte_4;
    file[5] = byte_5;
    file[6] = byte_6;
}

static void leave_faults(void)
{
    /* Edge i begins at bit 37 + 3 * 6 + 22 * i: 55, 77, 99 and 121. */
    uint8_t file[18];
    uint64_t values[4];
    colour_k(file, 0x27, 0xE0, 0x82);
    leave_a_fault(file, 55, "K with colours 63 1 1");
    colour_k(file, 0x27, 0xFF, 0x82);
    leave_a_fault(file, 77, "K with colours 63 63 1");
    colour_k(file, 0x20, 0x00, 0xFE);
    leave_a_fault(file, 121, "K with colours 0 1 63");
    colour_k(file, 0x20, 0x1F, 0xFE);
    leave_a_fault(file, 99, "K with colours 0 63 63");
    colour_k(file, 0x20, 0x1F, 0x82);
    leave_a_fault(file, 99, "K with colours 0 63 1");
    file[2] = 0x08;
    leave_a_fault(file, 99, "the same from state 2, which has no drawing");
    file[2] = 0x00;
    file[1] = 0x08;
    leave_a_fault(file, 99, "the same with a third label, which has no drawing");

    /* 7, 8 and 9 of edge 3, behind the one that leaves: its source and label are 0000001|0.000001 in bytes 15 and 16. */
    colour_k(file, 0x20, 0x1F, 0x82);
    file[16] = 0x04;
    name_the_bit(&large, file, PIERHOLLOW_OUTSIDE, 129, "leaving a fault, and edge 3 with the label 2");
    file[15] = 0x00;
    file[16] = 0x02;
    name_the_bit(&large, file, PIERHOLLOW_ORDER, 121, "leaving a fault, and edge 3 from 0");
    file[16] = 0x80;
    name_the_bit(&large, file, PIERHOLLOW_REPEATED, 121, "leaving a fault, and edge 3 with the same source and label");
    file[17] = 0x01;
    name_the_bit(&large, file, PIERHOLLOW_FILLING, 0, "leaving a fault, and a filling bit");

    /* 7, 8 and 9 of edge 1, before it: the labels of edges 0 and 1 end in byte 8, 00000.000, and in byte 11, 001.00000. */
    colour_k(file, 0x20, 0x1F, 0x82);
    file[11] = 0x40;
    name_the_bit(&large, file, PIERHOLLOW_OUTSIDE, 85, "leaving a fault, and edge 1 with the label 2");
    file[11] = 0x00;
    name_the_bit(&large, file, PIERHOLLOW_REPEATED, 77, "leaving a fault, and edge 1 with the label 0");
    file[8] = 0x08;
    name_the_bit(&large, file, PIERHOLLOW_ORDER, 77, "leaving a fault, and edges 0 and 1 with the labels 1 and 0");

    colour_k(file, 0x27, 0xFF, 0xFE);
    expect(pierhollow_check(file, 18, values) == 0, "check of K with colours 63 63 63");
    colour_k(file, 0x20, 0x1F, 0x02);
    expect(pierhollow_check(file, 18, values) == 0, "check of K with colours 0 62 1");
}

/* Ride P with a fault for state 1, which the start cannot reach, nor the state that it leads to. */
static void leave_a_leftover_fault(void)
{
    uint64_t values[4] = {9, 9, 9, 9};
    uint8_t file[13];
    uint8_t answer[13];
    uint16_t classes[3] = {7, 7, 7};
    memcpy(file, p_file, 13);
    file[5] = 0x1F;
    file[6] = 0x82;
    memset(answer, 0xAA, sizeof answer);
    expect_refusal(pierhollow_check(file, 13, values), PIERHOLLOW_LEAVING, 77, "check of P with colours 0 63 1");
    expect_refusal(pierhollow_reduce(file, 13, answer, 13, classes, 3, values), PIERHOLLOW_LEAVING, 77,
                   "reduce of P with colours 0 63 1");
    expect(all(answer, 13, 0xAA) && classes[0] == 7 && values[0] == 9, "reduce of P with a fault leaves the rooms");
}

static void pack_refuses(const uint8_t colours[3], const uint8_t *edges, size_t m, size_t start, unsigned number, uint64_t place,
                         const char *what)
{
    uint64_t values[1] = {9};
    uint8_t room[20];
    memset(room, 0xAA, sizeof room);
    expect_refusal(pierhollow_pack(colours, 3, edges, 12, m, start, room, 20, values), number, place, what);
    expect_refusal(pierhollow_pack(colours, 3, edges, 12, m, start, NULL, 0, values), number, place, what);
    expect(all(room, 20, 0xAA) && values[0] == 9, what);
}

static void pack_faults(void)
{
    static const uint8_t left[3] = {0, 63, 1};
    static const uint8_t too_high[3] = {0, 63, 64};
    uint8_t edges[12];
    uint8_t room[18];
    uint64_t values[1];
    pack_refuses(left, k_edges, 2, 0, PIERHOLLOW_LEAVING, 2, "pack: 17 at 2");
    pack_refuses(left, k_edges, 2, 2, PIERHOLLOW_LEAVING, 2, "pack: 17 at 2, from state 2");
    pack_refuses((const uint8_t[3]){63, 63, 1}, k_edges, 2, 0, PIERHOLLOW_LEAVING, 1, "pack: 17 at 1");
    pack_refuses((const uint8_t[3]){63, 1, 1}, k_edges, 2, 0, PIERHOLLOW_LEAVING, 0, "pack: 17 at 0");
    pack_refuses((const uint8_t[3]){0, 1, 63}, k_edges, 2, 0, PIERHOLLOW_LEAVING, 3, "pack: 17 at 3");
    pack_refuses(too_high, k_edges, 2, 0, PIERHOLLOW_LISTS, 0, "pack: 14 before 17");
    pack_refuses(left, k_edges, 2, 3, PIERHOLLOW_START, 0, "pack: 2 before 17");
    pack_refuses(left, k_edges, 1, 0, PIERHOLLOW_EDGE_COUNT, 0, "pack: 3 before 17");
    memcpy(edges, k_edges, 12);
    edges[10] = 2;
    pack_refuses(left, edges, 2, 0, PIERHOLLOW_OUTSIDE, 3, "pack: 7 behind an edge that leaves a fault");
    edges[9] = 0;
    edges[10] = 1;
    pack_refuses(left, edges, 2, 0, PIERHOLLOW_ORDER, 3, "pack: 8 behind an edge that leaves a fault");
    edges[9] = 1;
    edges[10] = 0;
    pack_refuses(left, edges, 2, 0, PIERHOLLOW_REPEATED, 3, "pack: 9 behind an edge that leaves a fault");
    expect(pierhollow_pack((const uint8_t[3]){63, 63, 63}, 3, k_edges, 12, 2, 0, room, 18, values) == 0,
           "pack of K with colours 63 63 63");
    expect(pierhollow_pack((const uint8_t[3]){0, 62, 1}, 3, k_edges, 12, 2, 0, room, 18, values) == 0,
           "pack of K with colours 0 62 1");
}

#define LEFT_STATES "digraph {\n0 [label=0];\n1 [label=63];\n2 [label=1];\n"

static void draw_faults(void)
{
    static const char left[] = LEFT_STATES K_EDGES "}\n";
    uint64_t values[1] = {9};
    from_dot_refuses(left, PIERHOLLOW_LEAVING, 2, "from_dot: 17 at 2");
    from_dot_refuses("digraph {\n0 [label=0];\n1 [label=1];\n2 [label=63];\n" K_EDGES "}\n", PIERHOLLOW_LEAVING, 3, "from_dot: 17 at 3");
    from_dot_refuses("digraph {\n0 [label=63];\n1 [label=63];\n2 [label=1];\n" K_EDGES "}\n", PIERHOLLOW_LEAVING, 1, "from_dot: 17 at 1");
    expect_refusal(pierhollow_from_dot((const uint8_t *)left, sizeof left - 1, NULL, 0, values), PIERHOLLOW_LEAVING, 2,
                   "from_dot: 17 before 10");
    from_dot_refuses(LEFT_STATES K_EDGES "}", PIERHOLLOW_DRAWING, 123, "from_dot: 15 before 17");
    from_dot_refuses("digraph {\n0 [label=64];\n1 [label=63];\n2 [label=1];\n" K_EDGES "}\n", PIERHOLLOW_LISTS, 0,
                     "from_dot: 14 before 17");
    from_dot_refuses("digraph {\n0 [label=63];\n1 [label=0];\n0 -> 1 [label=0];\n1 -> 0 [label=0];\n1 -> 1 [label=0];\n}\n",
                     PIERHOLLOW_EDGE_COUNT, 0, "from_dot: 3 before 17");
    from_dot_refuses(LEFT_STATES K_EDGES "3 -> 0 [label=0];\n}\n", PIERHOLLOW_OUTSIDE, 4, "from_dot: 7 behind an edge that leaves a fault");
    from_dot_refuses(LEFT_STATES K_EDGES "2 -> 0 [label=0];\n}\n", PIERHOLLOW_ORDER, 4, "from_dot: 8 behind an edge that leaves a fault");
    from_dot_refuses(LEFT_STATES K_EDGES "2 -> 1 [label=1];\n}\n", PIERHOLLOW_REPEATED, 4, "from_dot: 9 behind an edge that leaves a fault");
}

/* The last of all edges that there can be leaves the fault of state 255. Its target ends with bit 362,020, the fifth of the last byte. */
static void leave_by_the_last_edge(void)
{
    static uint8_t edges[3 * 256 * 64];
    static uint8_t file[PIERHOLLOW_LONGEST_FILE];
    uint8_t colours[256] = {[255] = PIERHOLLOW_FAULT_COLOUR};
    uint64_t values[4];
    for (size_t i = 0; i < 256 * 64; i++) {
        edges[3 * i] = (uint8_t)(i / 64);
        edges[3 * i + 1] = (uint8_t)(i % 64);
        edges[3 * i + 2] = 255;
    }
    expect(pierhollow_pack(colours, 256, edges, sizeof edges, 64, 0, file, sizeof file, values) == 0,
           "pack of the largest with a kept fault");
    file[45252] ^= 0x08;
    expect_refusal(pierhollow_check(file, sizeof file, values), PIERHOLLOW_LEAVING, 361999, "check: 17 of the last edge");
    edges[3 * 16383 + 2] = 254;
    expect_refusal(pierhollow_pack(colours, 256, edges, sizeof edges, 64, 0, file, sizeof file, values), PIERHOLLOW_LEAVING, 16383,
                   "pack: 17 of the last edge");
}

/* A fault that is led to and kept, through every call. */
static void keep_a_fault(void)
{
    static const uint8_t ride[3] = {0, 0, 1};
    uint64_t values[4];
    uint8_t room[sizeof kept_drawing];
    uint8_t edges[12];
    uint16_t classes[3];
    size_t length = sizeof kept_drawing - 1;
    expect(pierhollow_check(kept_file, 18, values) == 0 && values_are(values, 4, (const uint64_t[4]){3, 2, 0, 4}),
           "check of a kept fault");
    expect(pierhollow_unpack(kept_file, 18, room, 3, edges, 12, values) == 0 && memcmp(room, kept_colours, 3) == 0 &&
               memcmp(edges, kept_edges, 12) == 0,
           "unpack of a kept fault");
    expect(pierhollow_pack(kept_colours, 3, kept_edges, 12, 2, 0, room, 18, values) == 0 && memcmp(room, kept_file, 18) == 0,
           "pack of a kept fault");
    expect(pierhollow_trace(kept_file, 18, ride, 3, room, 4, values) == 0 && values[0] == 0 &&
               memcmp(room, (const uint8_t[4]){0, 63, 63, 63}, 4) == 0,
           "trace into a kept fault");
    expect(pierhollow_reduce(kept_file, 18, room, 18, classes, 3, values) == 0 &&
               values_are(values, 4, (const uint64_t[4]){2, 2, 0, 18}) && memcmp(room, kept_reduced, 18) == 0 &&
               memcmp(classes, (const uint16_t[3]){0, 1, 1}, sizeof classes) == 0,
           "reduce of a kept fault");
    expect(pierhollow_check(kept_reduced, 18, values) == 0, "check of a kept fault reduced");
    expect(pierhollow_to_dot(kept_file, 18, room, length, values) == 0 && memcmp(room, kept_drawing, length) == 0,
           "to_dot of a kept fault");
    expect(pierhollow_from_dot((const uint8_t *)kept_drawing, length, room, 18, values) == 0 && memcmp(room, kept_file, 18) == 0,
           "from_dot of a kept fault");
    expect_refusal(pierhollow_to_pocket(kept_file, 18, room, 18, values), PIERHOLLOW_POCKET, 0, "to_pocket of a kept fault");
}

/* The highest pocket colour is no fault: K with colours 0 15 1, as a pocket file and turned. */
static void leave_a_high_pocket_colour(void)
{
    static const uint8_t colours[3] = {0, 15, 1};
    uint8_t file[10];
    uint8_t wide[18];
    uint8_t room[18];
    uint8_t edges[12];
    uint16_t classes[3];
    uint64_t values[4];
    /* Bytes 2 and 3 are 100.0000.1|111.0001.0 */
    memcpy(file, k_pocket, 10);
    file[2] = 0x81;
    file[3] = 0xE2;
    /* Bytes 5 and 6 are 000.00111|1.000001.0 */
    colour_k(wide, 0x20, 0x07, 0x82);
    expect(pierhollow_pocket_check(file, 10, values) == 0, "pocket_check of a colour of 15 that is left");
    expect(pierhollow_pocket_unpack(file, 10, room, 3, edges, 12, values) == 0 && memcmp(room, colours, 3) == 0 &&
               memcmp(edges, k_edges, 12) == 0,
           "pocket_unpack of a colour of 15 that is left");
    expect(pierhollow_pocket_pack(colours, 3, k_edges, 12, 2, 0, room, 10, values) == 0 && memcmp(room, file, 10) == 0,
           "pocket_pack of a colour of 15 that is left");
    expect(pierhollow_pocket_trace(file, 10, (const uint8_t[2]){0, 0}, 2, room, 3, values) == 0 && values[0] == 0 &&
               memcmp(room, (const uint8_t[3]){0, 15, 0}, 3) == 0,
           "pocket_trace through a colour of 15");
    expect(pierhollow_pocket_reduce(file, 10, room, 10, classes, 3, values) == 0 && values[0] == 3 && memcmp(room, file, 10) == 0,
           "pocket_reduce of a colour of 15 that is left");
    turn(&pocket, (struct bytes)BYTES(file), (struct bytes)BYTES(wide), "a colour of 15 that is left");
    turn(&large, (struct bytes)BYTES(wide), (struct bytes)BYTES(file), "a colour of 15 that is left");
}

static void calls_of(const struct profile *profile, const struct profile *other)
{
    subject = profile->name;
    check(profile);
    unpack(profile);
    pack(profile);
    pack_limits(profile);
    trace(profile);
    reduce(profile);
    drop(profile);
    turn_rides(profile, other);
}

int main(void)
{
    calls_of(&large, &pocket);
    name_bits();
    from_dot();
    to_dot();
    longest();
    too_large_for_a_pocket();
    leave_faults();
    leave_a_leftover_fault();
    pack_faults();
    draw_faults();
    leave_by_the_last_edge();
    keep_a_fault();
    calls_of(&pocket, &large);
    name_pocket_bits();
    smallest_pocket();
    just_for_a_pocket();
    longest_pocket();
    leave_a_high_pocket_colour();
    printf("%d checks, %d failed\n", checks, failures);
    return failures != 0;
}
