/* The calls of pierhollow.h as rows of one table, and one call made: all that it is given, and all that comes out of it. */
#ifndef CALLS_H
#define CALLS_H

#include "families.h"
#include "plain.h"

/* Whose function a call is. Those of NOTHING only return: what they cost belongs to the measuring. */
enum side { ARCHIVE, PLAIN, NOTHING, SIDES };

/* What a filter is written as. */
enum form { LARGE, POCKET, DRAWING, FORMS };

enum {
    BEHIND = 64, /* bytes and entries behind each room, which every call must leave as found */
    LONGEST_TEXT = 10 + 16 * MOST_STATES + 23 * MOST_EDGES + 2, /* that a filter is drawn as, or more */
    FIRST_ROOM = LONGEST_TEXT + 2 + BEHIND,
    SECOND_ROOM = 3 * MOST_EDGES + BEHIND
};

enum call_number {
    CHECK,
    UNPACK,
    PACK,
    TRACE,
    REDUCE,
    FROM_DOT,
    TO_DOT,
    POCKET_CHECK,
    POCKET_UNPACK,
    POCKET_PACK,
    POCKET_TRACE,
    POCKET_REDUCE,
    TO_LARGE,
    TO_POCKET,
    CALLS
};

/* What kind of call it is, which says what it takes. */
enum kind { CHECKS, UNPACKS, PACKS, TRACES, REDUCES, CONVERTS };

union function {
    check_call *check;
    unpack_call *unpack;
    pack_call *pack;
    trace_call *trace;
    reduce_call *reduce;
    convert_call *convert;
};

/* Answers as a bit a number; the bit of 0 stands for accepting. */
#define BIT(number) (UINT32_C(1) << (number))

struct call {
    const char *name;
    enum kind kind;
    enum form measured_on; /* families of large or of pocket files */
    enum form from, to;    /* what it reads, and what it writes if it writes any */
    uint32_t answers;      /* that it gives, all of them */
    double target;         /* the most that archive / plain C should be; 0 where none is set */
    union function of[SIDES];
};

extern const struct call calls[CALLS];

/* One call with all that it is given. `first` and `second` are the lengths of the rooms lent, in bytes or in entries. */
struct job {
    const struct call *call;
    const uint8_t *input;
    size_t input_length;
    const struct filter *lists; /* for a pack, instead of the input */
    size_t colours_length, edges_length;
    const uint8_t *observations;
    size_t observations_length;
    size_t first, second;
};

/* What a call returned, its values and its rooms. */
struct outcome {
    uint64_t returned;
    uint64_t values[4];
    uint8_t first[FIRST_ROOM];
    union {
        uint8_t bytes[SECOND_ROOM];
        uint16_t entries[MOST_STATES + BEHIND];
    } second;
};

/* Of the last call of each side. */
extern struct outcome outcomes[SIDES];

void run(enum side side, const struct job *job);

#endif
