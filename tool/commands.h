/* The eight commands. None of them reads or writes: each makes its output of bytes that were read, by calls of the library. */
#ifndef COMMANDS_H
#define COMMANDS_H

#include "pierhollow.h"
#include "profiles.h"
#include "streams.h"

/* No output is longer than the longest drawing; a ride's is below 200,000 bytes. The byte more is for text, which C ends. */
#define LONGEST_OUTPUT (PIERHOLLOW_LONGEST_DRAWING + 1)

/* One more than counts, so that too many are seen. */
#define MOST_OBSERVATIONS 65536

struct work {
    /* Which file the input is; NULL for a drawing. */
    const struct profile *profile;
    struct bytes input;
    struct bytes observations;
    struct bytes output;
};

struct command {
    const char *name;
    /* The file that it reads; NULL for a drawing. */
    const struct profile *reads;
    /* Whether --pocket has it read a pocket file. */
    bool takes_pocket;
    bool takes_observations;
    /* Answers as the library does. Only where that is 0 there is an output. */
    uint64_t (*run)(struct work *work);
};

/* NULL where there is none of that name. */
const struct command *find_command(const char *name);

#endif
