#include "profiles.h"

#include "pierhollow.h"

const struct profile large = {8, 6, 8, 15, 6, PIERHOLLOW_LONGEST_FILE,
                              pierhollow_check, pierhollow_trace, pierhollow_reduce};

const struct profile pocket = {4, 3, 4, 8, 4, PIERHOLLOW_POCKET_LONGEST_FILE,
                               pierhollow_pocket_check, pierhollow_pocket_trace, pierhollow_pocket_reduce};

unsigned header_bits(const struct profile *profile)
{
    return profile->states + profile->labels + profile->start + profile->edges;
}

unsigned edge_bits(const struct profile *profile)
{
    return profile->states + profile->labels + profile->states;
}
