/* What a refusal means, for people. */
#ifndef REFUSALS_H
#define REFUSALS_H

#include "profiles.h"
#include "streams.h"

/* Says on standard error, in one line, what the library returned for what was read: a file of the profile, or a drawing where that is
   NULL. */
void tell_refusal(uint64_t returned, const struct bytes *input, const struct profile *profile);

#endif
