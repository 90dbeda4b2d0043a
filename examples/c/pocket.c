/* Reads a large file from standard input, reduces it, and writes the pocket file of the reduced filter, for a board of sixteen states. */
#include <inttypes.h>
#include <stdio.h>

#include "pierhollow.h"

static uint8_t file[PIERHOLLOW_LONGEST_FILE + 1];
static uint8_t reduced[PIERHOLLOW_LONGEST_FILE + 1];
static uint16_t classes[PIERHOLLOW_MOST_STATES];
static uint8_t pocket[PIERHOLLOW_POCKET_LONGEST_FILE];

static int refused(uint64_t returned)
{
    if (pierhollow_number(returned) == PIERHOLLOW_POCKET)
        fprintf(stderr, "the reduced filter has more than %d states, more than %d labels or a colour above 15\n",
                PIERHOLLOW_POCKET_MOST_STATES, PIERHOLLOW_POCKET_MOST_LABELS);
    else
        fprintf(stderr, "refused: number %u, place %" PRIu64 "\n",
                pierhollow_number(returned), pierhollow_place(returned));
    return 1;
}

int main(void)
{
    size_t length = fread(file, 1, sizeof file, stdin);
    uint64_t values[4];
    uint64_t pocket_length;
    uint64_t returned = pierhollow_reduce(file, length, reduced, sizeof reduced,
                                          classes, PIERHOLLOW_MOST_STATES, values);
    if (returned != 0)
        return refused(returned);
    returned = pierhollow_to_pocket(reduced, values[3], pocket, sizeof pocket, &pocket_length);
    if (returned != 0)
        return refused(returned);
    return fwrite(pocket, 1, pocket_length, stdout) != pocket_length;
}
