/* Reads a filter file from standard input, reduces it, and says what became of it. */
#include <inttypes.h>
#include <stdio.h>

#include "pierhollow.h"

static uint8_t file[PIERHOLLOW_LONGEST_FILE + 1];
static uint8_t answer[PIERHOLLOW_LONGEST_FILE + 1];
static uint16_t classes[PIERHOLLOW_MOST_STATES];

static int refused(uint64_t returned)
{
    printf("refused: number %u, place %" PRIu64 "\n",
           pierhollow_number(returned), pierhollow_place(returned));
    return 1;
}

int main(void)
{
    size_t length = fread(file, 1, sizeof file, stdin);
    uint64_t before[4];
    uint64_t after[4];
    uint64_t returned = pierhollow_check(file, length, before);
    if (returned != 0)
        return refused(returned);
    returned = pierhollow_reduce(file, length, answer, sizeof answer,
                                 classes, PIERHOLLOW_MOST_STATES, after);
    if (returned != 0)
        return refused(returned);
    printf("%" PRIu64 " states become %" PRIu64 " in %" PRIu64 " rounds; %zu bytes become %" PRIu64 "\n",
           before[0], after[0], after[2], length, after[3]);
    for (uint64_t state = 0; state < before[0]; state++)
        if (classes[state] == PIERHOLLOW_DROPPED)
            printf("state %" PRIu64 " is dropped: the start cannot reach it\n", state);
        else
            printf("state %" PRIu64 " is now %u\n", state, (unsigned)classes[state]);
    return 0;
}
