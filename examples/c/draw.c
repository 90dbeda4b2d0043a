/* Reads a drawing from standard input and writes the drawing of its reduced filter. */
#include <inttypes.h>
#include <stdio.h>

#include "pierhollow.h"

/* A text that is longer than the longest drawing is refused, so that the byte more is enough. */
static uint8_t drawing[PIERHOLLOW_LONGEST_DRAWING + 1];
static uint8_t file[PIERHOLLOW_LONGEST_FILE];
static uint8_t reduced[PIERHOLLOW_LONGEST_FILE];
static uint16_t classes[PIERHOLLOW_MOST_STATES];

static int refused(uint64_t returned)
{
    printf("refused: number %u, place %" PRIu64 "\n",
           pierhollow_number(returned), pierhollow_place(returned));
    return 1;
}

int main(void)
{
    size_t length = fread(drawing, 1, sizeof drawing, stdin);
    uint64_t file_length;
    uint64_t values[4];
    uint64_t drawing_length;
    uint64_t returned = pierhollow_from_dot(drawing, length, file, sizeof file, &file_length);
    if (returned != 0)
        return refused(returned);
    returned = pierhollow_reduce(file, file_length, reduced, sizeof reduced,
                                 classes, PIERHOLLOW_MOST_STATES, values);
    if (returned != 0)
        return refused(returned);
    returned = pierhollow_to_dot(reduced, values[3], drawing, sizeof drawing, &drawing_length);
    if (returned != 0)
        return refused(returned);
    return fwrite(drawing, 1, drawing_length, stdout) != drawing_length;
}
