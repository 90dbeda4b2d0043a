#include "refusals.h"

#include <inttypes.h>
#include <stdio.h>
#include <string.h>

#include "pierhollow.h"

struct position {
    size_t line;
    size_t column;
};

/* Both from 1, as editors count. */
static struct position position_of(const struct bytes *text, uint64_t place)
{
    struct position position = {1, 1};
    for (size_t i = 0; i < place && i < text->length; i++) {
        position.column++;
        if (text->at[i] == '\n')
            position = (struct position){position.line + 1, 1};
    }
    return position;
}

/* Every edge has a line of its own, one behind another, and no other line has an arrow. */
static size_t line_of_edge(const struct bytes *drawing, uint64_t edge)
{
    const uint8_t *arrow = memchr(drawing->at, '>', drawing->length);
    uint64_t first = arrow == NULL ? 0 : (uint64_t)(arrow - drawing->at);
    return position_of(drawing, first).line + (size_t)edge;
}

/* A field of an edge of a file: the edge's index, what the field is, and what it is to name. */
struct field {
    uint64_t edge;
    const char *is;
    const char *of;
};

/* The field stands at the front of the first byte, and holds one less. */
static uint64_t states_of(const struct bytes *file, const struct profile *profile)
{
    return (uint64_t)(file->at[0] >> (8 - profile->states)) + 1;
}

/* The field whose first bit this is: behind header and colours stand the edges, each of source, label and target. */
static struct field field_at(const struct bytes *file, const struct profile *profile, uint64_t bit)
{
    uint64_t of_edges = bit - header_bits(profile) - profile->colour * states_of(file, profile);
    uint64_t within = of_edges % edge_bits(profile);
    struct field field = {of_edges / edge_bits(profile), "source", "state"};
    if (within == profile->states) {
        field.is = "label";
        field.of = "label";
    } else if (within == profile->states + profile->labels) {
        field.is = "target";
    }
    return field;
}

static const char *meaning(unsigned number)
{
    switch (number) {
    case PIERHOLLOW_START:
        return "the start is no state of the filter";
    case PIERHOLLOW_EDGE_COUNT:
        return "there are more edges than states times labels";
    case PIERHOLLOW_MISSING:
        return "the file has fewer bytes than its header asks for";
    case PIERHOLLOW_EXCESS:
        return "the file has more bytes than its header asks for";
    case PIERHOLLOW_FILLING:
        return "a filling bit at the end of the file is not 0";
    case PIERHOLLOW_OUTSIDE:
        return "source or target is no state, or the label no label";
    case PIERHOLLOW_ORDER:
        return "source and label come before those of the edge before it";
    case PIERHOLLOW_REPEATED:
        return "source and label equal those of the edge before it";
    case PIERHOLLOW_ROOM:
        return "there are more than 65,535 observations";
    case PIERHOLLOW_OBSERVATION:
        return "it is no label of the filter";
    case PIERHOLLOW_LISTS:
        return "there are not 1 to 256 states, or a colour or a label is above 63";
    case PIERHOLLOW_DRAWING:
        return "no drawing says this: the start is not state 0, or no edge has the last label";
    case PIERHOLLOW_POCKET:
        return "no pocket file holds this: there are more than 16 states or 8 labels, or a colour is above 15";
    case PIERHOLLOW_LEAVING:
        return "the edge leaves a fault: it leads from a state of colour 63 to a state of another colour";
    default:
        /* 10 and 11 are about rooms, and the rooms here are always long enough. */
        return "there are no words for this number here";
    }
}

static void tell_outside_the_profile(const struct bytes *drawing, uint64_t place)
{
    struct position position = position_of(drawing, place);
    fprintf(stderr, "not a drawing of the profile: line %zu, column %zu%s\n", position.line, position.column,
            place == drawing->length ? ", where the text ends" : "");
}

static void tell_edge(unsigned number, uint64_t edge, const struct bytes *drawing)
{
    fprintf(stderr, "edge %" PRIu64 ", counted from 0, on line %zu: %s\n", edge, line_of_edge(drawing, edge), meaning(number));
}

static void tell_field(unsigned number, uint64_t bit, const struct bytes *file, const struct profile *profile)
{
    struct field field = field_at(file, profile, bit);
    fprintf(stderr,
            "bit %" PRIu64 " is byte %" PRIu64 ", bit %" PRIu64 ", the %s of edge %" PRIu64
            " (all from 0, bits from the left): ",
            bit, bit / 8, bit % 8, field.is, field.edge);
    if (number == PIERHOLLOW_OUTSIDE)
        fprintf(stderr, "it is no %s of the filter\n", field.of);
    else
        fprintf(stderr, "%s\n", meaning(number));
}

static bool is_of_an_edge(unsigned number)
{
    return (number >= PIERHOLLOW_OUTSIDE && number <= PIERHOLLOW_REPEATED) || number == PIERHOLLOW_LEAVING;
}

void tell_refusal(uint64_t returned, const struct bytes *input, const struct profile *profile)
{
    unsigned number = pierhollow_number(returned);
    uint64_t place = pierhollow_place(returned);
    bool is_drawing = profile == NULL;
    fprintf(stderr, "refused %u %" PRIu64 ": ", number, place);
    if (number == PIERHOLLOW_DRAWING && is_drawing)
        tell_outside_the_profile(input, place);
    else if (is_of_an_edge(number) && is_drawing)
        tell_edge(number, place, input);
    else if (is_of_an_edge(number))
        tell_field(number, place, input, profile);
    else if (number == PIERHOLLOW_TOO_SHORT)
        fprintf(stderr, "the file has fewer than %u bytes\n", (header_bits(profile) + 7) / 8);
    else if (number == PIERHOLLOW_OBSERVATION)
        fprintf(stderr, "observation %" PRIu64 ", counted from 0: %s\n", place, meaning(number));
    else
        fprintf(stderr, "%s\n", meaning(number));
}
