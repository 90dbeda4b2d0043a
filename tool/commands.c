#include "commands.h"

#include <inttypes.h>
#include <stdarg.h>
#include <stdio.h>
#include <string.h>

static void print(struct bytes *output, const char *format, ...)
{
    va_list values;
    va_start(values, format);
    output->length += (size_t)vsnprintf((char *)output->at + output->length, output->room - output->length, format, values);
    va_end(values);
}

static uint64_t check(struct work *work)
{
    uint64_t values[4];
    uint64_t returned = work->profile->check(work->input.at, work->input.length, values);
    if (returned == 0)
        print(&work->output, "%" PRIu64 " %" PRIu64 " %" PRIu64 " %" PRIu64 "\n", values[0], values[1], values[2], values[3]);
    return returned;
}

/* A call that makes of one file or text another, and answers its length. */
typedef uint64_t turning(const uint8_t *from, size_t from_length, uint8_t *room, size_t room_length, uint64_t values[1]);

static uint64_t turn(turning *call, struct work *work)
{
    uint64_t length = 0;
    uint64_t returned = call(work->input.at, work->input.length, work->output.at, work->output.room, &length);
    work->output.length = (size_t)length;
    return returned;
}

static uint64_t from_dot(struct work *work)
{
    return turn(pierhollow_from_dot, work);
}

static uint64_t to_dot(struct work *work)
{
    return turn(pierhollow_to_dot, work);
}

static uint64_t to_large(struct work *work)
{
    return turn(pierhollow_to_large, work);
}

static uint64_t to_pocket(struct work *work)
{
    return turn(pierhollow_to_pocket, work);
}

static void print_new_number(struct bytes *output, unsigned state, uint16_t number)
{
    if (number == PIERHOLLOW_DROPPED)
        print(output, "%u -\n", state);
    else
        print(output, "%u %u\n", state, (unsigned)number);
}

static uint64_t reduce(struct work *work)
{
    uint64_t before[4];
    uint64_t after[4];
    uint8_t reduced[PIERHOLLOW_LONGEST_FILE];
    uint16_t classes[PIERHOLLOW_MOST_STATES];
    uint64_t returned = work->profile->check(work->input.at, work->input.length, before);
    if (returned != 0)
        return returned;
    returned = work->profile->reduce(work->input.at, work->input.length, reduced, sizeof reduced,
                                     classes, PIERHOLLOW_MOST_STATES, after);
    if (returned != 0)
        return returned;
    print(&work->output, "%" PRIu64 " %" PRIu64 " %" PRIu64 " %" PRIu64 "\n", before[0], after[0], after[1], after[2]);
    for (unsigned state = 0; state < before[0]; state++)
        print_new_number(&work->output, state, classes[state]);
    return 0;
}

static uint64_t shrink(struct work *work)
{
    uint64_t values[4] = {0, 0, 0, 0};
    uint16_t classes[PIERHOLLOW_MOST_STATES];
    uint64_t returned = work->profile->reduce(work->input.at, work->input.length, work->output.at, work->output.room,
                                              classes, PIERHOLLOW_MOST_STATES, values);
    work->output.length = (size_t)values[3];
    return returned;
}

static uint64_t trace(struct work *work)
{
    uint64_t values[2];
    uint8_t colours[MOST_OBSERVATIONS + 1];
    uint64_t returned = work->profile->trace(work->input.at, work->input.length, work->observations.at,
                                             work->observations.length, colours, sizeof colours, values);
    if (returned != 0)
        return returned;
    bool stopped = values[0] != 0;
    uint64_t taken = stopped ? values[1] : work->observations.length;
    for (uint64_t i = 0; i <= taken; i++)
        print(&work->output, "%u\n", (unsigned)colours[i]);
    if (stopped)
        print(&work->output, "stopped %" PRIu64 "\n", values[1]);
    else
        print(&work->output, "traced\n");
    return 0;
}

static const struct command commands[] = {
    {.name = "check", .reads = &large, .takes_pocket = true, .run = check},
    {.name = "from-dot", .reads = NULL, .run = from_dot},
    {.name = "to-dot", .reads = &large, .run = to_dot},
    {.name = "reduce", .reads = &large, .takes_pocket = true, .run = reduce},
    {.name = "shrink", .reads = &large, .takes_pocket = true, .run = shrink},
    {.name = "to-pocket", .reads = &large, .run = to_pocket},
    {.name = "to-large", .reads = &pocket, .run = to_large},
    {.name = "trace", .reads = &large, .takes_pocket = true, .takes_observations = true, .run = trace},
};

const struct command *find_command(const char *name)
{
    for (size_t i = 0; i < sizeof commands / sizeof *commands; i++)
        if (strcmp(commands[i].name, name) == 0)
            return &commands[i];
    return NULL;
}
