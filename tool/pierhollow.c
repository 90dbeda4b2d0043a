/* The command for people: what the library does with filter files and drawings, with a status, files and options. */
#include <signal.h>
#include <stdio.h>
#include <stdlib.h>
#include <string.h>

#include "commands.h"
#include "refusals.h"
#include "streams.h"

enum status { ACCEPTED = 0, REFUSED = 1, FAILED = 2 };

static const char version[] = "pierhollow 6\n";

static const char help[] =
    "Usage: pierhollow COMMAND [--pocket] [-o FILE] [FILE]\n"
    "Checks, draws, reduces and traces combinatorial filters.\n"
    "\n"
    "  check [FILE]      print the states, labels, start and edges of a filter file\n"
    "  from-dot [FILE]   write the filter file of a drawing\n"
    "  to-dot [FILE]     write the drawing of a filter file\n"
    "  reduce [FILE]     print states, reduced states, colours and rounds, then each\n"
    "                    state and its new number, - for one that cannot be reached\n"
    "  shrink [FILE]     write the reduced filter file\n"
    "  to-pocket [FILE]  write the pocket file of a filter file\n"
    "  to-large [FILE]   write the filter file of a pocket file\n"
    "  trace FILE        trace the bytes of standard input, each an observation\n"
    "\n"
    "  --pocket          check, reduce, shrink and trace a pocket file, of at most\n"
    "                    16 states; shrink then writes one\n"
    "  -o FILE           write FILE, whole or not at all, not standard output\n"
    "  --help            print this and end\n"
    "  --version         print the version and end\n"
    "  --                what follows is no option\n"
    "\n"
    "Without FILE, and for -, standard input is read. The status is 0 for accepted,\n"
    "1 for refused (standard error has the number, the place and what it means),\n"
    "and 2 for a wrong command line or a file that cannot be read or written.\n";

enum wanted { WORK, HELP, VERSION, NOTHING };

struct request {
    const struct command *command;
    const char *file;
    const char *output;
    bool pocket;
};

static bool misused(const char *what, const char *argument)
{
    fprintf(stderr, "pierhollow: %s", what);
    if (argument != NULL) {
        fputs(": ", stderr);
        show_name(argument);
    }
    fputs(" (see pierhollow --help)\n", stderr);
    return false;
}

static bool take_operand(struct request *request, const char *argument)
{
    if (request->command == NULL) {
        request->command = find_command(argument);
        return request->command != NULL || misused("unknown command", argument);
    }
    if (request->file != NULL)
        return misused("one file too many", argument);
    request->file = argument;
    return true;
}

static bool take_output(struct request *request, const char *argument)
{
    if (argument == NULL || argument[0] == '\0')
        return misused("-o names no file", NULL);
    if (request->output != NULL)
        return misused("-o a second time", argument);
    request->output = argument;
    return true;
}

static bool take_pocket(struct request *request)
{
    if (request->pocket)
        return misused("--pocket a second time", NULL);
    request->pocket = true;
    return true;
}

static bool complete(const struct request *request)
{
    if (request->command == NULL)
        return misused("no command", NULL);
    /* Standard input has the observations. */
    if (request->command->takes_observations && names_a_stream(request->file))
        return misused("this command needs a file", request->command->name);
    if (request->pocket && !request->command->takes_pocket)
        return misused("this command takes no --pocket", request->command->name);
    return true;
}

static bool is_option(const char *argument)
{
    return argument[0] == '-' && argument[1] != '\0';
}

static enum wanted read_arguments(char **arguments, struct request *request)
{
    bool options_end = false;
    for (; *arguments != NULL; arguments++) {
        const char *argument = *arguments;
        bool taken = true;
        if (options_end || !is_option(argument))
            taken = take_operand(request, argument);
        else if (strcmp(argument, "--") == 0)
            options_end = true;
        else if (strcmp(argument, "--help") == 0)
            return HELP;
        else if (strcmp(argument, "--version") == 0)
            return VERSION;
        else if (strcmp(argument, "-o") == 0)
            taken = take_output(request, *++arguments);
        else if (strcmp(argument, "--pocket") == 0)
            taken = take_pocket(request);
        else
            taken = misused("unknown option", argument);
        if (!taken)
            return NOTHING;
    }
    return complete(request) ? WORK : NOTHING;
}

static bool read_inputs(const struct request *request, struct work *work)
{
    /* Of a file one byte more than the longest has, so that too many are seen. */
    size_t most = work->profile == NULL ? SIZE_MAX : work->profile->longest_file + 1;
    return read_from(request->file, most, &work->input) &&
           (!request->command->takes_observations || read_from(NULL, MOST_OBSERVATIONS, &work->observations));
}

static enum status run(const struct request *request, struct work *work)
{
    if (!read_inputs(request, work) || !make_room(&work->output, LONGEST_OUTPUT))
        return FAILED;
    uint64_t returned = request->command->run(work);
    if (returned != 0) {
        tell_refusal(returned, &work->input, work->profile);
        return REFUSED;
    }
    return write_to(request->output, work->output.at, work->output.length) ? ACCEPTED : FAILED;
}

static enum status run_and_free(const struct request *request)
{
    struct work work = {.profile = request->pocket ? &pocket : request->command->reads};
    enum status status = run(request, &work);
    free(work.input.at);
    free(work.observations.at);
    free(work.output.at);
    return status;
}

static enum status show(const char *text)
{
    return write_to(NULL, (const uint8_t *)text, strlen(text)) ? ACCEPTED : FAILED;
}

int main(int argc, char **argv)
{
    struct request request = {.command = NULL};
    /* A reader that is gone and a file that may not grow are failed writes like others. */
    signal(SIGPIPE, SIG_IGN);
    signal(SIGXFSZ, SIG_IGN);
    switch (read_arguments(argv + (argc > 0), &request)) {
    case WORK:
        return run_and_free(&request);
    case HELP:
        return show(help);
    case VERSION:
        return show(version);
    default:
        return FAILED;
    }
}
