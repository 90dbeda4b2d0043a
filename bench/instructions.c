/*
 * Makes each measured call once on each side, between two getppid, for the plugin counter.c to count its instructions. Prints what is
 * called: for three counts, of the archive, of plain C and of nothing, a line with the file, the filter, the call and the target.
 */
#define _XOPEN_SOURCE 700
#include <stdio.h>
#include <unistd.h>

#include "compare.h"
#include "subjects.h"

static void count(enum side side, const struct job *job)
{
    getppid();
    run(side, job);
    getppid();
}

static void count_line(size_t family, size_t line)
{
    struct job job = job_of_line(&subjects[family], line);
    compare(&job, families[family].name);
    for (enum side side = 0; side < SIDES; side++)
        count(side, &job);
    printf("%s|%s|%s|%.1f\n", titles[families[family].form], families[family].name, name_of_line(line), target_of(family, line));
}

int main(void)
{
    prepare_families();
    for (size_t family = 0; family < FAMILIES; family++)
        for (size_t line = 0; line < LINES; line++)
            if (is_measured(family, line))
                count_line(family, line);
    return 0;
}
