/*
 * Compares the archive's calls with plain C: first the answers, byte for byte, then the time, in alternate runs within this one process.
 * Prints tables: ratios, growth with the number of states, and stack. Compiled with PLAIN_COUNT, together with plain C, it counts plain
 * C's work instead and times nothing.
 */
#define _XOPEN_SOURCE 700
#include <inttypes.h>
#include <math.h>
#include <stdio.h>
#include <stdlib.h>
#include <string.h>
#include <time.h>
#include <ucontext.h>

#include "compare.h"
#include "subjects.h"

#ifndef PLAIN_COUNT

/* Time. */

enum { MOST_PAIRS = 101 };

static size_t fewest_pairs = 9; /* of neighbouring runs, however long they take */

struct timing {
    double archive, plain; /* medians, nanoseconds a call */
    double low, middle, high; /* quartiles of the ratios of neighbouring runs */
};

static double now(void)
{
    struct timespec t;
    clock_gettime(CLOCK_MONOTONIC, &t);
    return (double)t.tv_sec * 1e9 + (double)t.tv_nsec;
}

static double time_run(enum side side, const struct job *job, size_t times)
{
    double begin = now();
    for (size_t i = 0; i < times; i++)
        run(side, job);
    return (now() - begin) / (double)times;
}

/* Calls in one run: enough that the clock's own steps do not matter. */
static size_t calls_in_run(const struct job *job)
{
    const double enough = 2e5;
    size_t times = 1;
    while (times < 1u << 20 && time_run(ARCHIVE, job, times) * (double)times < enough)
        times *= 2;
    return times;
}

static int by_size(const void *a, const void *b)
{
    double x = *(const double *)a;
    double y = *(const double *)b;
    return (x > y) - (x < y);
}

/* Sorts the values, and gives the one that `part` of them are below. */
static double quantile(double *values, size_t count, double part)
{
    qsort(values, count, sizeof *values, by_size);
    return values[(size_t)(part * (double)(count - 1) + 0.5)];
}

/* Times the two sides in turn until the time allowed is used up. */
static struct timing time_both(const struct job *job, double allowed)
{
    double a[MOST_PAIRS], b[MOST_PAIRS], ratio[MOST_PAIRS];
    size_t times = calls_in_run(job);
    size_t pairs = 0;
    double begin = now();
    while (pairs < MOST_PAIRS && (pairs < fewest_pairs || now() - begin < allowed)) {
        a[pairs] = time_run(ARCHIVE, job, times);
        b[pairs] = time_run(PLAIN, job, times);
        ratio[pairs] = a[pairs] / b[pairs];
        pairs++;
    }
    return (struct timing){quantile(a, pairs, 0.5), quantile(b, pairs, 0.5),
                           quantile(ratio, pairs, 0.25), quantile(ratio, pairs, 0.5), quantile(ratio, pairs, 0.75)};
}

/* A time in the unit that suits it. */
static const char *in_words(double ns, char text[16])
{
    if (ns < 1e4)
        snprintf(text, 16, "%.0f ns", ns);
    else if (ns < 1e7)
        snprintf(text, 16, "%.0f us", ns / 1e3);
    else
        snprintf(text, 16, "%.0f ms", ns / 1e6);
    return text;
}

/* Prints one line of the ratios; answers whether it is above its target. */
static int print_ratio(size_t family, size_t line, double allowed)
{
    char x[16], y[16], limit[16] = "";
    struct job job = job_of_line(&subjects[family], line);
    struct timing t = time_both(&job, allowed);
    double most = target_of(family, line);
    int high = most > 0 && t.middle > most;
    if (most > 0)
        snprintf(limit, sizeof limit, "%.1f", most);
    printf("| %s | %s | %s | %s | %.2f | %.2f to %.2f | %s | %s |\n", families[family].name, name_of_line(line),
           in_words(t.archive, x), in_words(t.plain, y), t.middle, t.low, t.high, limit, high ? "*" : "");
    fflush(stdout);
    return high;
}

static void print_ratios(enum form form, double allowed)
{
    size_t above = 0;
    size_t with_target = 0;
    printf("%s. Ratio: archive / plain C, the median over neighbouring runs, with its quartiles. `*`: above the target.\n\n", titles[form]);
    printf("| Filter | Call | Archive | Plain C | Ratio | Quartiles | Target | |\n|---|---|--:|--:|--:|---|--:|---|\n");
    for (size_t family = 0; family < FAMILIES; family++)
        for (size_t line = 0; line < LINES; line++)
            if (families[family].form == form && is_measured(family, line)) {
                with_target += target_of(family, line) > 0;
                above += (size_t)print_ratio(family, line, allowed);
            }
    printf("\n%zu of %zu ratios are above their target.\n\n", above, with_target);
}

/* Growth: the exponent of n in the time of a call, by least squares over the logarithms. */

enum { SIZES = 5 }; /* 16, 32, 64, 128, 256 */

static double slope(const double *x, const double *y, size_t count)
{
    double sx = 0, sy = 0, sxx = 0, sxy = 0;
    for (size_t i = 0; i < count; i++) {
        sx += x[i];
        sy += y[i];
        sxx += x[i] * x[i];
        sxy += x[i] * y[i];
    }
    return ((double)count * sxy - sx * sy) / ((double)count * sxx - sx * sx);
}

static void print_growth_of(const char *name, maker *make, size_t m, size_t line, double allowed)
{
    static struct subject s;
    double n[SIZES], a[SIZES], b[SIZES];
    printf("| %s | %s |", name, name_of_line(line));
    for (size_t i = 0; i < SIZES; i++) {
        char x[16], y[16];
        make(&s.filter, (size_t)16 << i, m, SEED);
        prepare(&s, LONG_RIDE);
        struct job job = job_of_line(&s, line);
        compare(&job, name);
        struct timing t = time_both(&job, allowed);
        n[i] = log((double)s.filter.n);
        a[i] = log(t.archive);
        b[i] = log(t.plain);
        printf(" %s / %s |", in_words(t.archive, x), in_words(t.plain, y));
    }
    printf(" %.2f | %.2f |\n", slope(n, a, SIZES), slope(n, b, SIZES));
    fflush(stdout);
}

/* Of large files: a pocket file cannot grow far. */
static void print_growth(double allowed)
{
    printf("Growth with n: archive / plain C, and the exponent of n fitted to each.\n\n");
    printf("| Filter | Call | 16 | 32 | 64 | 128 | 256 | Archive | Plain C |\n|---|---|---|---|---|---|---|--:|--:|\n");
    for (size_t line = 0; line < LINES; line++)
        if (calls[lines[line].call].measured_on == LARGE)
            print_growth_of("dense random, 64 labels", make_dense, 64, line, allowed);
    for (size_t line = 0; line < LINES; line++)
        if (lines[line].call == REDUCE) {
            print_growth_of("sparse, 64 labels", make_sparse, 64, line, allowed);
            print_growth_of("chain", make_chain, 1, line, allowed);
            print_growth_of("full chain, 64 labels", make_chain, 64, line, allowed);
        }
    printf("\n");
}

/* Stack: the call is made on a painted stack of its own; what it has used is no longer painted. */

enum { STACK = 256 * 1024 };

static uint8_t stack[STACK];

static struct {
    enum side side;
    const struct job *job;
    ucontext_t back;
} on_stack;

static void run_on_stack(void)
{
    run(on_stack.side, on_stack.job);
}

static size_t bytes_touched(enum side side, const struct job *job, uint8_t paint_byte)
{
    ucontext_t call;
    memset(stack, paint_byte, sizeof stack);
    on_stack.side = side;
    on_stack.job = job;
    getcontext(&call);
    call.uc_stack.ss_sp = stack;
    call.uc_stack.ss_size = sizeof stack;
    call.uc_link = &on_stack.back;
    makecontext(&call, run_on_stack, 0);
    swapcontext(&on_stack.back, &call);
    size_t untouched = 0;
    while (untouched < sizeof stack && stack[untouched] == paint_byte)
        untouched++;
    return sizeof stack - untouched;
}

/* Two paints, since a call may happen to store one of them. */
static size_t deepest(enum side side, const struct job *job)
{
    size_t one = bytes_touched(side, job, 0xa5);
    size_t other = bytes_touched(side, job, 0x5a);
    return one > other ? one : other;
}

/* The most that a call touches over the measured filters with so many states or fewer. */
static size_t most_touched(enum side side, size_t line, size_t states)
{
    size_t most = 0;
    for (size_t family = 0; family < FAMILIES; family++) {
        if (!is_measured(family, line) || families[family].n > states)
            continue;
        struct job job = job_of_line(&subjects[family], line);
        size_t touched = deepest(side, &job) - deepest(NOTHING, &job);
        most = touched > most ? touched : most;
    }
    return most;
}

static void print_stack(enum form form, const size_t states[3])
{
    printf("%s. Stack in bytes, the most over the filters above with up to %zu, %zu and %zu states.\n\n", titles[form], states[0],
           states[1], states[2]);
    printf("| Call | Archive, %zu | %zu | %zu | Plain C, %zu | %zu | %zu |\n|---|--:|--:|--:|--:|--:|--:|\n", states[0], states[1],
           states[2], states[0], states[1], states[2]);
    for (size_t line = 0; line < LINES; line++) {
        if (calls[lines[line].call].measured_on != form)
            continue;
        printf("| %s |", name_of_line(line));
        for (enum side side = ARCHIVE; side <= PLAIN; side++)
            for (size_t i = 0; i < 3; i++)
                printf(" %zu |", most_touched(side, line, states[i]));
        printf("\n");
    }
    printf("\n");
}

int main(int count, char **arguments)
{
    /* An emulator is so much slower that fewer cases and shorter runs have to do. */
    int slow = count > 1 && strcmp(arguments[1], "slow") == 0;
    if (slow)
        fewest_pairs = 3;
    prepare_families();
    compare_all(slow ? 2000 : 50000);
    print_ratios(LARGE, slow ? 1e8 : 4e8);
    print_ratios(POCKET, slow ? 1e8 : 4e8);
    print_growth(slow ? 5e7 : 1.5e8);
    print_stack(LARGE, (const size_t[]){16, 64, 256});
    print_stack(POCKET, (const size_t[]){4, 8, 16});
    return 0;
}

#else

/* Counted work. */

struct plain_counts plain_counts;

static void print_counts_of(size_t family)
{
    const struct filter *f = &subjects[family].filter;
    const struct outcome *out = &outcomes[PLAIN];
    struct job job = job_of(&subjects[family], families[family].form == POCKET ? POCKET_REDUCE : REDUCE, 0);
    memset(&plain_counts, 0, sizeof plain_counts);
    run(PLAIN, &job);
    printf("| %s | %zu | %zu | %zu | %" PRIu64 " | %" PRIu64 " | %" PRIu64 " | %" PRIu64 " | %" PRIu64 " |\n", families[family].name,
           f->n, f->m, f->e, out->values[0], out->values[2], plain_counts.looks, plain_counts.pair_tests, plain_counts.look_ups);
}

static void print_counts(enum form form)
{
    printf("%s. Counted work of plain C in one reduce call.\n\n", titles[form]);
    printf("| Filter | States | Labels | Edges | Reduced states | Rounds | Searches | Pair tests | Table look-ups |\n");
    printf("|---|--:|--:|--:|--:|--:|--:|--:|--:|\n");
    for (size_t family = 0; family < FAMILIES; family++)
        if (families[family].form == form)
            print_counts_of(family);
    printf("\n");
}

int main(void)
{
    prepare_families();
    compare_all(2000);
    print_counts(LARGE);
    print_counts(POCKET);
    return 0;
}

#endif
