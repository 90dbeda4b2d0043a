#include "compare.h"

#include <inttypes.h>
#include <stdio.h>
#include <stdlib.h>
#include <string.h>

#include "pierhollow.h"
#include "subjects.h"

/* How many bytes of the second room the call could reach, with some behind. */
static size_t second_bytes(const struct job *job)
{
    return job->call->kind == REDUCES ? (job->second + BEHIND) * sizeof(uint16_t) : job->second + BEHIND;
}

static void paint(struct outcome *out, const struct job *job)
{
    memset(out->values, 0xc3, sizeof out->values);
    memset(out->first, 0xc3, job->first + BEHIND);
    memset(out->second.bytes, 0xc3, second_bytes(job));
}

static int same(const struct outcome *a, const struct outcome *b, const struct job *job)
{
    return a->returned == b->returned && memcmp(a->values, b->values, sizeof a->values) == 0 &&
           memcmp(a->first, b->first, job->first + BEHIND) == 0 &&
           memcmp(a->second.bytes, b->second.bytes, second_bytes(job)) == 0;
}

static size_t compared;
static uint32_t answers_seen[CALLS];

void compare(const struct job *job, const char *where)
{
    const struct outcome *a = &outcomes[ARCHIVE];
    const struct outcome *b = &outcomes[PLAIN];
    compared++;
    for (enum side side = ARCHIVE; side <= PLAIN; side++) {
        paint(&outcomes[side], job);
        run(side, job);
    }
    if (same(a, b, job)) {
        answers_seen[job->call - calls] |= BIT(pierhollow_number(b->returned));
        return;
    }
    fprintf(stderr, "bench: the two differ: %s, %s, returned %" PRIu64 " and %" PRIu64 "\n", where, job->call->name, a->returned,
            b->returned);
    exit(1);
}

/* Every call on every family, also where it is refused; what is measured must be accepted. */
static void compare_family(size_t family)
{
    for (size_t line = 0; line < LINES; line++) {
        struct job job = job_of_line(&subjects[family], line);
        compare(&job, families[family].name);
        if (is_measured(family, line) && outcomes[PLAIN].returned != 0) {
            fprintf(stderr, "bench: %s would be timed on a filter that it refuses: %s\n", name_of_line(line), families[family].name);
            exit(2);
        }
    }
    for (enum call_number call = CHECK; call < CALLS; call++) {
        struct job too_long = job_of(&subjects[family], call, LONG_RIDE + 1);
        if (too_long.call->kind == TRACES)
            compare(&too_long, "a ride that is too long");
    }
}

/* Every call on one filter, with rooms that are just long enough and with a first room that is not. */
static void compare_rooms(const struct subject *s, const char *where)
{
    for (enum call_number call = CHECK; call < CALLS; call++) {
        struct job job = job_of(s, call, SHORT_RIDE);
        compare(&job, where);
        if (job.first > 0) {
            job.first--;
            compare(&job, where);
        }
    }
}

/* Filters around what a pocket file holds and what a large one does, with this colour in one state; a fault is kept. */
static void compare_limits(void)
{
    static const size_t states[] = {1, 15, 16, 17, 256};
    static const size_t labels[] = {1, 7, 8, 9, 64};
    static const uint8_t colours[] = {14, 15, 16, 63};
    static struct subject s;
    for (size_t n = 0; n < sizeof states / sizeof *states; n++)
        for (size_t m = 0; m < sizeof labels / sizeof *labels; m++)
            for (size_t c = 0; c < sizeof colours / sizeof *colours; c++) {
                make_dense(&s.filter, states[n], labels[m], SEED);
                s.filter.colours[states[n] / 2] = colours[c];
                seal_faults(&s.filter);
                prepare(&s, SHORT_RIDE);
                compare_rooms(&s, "a filter at the limits of a file");
            }
}

/* Faults, many of which are left: no pack writes such a file, so that the colours are changed behind it. */

/* A family whose states from this one on are faults. */
static void compare_last_faults(size_t family, size_t first)
{
    static struct subject s;
    s = subjects[family];
    memset(s.filter.colours + first, FAULT_COLOUR, s.filter.n - first);
    recolour(&s);
    compare_rooms(&s, "a family with faults");
}

/* Three states that lead where the bits say, and are faults where the bits say. */
static void compare_three(unsigned targets, unsigned faults)
{
    static struct subject s;
    make_three(&s.filter, targets);
    prepare(&s, SHORT_RIDE);
    for (size_t state = 0; state < s.filter.n; state++)
        s.filter.colours[state] = faults >> state & 1 ? FAULT_COLOUR : 0;
    recolour(&s);
    compare_rooms(&s, "three states, some of them faults");
}

/* An edge from one colour to another. */
static void compare_colours(uint8_t from, uint8_t to)
{
    static struct subject s;
    make_chain(&s.filter, 2, 1, SEED);
    s.filter.e = 1;
    prepare(&s, SHORT_RIDE);
    s.filter.colours[0] = from;
    s.filter.colours[1] = to;
    recolour(&s);
    compare_rooms(&s, "an edge from one colour to another");
}

static void compare_faults(void)
{
    for (size_t family = 0; family < FAMILIES; family++) {
        size_t n = subjects[family].filter.n;
        compare_last_faults(family, 0);
        compare_last_faults(family, n / 2);
        compare_last_faults(family, n - 1);
    }
    for (unsigned targets = 0; targets < 64; targets++)
        for (unsigned faults = 0; faults < 8; faults++)
            compare_three(targets, faults);
    for (unsigned colour = 0; colour <= FAULT_COLOUR; colour++) {
        compare_colours((uint8_t)colour, FAULT_COLOUR);
        compare_colours(FAULT_COLOUR, (uint8_t)colour);
    }
}

/* Spoiling. */

/* A length that is often the wanted one, and otherwise somewhat off. */
static size_t about(size_t wanted, uint64_t *seed)
{
    if (random_below(seed, 4) != 0)
        return wanted;
    return wanted + random_below(seed, 3) - (wanted > 0);
}

/* The same, or any shorter one. */
static size_t room_about(size_t wanted, uint64_t *seed)
{
    return random_below(seed, 16) == 0 ? random_below(seed, wanted + 1) : about(wanted, seed);
}

/* Flips bits of a file, often among its first bytes, and changes its length. */
static void spoil_file(struct written *file, size_t first_bytes, uint64_t *seed)
{
    if (file->length == 0)
        return;
    for (size_t times = random_below(seed, 4); times > 0; times--) {
        size_t among = random_below(seed, 2) == 0 ? first_bytes : file->length;
        file->bytes[random_below(seed, among)] ^= (uint8_t)(1u << random_below(seed, 8));
    }
    file->length = random_below(seed, 16) == 0 ? random_below(seed, file->length) : about(file->length, seed);
}

/* Changes entries of the lists that are to be packed, m and start. */
static void spoil_lists(struct filter *f, uint64_t *seed)
{
    for (size_t times = random_below(seed, 4); times > 0 && f->e > 0; times--)
        f->edges[random_below(seed, 3 * f->e)] = (uint8_t)random_below(seed, 12);
    if (random_below(seed, 16) == 0)
        f->colours[random_below(seed, f->n)] = (uint8_t)random_below(seed, 256);
    f->m = random_below(seed, 16) == 0 ? random_below(seed, 70) : about(f->m, seed);
    f->start = about(f->start, seed);
}

/* A number that is now and then beyond what a filter may have, or beyond what a byte holds. */
static unsigned odd_number(uint64_t *seed)
{
    static const size_t limits[] = {2, 12, 66, 260, 1000};
    return (unsigned)random_below(seed, limits[random_below(seed, sizeof limits / sizeof *limits)]);
}

/* Changes numbers of a drawing, repeats an edge, takes away states or puts one behind the edges. */
static void spoil_sketch(struct sketch *k, uint64_t *seed)
{
    for (size_t times = random_below(seed, 3); times > 0 && k->e > 0; times--)
        k->edges[random_below(seed, k->e)][random_below(seed, 3)] = odd_number(seed);
    if (random_below(seed, 16) == 0)
        k->colours[random_below(seed, k->n)] = odd_number(seed);
    if (random_below(seed, 8) == 0 && k->e > 0) {
        memcpy(k->edges[k->e], k->edges[k->e - 1], sizeof *k->edges);
        k->e++;
    }
    if (random_below(seed, 16) == 0)
        k->n = random_below(seed, k->n + 1);
    k->late = random_below(seed, 16) == 0;
}

/* Changes, drops or puts in a byte. */
static void spoil_byte(struct written *text, uint64_t *seed)
{
    static const char fitting[] = "0123456789 -> [label=];\n}digraph {";
    uint8_t *at = text->bytes + random_below(seed, text->length);
    size_t behind = (size_t)(text->bytes + text->length - at);
    uint8_t byte = random_below(seed, 8) == 0 ? (uint8_t)random_below(seed, 256)
                                             : (uint8_t)fitting[random_below(seed, sizeof fitting - 1)];
    switch (random_below(seed, 3)) {
    case 0:
        *at = byte;
        break;
    case 1:
        memmove(at, at + 1, behind - 1);
        text->length--;
        break;
    default:
        memmove(at + 1, at, behind);
        *at = byte;
        text->length++;
        break;
    }
}

/* Draws the filter anew, often as something else, and often outside the profile. */
static void spoil_text(struct written *text, const struct filter *f, uint64_t *seed)
{
    static struct sketch sketch;
    sketch_filter(&sketch, f);
    spoil_sketch(&sketch, seed);
    draw(&sketch, text);
    for (size_t times = random_below(seed, 4); times > 1; times--)
        spoil_byte(text, seed);
    if (random_below(seed, 16) == 0)
        text->length = random_below(seed, text->length);
    if (random_below(seed, 16) == 0) {
        size_t more = random_below(seed, text->length + 1);
        memcpy(text->bytes + text->length, text->bytes, more);
        text->length += more;
    }
}

/* The states of one colour become faults, which their edges keep. */
static void make_faults(struct filter *f, uint8_t colour)
{
    for (size_t s = 0; s < f->n; s++)
        if (f->colours[s] == colour)
            f->colours[s] = FAULT_COLOUR;
    seal_faults(f);
}

/* Makes a small filter in every form, some of them too large for a pocket file, and some with faults. */
static void prepare_any(struct subject *s, size_t ride, uint64_t *seed)
{
    if (random_below(seed, 8) == 0)
        make_any(&s->filter, 20, 10, seed);
    else
        make_any(&s->filter, 10, 5, seed);
    if (random_below(seed, 4) == 0)
        make_faults(&s->filter, s->filter.colours[random_below(seed, s->filter.n)]);
    prepare(s, ride);
}

static void spoil(struct subject *s, size_t ride, uint64_t *seed)
{
    if (random_below(seed, 4) == 0) {
        s->filter.colours[random_below(seed, s->filter.n)] = FAULT_COLOUR;
        recolour(s);
    }
    spoil_file(&s->forms[LARGE], 6, seed);
    spoil_file(&s->forms[POCKET], 3, seed);
    spoil_text(&s->forms[DRAWING], &s->filter, seed);
    spoil_lists(&s->filter, seed);
    s->ride[random_below(seed, ride)] = (uint8_t)random_below(seed, 10);
}

/* One small filter, perhaps spoilt, through all calls, with rooms of which some are too short. */
static void compare_spoilt(uint64_t *seed)
{
    enum { RIDE = 20 };
    static struct subject s;
    struct job jobs[CALLS];
    prepare_any(&s, RIDE, seed);
    for (enum call_number call = CHECK; call < CALLS; call++)
        jobs[call] = job_of(&s, call, random_below(seed, RIDE));
    spoil(&s, RIDE, seed);
    for (enum call_number call = CHECK; call < CALLS; call++) {
        struct job *job = &jobs[call];
        job->input_length = s.forms[job->call->from].length;
        job->colours_length = about(job->colours_length, seed);
        job->edges_length = about(job->edges_length, seed);
        job->first = room_about(job->first, seed);
        job->second = room_about(job->second, seed);
        compare(job, "a spoilt filter");
    }
}

/* Drawings. */

/* The drawing that has been sketched, with a little room. */
static void compare_sketch(const struct sketch *sketch, const char *where)
{
    static struct subject s;
    draw(sketch, &s.forms[DRAWING]);
    struct job job = job_of(&s, FROM_DOT, 0);
    job.first = 1024;
    compare(&job, where);
}

/* A drawing of so many states and a loop at each. */
static void compare_states(size_t n)
{
    static struct sketch sketch;
    memset(&sketch, 0, sizeof sketch);
    sketch.n = n;
    sketch.e = n;
    for (size_t i = 0; i < n; i++) {
        sketch.edges[i][0] = (unsigned)i;
        sketch.edges[i][2] = (unsigned)i;
    }
    compare_sketch(&sketch, "a drawing of many states");
}

/* Drawings of two states and an edge, with this number for each that it can stand for: a part of the edge, or the colour of a state. */
static void compare_number(unsigned number)
{
    static struct sketch sketch;
    for (size_t part = 0; part < 5; part++) {
        memset(&sketch, 0, sizeof sketch);
        sketch.n = 2;
        sketch.e = 1;
        sketch.edges[0][2] = 1;
        if (part < 3)
            sketch.edges[0][part] = number;
        else
            sketch.colours[part - 3] = number;
        compare_sketch(&sketch, "a drawing with any number");
    }
}

/* Every beginning of a small drawing, and every byte of it made every other. */
static void compare_every_byte(void)
{
    static struct subject s;
    uint64_t seed = SEED;
    make_any(&s.filter, 3, 2, &seed);
    while (s.filter.n != 3 || s.filter.e != 4)
        make_any(&s.filter, 3, 2, &seed);
    prepare(&s, 0);
    struct written *text = &s.forms[DRAWING];
    struct job job = job_of(&s, FROM_DOT, 0);
    for (job.input_length = 0; job.input_length < text->length; job.input_length++)
        compare(&job, "a text that is cut off");
    for (size_t i = 0; i < text->length; i++) {
        uint8_t before = text->bytes[i];
        for (unsigned byte = 0; byte < 256; byte++) {
            text->bytes[i] = (uint8_t)byte;
            compare(&job, "a text with one byte changed");
        }
        text->bytes[i] = before;
    }
}

static void compare_drawings(void)
{
    static const size_t states[] = {0, 1, 2, 9, 10, 11, 99, 100, 101, 255, 256, 257, 999, 1000, 1001};
    for (size_t i = 0; i < sizeof states / sizeof *states; i++)
        compare_states(states[i]);
    for (unsigned number = 0; number <= 1000; number++)
        compare_number(number);
    compare_every_byte();
}

static void require_all_answers(void)
{
    for (enum call_number call = CHECK; call < CALLS; call++)
        if (answers_seen[call] != calls[call].answers) {
            fprintf(stderr, "bench: %s answered with the numbers of the bits %" PRIx32 " and not %" PRIx32 "\n", calls[call].name,
                    answers_seen[call], calls[call].answers);
            exit(1);
        }
}

void compare_all(size_t spoilt)
{
    uint64_t seed = SEED;
    for (size_t family = 0; family < FAMILIES; family++)
        compare_family(family);
    compare_limits();
    compare_faults();
    compare_drawings();
    for (size_t i = 0; i < spoilt; i++)
        compare_spoilt(&seed);
    require_all_answers();
    printf("Seed %" PRIx64 ". The same answers and rooms, byte for byte, in %zu calls; every refusal of every call came up.\n\n", SEED,
           compared);
}
