#include "subjects.h"

#include <stdio.h>
#include <stdlib.h>

void sketch_filter(struct sketch *k, const struct filter *f)
{
    k->n = f->n;
    k->e = f->e;
    k->late = 0;
    for (size_t s = 0; s < f->n; s++)
        k->colours[s] = f->colours[s];
    for (size_t i = 0; i < f->e; i++)
        for (size_t part = 0; part < 3; part++)
            k->edges[i][part] = f->edges[3 * i + part];
}

static char *draw_states(const struct sketch *k, size_t from, size_t to, char *at)
{
    for (size_t s = from; s < to; s++)
        at += sprintf(at, "%zu [label=%u];\n", s, k->colours[s]);
    return at;
}

void draw(const struct sketch *k, struct written *text)
{
    char *at = (char *)text->bytes;
    at += sprintf(at, "digraph {\n");
    at = draw_states(k, 0, k->n, at);
    for (size_t i = 0; i < k->e; i++)
        at += sprintf(at, "%u -> %u [label=%u];\n", k->edges[i][0], k->edges[i][2], k->edges[i][1]);
    at = draw_states(k, k->n, k->n + k->late, at);
    at += sprintf(at, "}\n");
    text->length = (size_t)(at - (char *)text->bytes);
}

/* The file of a filter, of no length where it is refused. */
static void write_file(pack_call *pack, const struct filter *f, struct written *file)
{
    uint64_t length;
    uint64_t refusal = pack(f->colours, f->n, f->edges, 3 * f->e, f->m, f->start, file->bytes, sizeof file->bytes, &length);
    file->length = refusal == 0 ? (size_t)length : 0;
}

void prepare(struct subject *s, size_t ride)
{
    static struct sketch sketch;
    write_file(plain_pack, &s->filter, &s->forms[LARGE]);
    write_file(plain_pocket_pack, &s->filter, &s->forms[POCKET]);
    if (s->forms[LARGE].length == 0) {
        fprintf(stderr, "bench: a filter that cannot be packed\n");
        exit(2);
    }
    sketch_filter(&sketch, &s->filter);
    draw(&sketch, &s->forms[DRAWING]);
    make_ride(&s->filter, s->ride, ride, SEED);
}

static void put_bit(uint8_t *bytes, size_t bit, unsigned value)
{
    unsigned shift = 7 - bit % 8;
    bytes[bit / 8] = (uint8_t)((bytes[bit / 8] & ~(1u << shift)) | value << shift);
}

void recolour(struct subject *s)
{
    enum { COLOURS_BEGIN = 37, COLOUR_BITS = 6 };
    static struct sketch sketch;
    for (size_t i = 0; i < COLOUR_BITS * s->filter.n; i++)
        put_bit(s->forms[LARGE].bytes, COLOURS_BEGIN + i,
                s->filter.colours[i / COLOUR_BITS] >> (COLOUR_BITS - 1 - i % COLOUR_BITS) & 1);
    sketch_filter(&sketch, &s->filter);
    draw(&sketch, &s->forms[DRAWING]);
}

struct job job_of(const struct subject *s, enum call_number number, size_t observations)
{
    const struct call *call = &calls[number];
    const struct written *input = &s->forms[call->from];
    struct job job = {.call = call, .input = input->bytes, .input_length = input->length, .lists = &s->filter,
                      .colours_length = s->filter.n, .edges_length = 3 * s->filter.e,
                      .observations = s->ride, .observations_length = observations,
                      .first = s->forms[call->to].length};
    if (call->kind == UNPACKS) {
        job.first = s->filter.n;
        job.second = 3 * s->filter.e;
    } else if (call->kind == TRACES) {
        job.first = observations + 1;
    } else if (call->kind == REDUCES) {
        job.second = s->filter.n;
    }
    return job;
}

const char *const titles[] = {[LARGE] = "Large files", [POCKET] = "Pocket files"};

const struct family families[FAMILIES] = {
    {"smallest file", LARGE, make_bare, 1, 1},
    {"one agent, 5 beams", LARGE, make_one_agent, 11, 5},
    {"one agent, 20 beams", LARGE, make_one_agent, 41, 20},
    {"one agent, 64 beams", LARGE, make_one_agent, 129, 64},
    {"two agents, 3 beams", LARGE, make_two_agents_together, 7, 3},
    {"two agents, 8 beams", LARGE, make_two_agents_together, 37, 8},
    {"two agents anywhere, 5 beams", LARGE, make_two_agents_anywhere, 256, 5},
    {"sparse 256 x 64", LARGE, make_sparse, 256, 64},
    {"dense random 256 x 64", LARGE, make_dense, 256, 64},
    {"chain of 256", LARGE, make_chain, 256, 1},
    {"worst: chain 256 x 64, full", LARGE, make_chain, 256, 64},
    {"16 x 4, a quarter reached", LARGE, make_leftovers, 16, 4},
    {"256 x 64, a quarter reached", LARGE, make_leftovers, 256, 64},
    {"256 x 8, 255 groups in a round", LARGE, make_crowd, 256, 8},
    {"16 x 4 with a fault state", LARGE, make_fault, 16, 4},
    {"256 x 64 with a fault state", LARGE, make_fault, 256, 64},
    {"smallest file", POCKET, make_bare, 1, 1},
    {"dense random 2 x 2", POCKET, make_dense, 2, 2},
    {"dense random 4 x 4", POCKET, make_dense, 4, 4},
    {"two agents, 3 beams", POCKET, make_two_agents_together, 7, 3},
    {"dense random 8 x 4", POCKET, make_dense, 8, 4},
    {"dense random 8 x 8", POCKET, make_dense, 8, 8},
    {"one agent, 5 beams", POCKET, make_one_agent, 11, 5},
    {"sparse 16 x 8", POCKET, make_sparse, 16, 8},
    {"dense random 16 x 8", POCKET, make_dense, 16, 8},
    {"chain of 16", POCKET, make_chain, 16, 1},
    {"worst: chain 16 x 8, full", POCKET, make_chain, 16, 8},
    {"16 x 8, a quarter reached", POCKET, make_leftovers, 16, 8},
    {"16 x 8, 15 groups in a round", POCKET, make_crowd, 16, 8},
};

struct subject subjects[FAMILIES];

void prepare_families(void)
{
    for (size_t i = 0; i < FAMILIES; i++) {
        families[i].make(&subjects[i].filter, families[i].n, families[i].m, SEED);
        prepare(&subjects[i], LONG_RIDE + 1);
    }
}

#define FILE_LINES(NUMBER) \
    {.call = NUMBER##CHECK}, \
    {.call = NUMBER##UNPACK}, \
    {.call = NUMBER##PACK}, \
    {.call = NUMBER##TRACE, .observations = SHORT_RIDE, .ride = " 16"}, \
    {.call = NUMBER##TRACE, .observations = LONG_RIDE, .ride = " 65,535"}, \
    {.call = NUMBER##REDUCE}

const struct line lines[LINES] = {
    FILE_LINES(),
    {.call = FROM_DOT},
    {.call = TO_DOT},
    FILE_LINES(POCKET_),
    {.call = TO_LARGE},
    {.call = TO_POCKET},
};

int is_measured(size_t family, size_t line)
{
    return calls[lines[line].call].measured_on == families[family].form;
}

double target_of(size_t family, size_t line)
{
    enum { FEWEST_STATES = 8 }; /* of a pocket file that has targets: with fewer, a call's beginning and end are most of it */
    return families[family].form == POCKET && families[family].n < FEWEST_STATES ? 0 : calls[lines[line].call].target;
}

struct job job_of_line(const struct subject *s, size_t line)
{
    return job_of(s, lines[line].call, lines[line].observations);
}

const char *name_of_line(size_t line)
{
    static char name[32];
    snprintf(name, sizeof name, "%s%s", calls[lines[line].call].name, lines[line].ride == NULL ? "" : lines[line].ride);
    return name;
}
