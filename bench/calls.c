#include "calls.h"

#include "pierhollow.h"

static uint64_t no_check(const uint8_t *a, size_t b, uint64_t c[4])
{
    (void)a, (void)b, (void)c;
    return 0;
}

static uint64_t no_unpack(const uint8_t *a, size_t b, uint8_t *c, size_t d, uint8_t *e, size_t f, uint64_t g[4])
{
    (void)a, (void)b, (void)c, (void)d, (void)e, (void)f, (void)g;
    return 0;
}

static uint64_t no_pack(const uint8_t *a, size_t b, const uint8_t *c, size_t d, size_t e, size_t f, uint8_t *g, size_t h, uint64_t i[1])
{
    (void)a, (void)b, (void)c, (void)d, (void)e, (void)f, (void)g, (void)h, (void)i;
    return 0;
}

static uint64_t no_trace(const uint8_t *a, size_t b, const uint8_t *c, size_t d, uint8_t *e, size_t f, uint64_t g[2])
{
    (void)a, (void)b, (void)c, (void)d, (void)e, (void)f, (void)g;
    return 0;
}

static uint64_t no_reduce(const uint8_t *a, size_t b, uint8_t *c, size_t d, uint16_t *e, size_t f, uint64_t g[4])
{
    (void)a, (void)b, (void)c, (void)d, (void)e, (void)f, (void)g;
    return 0;
}

static uint64_t no_convert(const uint8_t *a, size_t b, uint8_t *c, size_t d, uint64_t e[1])
{
    (void)a, (void)b, (void)c, (void)d, (void)e;
    return 0;
}

#define FILE_BITS (BIT(10) - 1) /* 0, and a file's own refusals */
#define EDGE_BITS (BIT(7) | BIT(8) | BIT(9))
#define LIST_BITS (BIT(0) | BIT(3) | EDGE_BITS | BIT(10) | BIT(14)) /* those of lists that become a file */
#define FAULT_BIT BIT(17) /* of large files alone */

/* `signature` is the member of `union function` that holds such a call. */
#define ROW(name, signature, ...) \
    {#name, __VA_ARGS__, {{.signature = pierhollow_##name}, {.signature = plain_##name}, {.signature = no_##signature}}}

/* The five calls that each file has; their names begin with this, and all have these answers besides. */
#define FILE_CALLS(NUMBER, prefix, form, more) \
    [NUMBER##CHECK] = ROW(prefix##check, check, CHECKS, form, form, form, FILE_BITS | more, 2.0), \
    [NUMBER##UNPACK] = ROW(prefix##unpack, unpack, UNPACKS, form, form, form, FILE_BITS | more | BIT(12), 2.0), \
    [NUMBER##PACK] = ROW(prefix##pack, pack, PACKS, form, form, form, LIST_BITS | more | BIT(2), 2.0), \
    [NUMBER##TRACE] = ROW(prefix##trace, trace, TRACES, form, form, form, FILE_BITS | more | BIT(12) | BIT(13), 1.5), \
    [NUMBER##REDUCE] = ROW(prefix##reduce, reduce, REDUCES, form, form, form, FILE_BITS | more | BIT(10) | BIT(11), 1.5)

const struct call calls[CALLS] = {
    FILE_CALLS(, , LARGE, FAULT_BIT),
    [FROM_DOT] = ROW(from_dot, convert, CONVERTS, LARGE, DRAWING, LARGE, LIST_BITS | FAULT_BIT | BIT(15), 2.0),
    [TO_DOT] = ROW(to_dot, convert, CONVERTS, LARGE, LARGE, DRAWING, FILE_BITS | FAULT_BIT | BIT(10) | BIT(15), 2.0),
    FILE_CALLS(POCKET_, pocket_, POCKET, 0),
    [TO_LARGE] = ROW(to_large, convert, CONVERTS, POCKET, POCKET, LARGE, FILE_BITS | BIT(10), 0.0),
    [TO_POCKET] = ROW(to_pocket, convert, CONVERTS, POCKET, LARGE, POCKET, FILE_BITS | FAULT_BIT | BIT(10) | BIT(16), 0.0),
};

struct outcome outcomes[SIDES];

void run(enum side side, const struct job *job)
{
    const union function *call = &job->call->of[side];
    struct outcome *out = &outcomes[side];
    switch (job->call->kind) {
    case CHECKS:
        out->returned = call->check(job->input, job->input_length, out->values);
        break;
    case UNPACKS:
        out->returned = call->unpack(job->input, job->input_length, out->first, job->first,
                                     out->second.bytes, job->second, out->values);
        break;
    case PACKS:
        out->returned = call->pack(job->lists->colours, job->colours_length, job->lists->edges, job->edges_length,
                                   job->lists->m, job->lists->start, out->first, job->first, out->values);
        break;
    case TRACES:
        out->returned = call->trace(job->input, job->input_length, job->observations, job->observations_length,
                                    out->first, job->first, out->values);
        break;
    case REDUCES:
        out->returned = call->reduce(job->input, job->input_length, out->first, job->first,
                                     out->second.entries, job->second, out->values);
        break;
    case CONVERTS:
        out->returned = call->convert(job->input, job->input_length, out->first, job->first, out->values);
        break;
    }
}
