/* What the calls are made on: filters in every form, the rides through them, and which of them are measured. */
#ifndef SUBJECTS_H
#define SUBJECTS_H

#include "calls.h"

#define SEED UINT64_C(0x9e3779b97f4a7c15)

enum {
    SHORT_RIDE = 16,
    LONG_RIDE = 65535
};

/* Drawings that need not be of any filter. */

enum {
    SKETCH_STATES = 1010, /* more than a text of the profile can have */
    SKETCH_EDGES = MOST_EDGES + 16,
    SKETCH_TEXT = LONGEST_TEXT + 16 * SKETCH_STATES
};

struct sketch {
    size_t n, e;
    size_t late; /* states behind the edges, where no text of the profile has any */
    unsigned colours[SKETCH_STATES];
    unsigned edges[SKETCH_EDGES][3]; /* source, label, target */
};

void sketch_filter(struct sketch *k, const struct filter *f);

/* A filter as one of its forms, with room for what spoiling adds. */
struct written {
    uint8_t bytes[2 * SKETCH_TEXT];
    size_t length;
};

void draw(const struct sketch *k, struct written *text);

struct subject {
    struct filter filter;
    struct written forms[FORMS]; /* no bytes of a pocket file that cannot hold the filter; a drawing whether or not there is one */
    uint8_t ride[LONG_RIDE + 1]; /* one more than a call takes */
};

/* Writes the filter that a subject has in every form, and makes a ride of so many observations. */
void prepare(struct subject *s, size_t ride);

/* Puts the colours that the filter has now into its large file and its drawing, though edges may leave a fault then. */
void recolour(struct subject *s);

/* The call on the subject, with rooms that are just long enough. */
struct job job_of(const struct subject *s, enum call_number call, size_t observations);

/* What is measured: each family of large files by the calls for these, each family of pocket files likewise. */

struct family {
    const char *name;
    enum form form; /* LARGE or POCKET */
    maker *make;
    size_t n, m;
};

/* Of the tables on LARGE and on POCKET files. */
extern const char *const titles[];

enum { FAMILIES = 29 };

extern const struct family families[FAMILIES];
extern struct subject subjects[FAMILIES];

void prepare_families(void);

/* A line of a table: a call, and for a trace the ride. */
struct line {
    enum call_number call;
    size_t observations;
    const char *ride;
};

enum { LINES = CALLS + 2 }; /* each of the two traces has two rides */

extern const struct line lines[LINES];

/* Whether the tables have this line for this family. */
int is_measured(size_t family, size_t line);

/* The most that archive / plain C should be; 0 where none is set. */
double target_of(size_t family, size_t line);

struct job job_of_line(const struct subject *s, size_t line);

/* The line's name, as it stands until the next one is asked for. */
const char *name_of_line(size_t line);

#endif
