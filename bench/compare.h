/* The two sides compared: what they return, their values and every byte of their rooms. */
#ifndef COMPARE_H
#define COMPARE_H

#include "calls.h"

/* Makes one call on both sides; ends the program where they differ. */
void compare(const struct job *job, const char *where);

/*
 * Compares the calls on every family, at the limits of both files, on faults that are kept or left, on drawings, and on so many small
 * filters that are mostly spoilt.
 * Ends the program unless every call gave each answer that it can give, and no other.
 */
void compare_all(size_t spoilt);

#endif
