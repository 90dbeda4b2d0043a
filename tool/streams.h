/* Bytes in and bytes out. What cannot be read or written is said on standard error, in one line, and answered with false. */
#ifndef STREAMS_H
#define STREAMS_H

#include <stdbool.h>
#include <stddef.h>
#include <stdint.h>

/* The first `length` of `room` bytes are in use. */
struct bytes {
    uint8_t *at;
    size_t length;
    size_t room;
};

/* Whether the name stands for standard input or output: none at all, or "-". */
bool names_a_stream(const char *name);

/* Empty bytes with room for so many. */
bool make_room(struct bytes *bytes, size_t room);

/* Reads a file to its end, or so many bytes of it and not one more. `into` has no room yet. */
bool read_from(const char *name, size_t most, struct bytes *into);

/* Writes a file whole, or leaves what has this name as it was. */
bool write_to(const char *name, const uint8_t *from, size_t length);

/* Says that something went wrong with what has this name. */
void complain(const char *name, const char *reason);

/* Puts a name on standard error such that it stays within its line. */
void show_name(const char *name);

#endif
