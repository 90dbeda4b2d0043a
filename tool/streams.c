#include "streams.h"

#include <errno.h>
#include <fcntl.h>
#include <signal.h>
#include <stdio.h>
#include <stdlib.h>
#include <string.h>
#include <sys/stat.h>
#include <unistd.h>

/* A filter file or a list of observations is read without asking for room a second time. */
#define FIRST_ROOM 65536

void show_name(const char *name)
{
    for (; *name != '\0'; name++) {
        unsigned char shown = (unsigned char)*name;
        fputc(shown < ' ' || shown == 127 ? '?' : shown, stderr);
    }
}

void complain(const char *name, const char *reason)
{
    fputs("pierhollow: ", stderr);
    show_name(name);
    fprintf(stderr, ": %s\n", reason);
}

static bool fail(const char *name)
{
    complain(name, strerror(errno));
    return false;
}

bool names_a_stream(const char *name)
{
    return name == NULL || strcmp(name, "-") == 0;
}

static bool grow(struct bytes *bytes, size_t room)
{
    uint8_t *at = realloc(bytes->at, room);
    if (at == NULL)
        return false;
    bytes->at = at;
    bytes->room = room;
    return true;
}

bool make_room(struct bytes *bytes, size_t room)
{
    *bytes = (struct bytes){NULL, 0, 0};
    return grow(bytes, room) || fail("memory");
}

static bool double_room(struct bytes *bytes)
{
    if (bytes->room <= SIZE_MAX / 2)
        return grow(bytes, bytes->room == 0 ? FIRST_ROOM : 2 * bytes->room);
    errno = ENOMEM;
    return false;
}

static bool read_all(int file, size_t most, struct bytes *into)
{
    while (into->length < most) {
        if (into->length == into->room && !double_room(into))
            return false;
        size_t end = into->room < most ? into->room : most;
        ssize_t got = read(file, into->at + into->length, end - into->length);
        if (got == 0)
            return true;
        if (got > 0)
            into->length += (size_t)got;
        else if (errno != EINTR)
            return false;
    }
    return true;
}

bool read_from(const char *name, size_t most, struct bytes *into)
{
    *into = (struct bytes){NULL, 0, 0};
    if (names_a_stream(name))
        return read_all(STDIN_FILENO, most, into) || fail("standard input");
    int file = open(name, O_RDONLY);
    if (file == -1)
        return fail(name);
    bool done = read_all(file, most, into) || fail(name);
    close(file);
    return done;
}

static bool write_all(int file, const uint8_t *from, size_t length)
{
    size_t written = 0;
    while (written < length) {
        ssize_t put = write(file, from + written, length - written);
        if (put >= 0)
            written += (size_t)put;
        else if (errno != EINTR)
            return false;
    }
    return true;
}

/* What may be replaced keeps its permissions; a new file has the usual ones. */
static bool permissions_for(const char *name, mode_t *permissions)
{
    struct stat found;
    if (lstat(name, &found) == 0) {
        if (!S_ISREG(found.st_mode)) {
            complain(name, "not a regular file");
            return false;
        }
        *permissions = found.st_mode & 0777;
        return access(name, W_OK) == 0 || fail(name);
    }
    if (errno != ENOENT)
        return fail(name);
    mode_t masked = umask(0);
    umask(masked);
    *permissions = 0666 & ~masked;
    return true;
}

/* A pattern for mkstemp() in the folder of the name, since only there a rename is one step. */
static char *pattern_beside(const char *name)
{
    static const char ending[] = ".pierhollow-XXXXXX";
    const char *slash = strrchr(name, '/');
    size_t folder = slash == NULL ? 0 : (size_t)(slash - name) + 1;
    char *pattern = malloc(folder + sizeof ending);
    if (pattern != NULL) {
        memcpy(pattern, name, folder);
        memcpy(pattern + folder, ending, sizeof ending);
    }
    return pattern;
}

/* Leaves errno as the first step that failed has set it. Nothing is said before the file is closed: where standard error was
   closed, the file may have its number. */
static bool fill_and_close(int file, mode_t permissions, const uint8_t *from, size_t length)
{
    bool filled = write_all(file, from, length) && fchmod(file, permissions) == 0 && fsync(file) == 0;
    int reason = errno;
    bool closed = close(file) == 0;
    if (!filled)
        errno = reason;
    return filled && closed;
}

static bool replace(const char *name, char *pattern, mode_t permissions, const uint8_t *from, size_t length)
{
    int file = mkstemp(pattern);
    if (file == -1)
        return false;
    if (fill_and_close(file, permissions, from, length) && rename(pattern, name) == 0)
        return true;
    int reason = errno;
    unlink(pattern);
    errno = reason;
    return false;
}

static bool write_file(const char *name, const uint8_t *from, size_t length)
{
    mode_t permissions;
    if (!permissions_for(name, &permissions))
        return false;
    char *pattern = pattern_beside(name);
    if (pattern == NULL)
        return fail(name);
    /* A signal that ends the program has to wait, or the temporary file would stay. */
    sigset_t all, before;
    sigfillset(&all);
    sigprocmask(SIG_BLOCK, &all, &before);
    bool written = replace(name, pattern, permissions, from, length) || fail(name);
    sigprocmask(SIG_SETMASK, &before, NULL);
    free(pattern);
    return written;
}

bool write_to(const char *name, const uint8_t *from, size_t length)
{
    if (!names_a_stream(name))
        return write_file(name, from, length);
    return (write_all(STDOUT_FILENO, from, length) && close(STDOUT_FILENO) == 0) || fail("standard output");
}
