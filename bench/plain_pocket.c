/* The calls of plain.c on pocket files, with the pocket file's widths as constants. */
#define PLAIN_POCKET
#include "plain.c"
