/* A board's program makes pocket calls alone, and what is linked for it has no call for other files: .ci/c-tests looks for their names. */
#include "pierhollow.h"

int main(void)
{
    /* One state, one label, start 0, no edge, colour 0: 19 + 4 bits, all 0. */
    static const uint8_t file[3] = {0, 0, 0};
    uint64_t values[4];
    return pierhollow_pocket_check(file, sizeof file, values) != 0 || values[0] != 1;
}
