/* Writes a long trace of calls on a group of the size given to standard output, for the benchmark of replay. */
#include "harness.h"

#include <stdio.h>
#include <stdlib.h>

/* A whole call as the far end makes it, an event a line. */
static const unsigned char call[][3] = {{1, 0x11, 0}, {2, 3, 5}, {2, 4, 0}, {2, 5, 0}, {2, 6, 0}, {1, 0x46, 0}};
enum { STEPS = sizeof call / sizeof *call };

int main(int argc, char **argv)
{
    unsigned circuits = argc > 1 ? (unsigned)atoi(argv[1]) : 1, events = argc > 2 ? (unsigned)atoi(argv[2]) : 1000;
    static unsigned char at[4096];
    if (circuits < 1 || circuits > 4096)
        return 2;
    printf("%c%c%c%c%c%c%c", 0, 2, 0, 1, 0, (int)(circuits & 255), (int)(circuits >> 8));
    for (unsigned i = 0; i < events; i++) {
        unsigned cic = draw(circuits);
        const unsigned char *step = call[at[cic]];
        printf("%c%c%c%c%c", step[0], (int)(cic & 255), (int)(cic >> 8), step[1], step[2]);
        at[cic] = (unsigned char)((at[cic] + 1) % STEPS);
    }
    return 0;
}
