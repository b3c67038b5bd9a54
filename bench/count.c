/* Draws events in a group of 1 circuit, the first ones of those that bench.c times, and gives some of them to the archive or
   to the reference: count archive|reference calls|releases DRAWN GIVEN. Does nothing else, so that a run that gives all of them
   and a run that gives none differ by the instructions of the calls and of the loop that makes them. */
#include "events.h"
#include "reference.h"
#include "tup.h"

#include <stdlib.h>
#include <string.h>

enum { MOST = 1 << 18 };

static struct event events[MOST];
static uint8_t table[TUP_TABLE_OCTETS(1)];

int main(int argc, char **argv)
{
    if (argc != 5)
        return 2;
    stepper step = strcmp(argv[1], "archive") == 0 ? tup_step : ref_step;
    size_t drawn = (size_t)atoi(argv[3]), given = (size_t)atoi(argv[4]);
    if (drawn > MOST || given > drawn)
        return 2;
    (strcmp(argv[2], "calls") == 0 ? draw_events : draw_releases)(events, drawn, 1);
    step_all(step, table, sizeof table, events, given);
    return 0;
}
