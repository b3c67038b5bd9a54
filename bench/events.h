/* The events that the benchmark times and whose instructions it counts, drawn from a fixed seed, and the loop that gives them
   to the archive or to the reference. */
#ifndef EVENTS_H
#define EVENTS_H

#include <stddef.h>
#include <stdint.h>

struct event {
    uint32_t cic, kind, code, detail;
};

typedef uint64_t (*stepper)(uint32_t, uint32_t, uint8_t *, size_t, uint32_t, uint32_t, uint32_t, uint32_t);

/* Calls on all circuits at once, with a stray event every now and then: most events are taken, as in a working exchange. */
void draw_events(struct event *events, size_t count, uint32_t circuits);

/* Calls set up and at once released, so that every second event frees a circuit; the count is even. */
void draw_releases(struct event *events, size_t count, uint32_t circuits);

/* Gives the events to the stepper in turn and sums the answers. Of what it takes, all that is not its own is the stepper's. */
uint64_t step_all(stepper step, uint8_t *table, size_t table_len, const struct event *events, size_t count);

#endif
