/* The events of the benchmark and the loop over them; compiled apart from the programs that use them, so that the loop, which
   is known by its name where instructions are counted, is not drawn into its caller. */
#include "events.h"
#include "harness.h"
#include "reference.h"
#include "tup.h"

#include <string.h>

/* One life of a call: seized, completed, answered, hung up, cleared; outgoing or incoming, as the circuit stands. */
static struct event next_of_call(uint32_t cic, uint32_t state)
{
    static const struct event next[] = {
        [0] = {0, 2, 1, 0}, [1] = {0, 1, 0x14, 1}, [2] = {0, 1, 0x16, 0}, [3] = {0, 1, 0x36, 0}, [4] = {0, 2, 2, 0},
        [5] = {0, 1, 0x17, 0}, [6] = {0, 2, 3, 5}, [7] = {0, 2, 4, 0}, [8] = {0, 2, 4, 1}, [9] = {0, 2, 5, 0},
        [10] = {0, 1, 0x46, 0}, [11] = {0, 1, 0x46, 0}, [12] = {0, 1, 0x17, 0}};
    struct event e = next[state];
    if (state == 0 && chance(2))
        e = (struct event){0, 1, 0x11, 0};
    e.cic = cic;
    return e;
}

void draw_events(struct event *events, size_t count, uint32_t circuits)
{
    static uint8_t table[TUP_TABLE_OCTETS(TUP_CIRCUITS_MAX)];
    memset(table, 0, sizeof table);
    for (size_t i = 0; i < count; i++) {
        uint32_t cic = draw(circuits);
        struct event e = next_of_call(cic, tup_record_state(table, cic));
        if (chance(16))
            e = (struct event){cic, 1 + draw(3), draw(256), 0};
        ref_step(2, 1, table, TUP_TABLE_OCTETS(circuits), e.cic, e.kind, e.code, e.detail);
        events[i] = e;
    }
}

/* An IAM and then the CLF, which frees the circuit. */
void draw_releases(struct event *events, size_t count, uint32_t circuits)
{
    for (size_t i = 0; i < count; i += 2) {
        uint32_t cic = draw(circuits);
        events[i] = (struct event){cic, 1, 0x11, 0};
        events[i + 1] = (struct event){cic, 1, 0x46, 0};
    }
}

uint64_t step_all(stepper step, uint8_t *table, size_t table_len, const struct event *events, size_t count)
{
    uint64_t sum = 0;
    for (size_t i = 0; i < count; i++)
        sum += step(2, 1, table, table_len, events[i].cic, events[i].kind, events[i].code, events[i].detail);
    return sum;
}
