/* Writes traces into a directory, and beside each the text that replaying it must print, by the reference: long random ones, one
   cut at every place, and groups good and bad. The runner feeds them to the program `replay` and compares. */
#include "harness.h"
#include "reference.h"
#include "saved.h"
#include "tup.h"

#include <stdlib.h>
#include <string.h>

static unsigned long refusals[14], states[13];

struct event {
    uint32_t cic, kind, code, detail;
};

static size_t put_event(uint8_t *at, const struct event *e)
{
    at[0] = (uint8_t)e->kind;
    at[1] = (uint8_t)e->cic, at[2] = (uint8_t)(e->cic >> 8);
    at[3] = (uint8_t)e->code;
    at[4] = (uint8_t)e->detail;
    return e->kind == TUP_TIMER ? 4 : 5;
}

static struct event draw_event(uint32_t circuits)
{
    struct event e = {.cic = draw(circuits), .kind = 1 + draw(3)};
    if (chance(200))
        e.cic = chance(2) ? circuits + draw(3) : draw(65536);
    if (e.kind == TUP_SIGNAL) {
        e.code = chance(100) ? draw(256) : headings[draw(HEADINGS)];
        e.detail = e.code == TUP_ACM ? draw(256) : 0;
    } else if (e.kind == TUP_COMMAND) {
        e.code = chance(100) ? draw(256) : 1 + draw(10);
        e.detail = e.code == 3 ? draw(8) : e.code == 4 ? draw(2) : e.code == 7 ? headings[FAILURES_FROM + draw(9)] : 0;
    } else
        e.code = chance(100) ? draw(256) : 1 + draw(6);
    if (e.kind != TUP_TIMER && chance(100))
        e.detail = draw(256);
    return e;
}

/* Random events, most of the refused ones drawn again so that calls get on. */
static size_t put_events(uint8_t *at, size_t events, uint32_t own, uint32_t far, uint32_t circuits)
{
    static uint8_t table[TUP_TABLE_OCTETS(TUP_CIRCUITS_MAX)];
    size_t len = 0;
    memset(table, 0, sizeof table);
    while (events > 0) {
        struct event e = draw_event(circuits);
        uint64_t answer = ref_step(own, far, table, TUP_TABLE_OCTETS(circuits), e.cic, e.kind, e.code, e.detail);
        if (tup_answer_refusal(answer) != 0 && !chance(8))
            continue;
        refusals[tup_answer_refusal(answer)]++;
        states[tup_answer_state(answer)]++;
        len += put_event(at + len, &e);
        events--;
    }
    return len;
}

/* A trace of this many events, with some octets behind it. */
static void save_random(size_t events, uint32_t own, uint32_t far, uint32_t circuits, const char *tail, size_t tail_len)
{
    uint8_t *trace = malloc(7 + 5 * events + tail_len);
    if (trace == NULL)
        differ("no memory for a trace");
    size_t len = put_group(trace, own, far, circuits);
    len += put_events(trace + len, events, own, far, circuits);
    memcpy(trace + len, tail, tail_len);
    save(trace, len + tail_len);
    free(trace);
}

static void save_groups(void)
{
    uint8_t trace[64];
    for (unsigned i = 0; i < GROUPS; i++) {
        size_t len = put_group(trace, groups[i][0], groups[i][1], groups[i][2]);
        save(trace, len);
        struct event last = {groups[i][2] - 1, TUP_SIGNAL, TUP_CLF, 0};
        len += put_event(trace + len, &last);
        last.cic++;
        len += put_event(trace + len, &last);
        save(trace, len);
    }
    save_no_groups();
}

/* One event of each kind and a few more, cut behind every octet. */
static void save_cuts(void)
{
    static const struct event events[] = {{1, 2, 1, 0},    {1, 1, 0x11, 0}, {0, 3, 4, 0},   {1, 2, 3, 5},
                                          {9, 1, 0x46, 0}, {1, 3, 7, 0},    {1, 1, 0x46, 0}};
    uint8_t trace[64];
    size_t len = put_group(trace, 2, 1, 2);
    for (unsigned i = 0; i < sizeof events / sizeof *events; i++)
        len += put_event(trace + len, events + i);
    for (size_t cut = 0; cut <= len; cut++)
        save(trace, cut);
}

static void save_all(void)
{
    size_t events = long_run() ? 1000000 : 70000; /* ordinals beyond 16 bits in either */
    save_cuts();
    save_groups();
    save_random(events, 2, 1, 2, "", 0);
    save_random(events, 1, 2, 3, "", 0);
    save_random(events, 16383, 0, 4096, "", 0);
    save_random(events, 8191, 8192, 1, "\1", 1);
    save_random(events / 2, 300, 7, 100, "\1\0\0\21", 4);
    save_random(events / 2, 7, 300, 5, "\0\2\0\1\0\2\0", 7);
    save_random(events / 2, 7, 301, 5, "\4\0\0\1\0\2\0\0\0\0\0\0", 12);
    save_random(events / 2, 9, 301, 5, "\n", 1);
    save_random(events / 2, 9, 302, 5, "\377\377\377\377\377", 5);
}

int main(int argc, char **argv)
{
    harness_begin("traces", NULL);
    if (argc != 2)
        differ("usage: traces DIRECTORY");
    save_into(argv[1], "trace", ref_replay);
    save_all();
    static const unsigned expected[] = {0, 2, 3, 4, 5, 6};
    for (unsigned i = 0; i < sizeof expected / sizeof *expected; i++)
        if (refusals[expected[i]] == 0)
            differ("no event is refused %u", expected[i]);
    for (unsigned i = 0; i < 13; i++)
        if (states[i] == 0)
            differ("no event leaves state %u", i);
    unsigned long refused = refusals[2] + refusals[3] + refusals[4] + refusals[5] + refusals[6];
    covered("%u traces, %lu random events in them, %lu of those refused", saved(), refusals[0] + refused, refused);
    return 0;
}
