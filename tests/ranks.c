/* Release ranks by the archive's own answers, with no reference beside it: which events free a circuit, held against the list that
   the printed tables come to; and random events on groups, after each of which the counter and every rank must be what a plain
   list of the releases so far says. */
#include "harness.h"
#include "tup.h"

#include <stdio.h>
#include <string.h>

enum { STATES = 13, FLAGS = 16, FEW = 16 };

static struct { uint32_t own, far, cic, kind, code, detail; uint64_t counter; unsigned state, flags; } now;

static void describe(void)
{
    printf("  own %u far %u circuit %u with state %u flags %u, counter %llx; kind %u code %02x detail %u\n", now.own, now.far,
           now.cic, now.state, now.flags, (unsigned long long)now.counter, now.kind, now.code, now.detail);
}

/* Every way to free a circuit: the signal, and the states from which it does so in one role or in both. */
enum role { NOT_CONTROLLING, EITHER };
static const struct way {
    uint8_t heading, first, last;
    enum role role;
} ways[] = {
    {TUP_CLF, 1, 1, NOT_CONTROLLING}, {TUP_CLF, 5, 5, NOT_CONTROLLING}, {TUP_CLF, 6, 12, EITHER},
    {TUP_RLG, 5, 5, EITHER},          {TUP_RLG, 12, 12, EITHER},        {TUP_RSC, 6, 11, EITHER},
};
enum { WAYS = sizeof ways / sizeof *ways };

/* The way by which the event under way is to free the circuit; WAYS for none. */
static unsigned way_now(int controls)
{
    unsigned i = 0;
    for (; i < WAYS; i++)
        if (now.kind == TUP_SIGNAL && now.code == ways[i].heading && now.detail == 0 && now.state >= ways[i].first &&
            now.state <= ways[i].last && (ways[i].role == EITHER || !controls))
            break;
    return i;
}

static int legal(unsigned state, unsigned flags)
{
    if (state == TUP_AWAITING_RESET)
        return flags == 0 || flags == TUP_FAR_BLOCK;
    return !(flags & (flags & TUP_OWN_BLOCK ? TUP_AWAITING_UBA : TUP_AWAITING_BLA));
}

static uint64_t step(uint8_t *table, size_t len)
{
    return tup_step(now.own, now.far, table, len, now.cic, now.kind, now.code, now.detail);
}

/* An event on circuit 0 of a table of one, whose role goes by the codes. Seen to free: counter and rank both take the next number.
   Seen not to: neither changes. Anything else is wrong whatever the list says. */
static int seen_to_free(uint32_t own, uint32_t far)
{
    uint8_t table[TUP_TABLE_OCTETS(1)] = {0};
    now.own = own, now.far = far, now.cic = 0, now.counter = 500;
    put_eight(table, now.counter);
    put_record(table, 0, now.state, now.flags, 77);
    uint64_t answer = step(table, sizeof table);
    uint64_t counter = tup_counter(table), rank = tup_record_rank(table, 0);
    int to_idle = tup_answer_refusal(answer) == 0 && now.state != TUP_IDLE && tup_record_state(table, 0) == TUP_IDLE;
    if (to_idle ? counter != 501 || rank != 501 : counter != 500 || rank != 77)
        differ("it goes to state %u, refusal %u, with counter %llu and rank %llu", tup_record_state(table, 0),
               tup_answer_refusal(answer), (unsigned long long)counter, (unsigned long long)rank);
    return to_idle;
}

/* Every kind, code and detail on the record under way, in both roles. */
static unsigned long every_event(const unsigned char *wanted, unsigned long *freed)
{
    unsigned long events = 0;
    for (now.kind = 0; now.kind < 5; now.kind++)
        for (now.code = 0; now.code < 256; now.code++)
            for (now.detail = 0; now.detail < 256; now.detail++)
                for (int controls = 0; wanted[now.detail] && controls < 2; controls++, events++) {
                    unsigned way = way_now(controls);
                    if (seen_to_free(controls ? 2 : 1, controls ? 1 : 2) != (way < WAYS))
                        differ(way < WAYS ? "this does not free the circuit" : "this frees the circuit");
                    if (way < WAYS)
                        freed[way]++;
                }
    return events;
}

static void every_way(const unsigned char *wanted)
{
    unsigned long events = 0, freed[WAYS] = {0};
    for (now.state = 0; now.state < STATES; now.state++)
        for (now.flags = 0; now.flags < FLAGS; now.flags++)
            if (legal(now.state, now.flags))
                events += every_event(wanted, freed);
    for (unsigned i = 0; i < WAYS; i++)
        if (freed[i] == 0)
            differ("heading %02x from state %u was not tried", ways[i].heading, ways[i].first);
    covered("%lu events on legal records in both roles; those that free a circuit are the %u ways listed", events, WAYS);
}

/* What a run of events must have left: the counter, and each circuit's rank, by the releases that were seen. */
static struct {
    uint8_t table[TUP_TABLE_OCTETS(TUP_CIRCUITS_MAX)];
    uint64_t counter, ranks[TUP_CIRCUITS_MAX];
    uint32_t circuits;
    unsigned long events, full, releases[WAYS];
} run;

static void draw_event(void)
{
    now.cic = draw(run.circuits);
    now.state = tup_record_state(run.table, now.cic);
    now.flags = tup_record_flags(run.table, now.cic);
    now.counter = tup_counter(run.table);
    struct particulars event = draw_next(now.state);
    now.kind = event.kind, now.code = event.code, now.detail = event.detail;
}

/* The event under way is done, and the list of releases follows it. */
static void do_event(void)
{
    uint8_t *record = run.table + TUP_RECORD_AT(now.cic), kept[TUP_RECORD_OCTETS];
    unsigned way = way_now((now.own > now.far) == (now.cic % 2 == 0));
    memcpy(kept, record, sizeof kept);
    uint32_t refusal = tup_answer_refusal(step(run.table, TUP_TABLE_OCTETS(run.circuits)));
    int full = way < WAYS && run.counter == UINT64_MAX;
    run.events++;
    if ((refusal == TUP_COUNTER_FULL) != full || (way < WAYS && !full && refusal != 0))
        differ("refused %u", refusal);
    if (refusal != 0 && memcmp(record, kept, sizeof kept) != 0)
        differ("refused %u, and the record is changed", refusal);
    if (full)
        run.full++;
    if (way == WAYS || full)
        return;
    run.ranks[now.cic] = ++run.counter;
    run.releases[way]++;
}

static void check_rank(uint32_t cic)
{
    uint64_t rank = tup_record_rank(run.table, cic);
    if (rank != run.ranks[cic])
        differ("circuit %u has rank %llu and was freed as number %llu", cic, (unsigned long long)rank,
               (unsigned long long)run.ranks[cic]);
}

/* From a table of zeros but for its counter, so many events. */
static void random_run(uint32_t circuits, uint64_t counter, unsigned long events)
{
    static uint64_t before[TUP_CIRCUITS_MAX];
    memset(&run, 0, sizeof run);
    memset(before, 0, sizeof before);
    run.circuits = circuits, run.counter = counter;
    put_eight(run.table, counter);
    now.own = 1 + circuits % 2, now.far = 3 - now.own;
    while (run.events < events) {
        draw_event();
        do_event();
        if (tup_counter(run.table) != run.counter)
            differ("the counter is %llx and should be %llx", (unsigned long long)tup_counter(run.table),
                   (unsigned long long)run.counter);
        check_rank(now.cic);
        for (uint32_t cic = 0; circuits <= FEW && cic < circuits; cic++) {
            uint64_t rank = tup_record_rank(run.table, cic);
            check_rank(cic);
            if (rank < before[cic] || rank > tup_counter(run.table))
                differ("circuit %u has fallen from rank %llu, or is above the counter", cic, (unsigned long long)before[cic]);
            before[cic] = rank;
        }
    }
}

/* No two circuits that were freed have the same rank, and none is above the counter. */
static void expect_all_different(void)
{
    for (uint32_t cic = 0; cic < run.circuits; cic++) {
        uint64_t rank = tup_record_rank(run.table, cic);
        check_rank(cic);
        if (rank > tup_counter(run.table))
            differ("circuit %u has a rank above the counter", cic);
        for (uint32_t other = 0; rank != 0 && other < cic; other++)
            if (tup_record_rank(run.table, other) == rank)
                differ("circuits %u and %u have the same rank", cic, other);
    }
}

static void random_runs(void)
{
    static const struct { uint32_t circuits; uint64_t counter; int fills; } runs[] = {
        {1, 0, 0}, {2, 0, 0}, {5, 0, 0}, {FEW, 0, 0}, {TUP_CIRCUITS_MAX, 0, 0}, {3, 0xFFFFFFF0, 0},
        {4, UINT64_MAX - 1000, 1}, {TUP_CIRCUITS_MAX, UINT64_MAX - 1000, 1}};
    unsigned long events = long_run() ? 10000000 : 300000;
    for (unsigned i = 0; i < sizeof runs / sizeof *runs; i++) {
        unsigned long released = 0;
        random_run(runs[i].circuits, runs[i].counter, events);
        expect_all_different();
        for (unsigned way = 0; way < WAYS; way++)
            released += run.releases[way];
        for (unsigned way = 0; way < WAYS && !runs[i].fills; way++)
            if (run.releases[way] == 0 && (ways[way].role == EITHER || run.circuits > 1))
                differ("heading %02x never freed a circuit from state %u", ways[way].heading, ways[way].first);
        if ((run.full > 0) != runs[i].fills)
            differ("%lu events were refused 13", run.full);
        covered("%u circuits, counter from %llx: %lu events, %lu releases, %lu refused 13, every rank that of its release",
                run.circuits, (unsigned long long)runs[i].counter, run.events, released, run.full);
    }
}

int main(int argc, char **argv)
{
    unsigned char wanted[256];
    int all = argc > 1 && strcmp(argv[1], "all") == 0;
    harness_begin("ranks", describe);
    for (unsigned detail = 0; detail < 256; detail++)
        wanted[detail] = (unsigned char)(all || detail_telling(detail));
    every_way(wanted);
    random_runs();
    return 0;
}
