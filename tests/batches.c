/* Two circuits, either order (T-12): what a host may rely on that hands over its events in batches, by the archive's own answers,
   with no reference beside it.
   - Every listed event on every legal record, in both roles, beside every legal record of the neighbour and some bad ones, with
     ranks and counters of all sizes: the answer and what is left at the circuit are the same beside all of them.
   - Every listed event on every legal record of a circuit, with every listed event on the next circuit, there on a record that is
     drawn or, with `all`, on every legal one: both orders.
   - Random batches on tables of 1 to 4096 circuits, reached by events or drawn, bad records among them: with at most one event a
     circuit in any order; with several in any order that keeps each circuit's own. An event's whole answer, and the states and
     flags of the whole table, are the same in each of these orders, and as if its circuit's events were given alone; no octet
     changes at a circuit that has none. A second table that gets each batch in another order keeps the same states and flags.
   What is not promised must be met, or the test could not tell it from what is: ranks, and the choice after them, that go by the
   order; two events of one circuit that do something else in the other order; releases that the counter has no room for. */
#include "harness.h"
#include "tup.h"

#include <stdio.h>
#include <string.h>

enum { STATES = 13, FLAGS = 16, BATCH = 64, BEYOND = 4, REFUSALS = 18 };
enum { EVERY = TUP_CIRCUITS_MAX + 2, NONE }; /* in place of a circuit; the circuits beyond the table that are drawn are others */

struct event {
    uint32_t cic, kind, code, detail;
};

static struct {
    uint32_t own, far, circuits;
    size_t len;
    struct event batch[BATCH];
    uint32_t events;
    const struct event *event; /* of the batch, the one looked at */
} now;

static uint8_t before[TUP_TABLE_OCTETS(TUP_CIRCUITS_MAX)]; /* the table that the batch is handed over to */

/* The batch as it was handed over: the order, by places in the batch; each event's answer, by its place; and the table left. */
struct given {
    uint32_t order[BATCH];
    uint64_t answers[BATCH];
    uint8_t table[sizeof before];
};
static struct given drawn, turned, standby;

static unsigned long long calls;
static struct {
    unsigned long batches, several, events, orders, releases, refused[REFUSALS], ranks, choices, exchanged, full, by_order;
} met;

static void describe(void)
{
    printf("  own %u far %u, %u circuits, counter %llx, batch of %u\n", now.own, now.far, now.circuits,
           (unsigned long long)tup_counter(before), now.events);
    if (now.event == NULL)
        return;
    printf("  circuit %u: kind %u code %02x detail %u", now.event->cic, now.event->kind, now.event->code, now.event->detail);
    if (now.event->cic < now.circuits)
        printf(", before the batch in state %u with flags %u", tup_record_state(before, now.event->cic),
               tup_record_flags(before, now.event->cic));
    printf("\n");
}

static void expect_met(unsigned long count, const char *what)
{
    if (count == 0)
        differ("never met: %s", what);
}

/* Tables. */

/* The legal records, then some bad ones. */
static const struct record {
    uint8_t state, flags;
} bad[] = {{13, 0}, {255, 0}, {0, 4}, {0, 9}, {0, 16}, {12, 1}, {1, 12}, {7, 128}, {12, 8}};
enum { LEGAL = 98, BAD = sizeof bad / sizeof *bad, RECORDS = LEGAL + BAD };
static struct record records[RECORDS];

static void list_records(void)
{
    uint8_t table[TUP_TABLE_OCTETS(1)] = {0};
    unsigned count = 0;
    for (unsigned i = 0; i < STATES * FLAGS; i++) {
        put_record(table, 0, i / FLAGS, i % FLAGS, 0);
        if (!tup_record_bad(table, 0) && count++ < LEGAL)
            records[count - 1] = (struct record){(uint8_t)(i / FLAGS), (uint8_t)(i % FLAGS)};
    }
    if (count != LEGAL)
        differ("%u records are legal", count);
    memcpy(records + LEGAL, bad, sizeof bad);
}

static void make_table(uint32_t own, uint32_t circuits)
{
    now.own = own, now.far = 3 - own, now.circuits = circuits;
    now.len = TUP_TABLE_OCTETS(circuits);
    memset(before, 0, now.len);
}

static void set_record(uint32_t cic, const struct record *record, uint64_t rank)
{
    put_record(before, cic, record->state, record->flags, rank);
}

/* State and flags; ranks are not looked at. */
static int same_record(const uint8_t *one, const uint8_t *other, uint32_t cic)
{
    return tup_record_state(one, cic) == tup_record_state(other, cic) && tup_record_flags(one, cic) == tup_record_flags(other, cic);
}

/* But for the counter, and the record of this circuit, or of EVERY circuit of the batch, each octet is as it was. */
static void expect_rest_kept(const uint8_t *table, uint32_t cic)
{
    static uint8_t rest[sizeof before];
    memcpy(rest, table, now.len);
    memcpy(rest, before, TUP_COUNTER_OCTETS);
    for (uint32_t i = 0; i < now.events; i++) {
        uint32_t own = now.batch[i].cic;
        if (own < now.circuits && (cic == EVERY || own == cic))
            memcpy(rest + TUP_RECORD_AT(own), before + TUP_RECORD_AT(own), TUP_RECORD_OCTETS);
    }
    for (uint32_t other = 0; memcmp(rest, before, now.len) != 0 && other < now.circuits; other++)
        if (memcmp(rest + TUP_RECORD_AT(other), before + TUP_RECORD_AT(other), TUP_RECORD_OCTETS) != 0)
            differ("circuit %u, which had no event, is left in state %u with flags %u, or with another rank", other,
                   tup_record_state(table, other), tup_record_flags(table, other));
}

/* Handing over. */

static uint64_t step(uint8_t *table, const struct event *event)
{
    now.event = event;
    calls++;
    return tup_step(now.own, now.far, table, now.len, event->cic, event->kind, event->code, event->detail);
}

static void hand_over(struct given *to)
{
    for (uint32_t i = 0; i < now.events; i++)
        to->answers[to->order[i]] = step(to->table, now.batch + to->order[i]);
    met.orders++;
}

static void hand_over_anew(struct given *to)
{
    memcpy(to->table, before, now.len);
    hand_over(to);
}

static void swap(uint32_t *one, uint32_t *other)
{
    uint32_t kept = *one;
    *one = *other, *other = kept;
}

/* So many numbers drawn from among them to the front, by Fisher and Yates. */
static void shuffle(uint32_t *numbers, uint32_t count, uint32_t front)
{
    for (uint32_t i = 0; i < front; i++)
        swap(numbers + i, numbers + i + draw(count - i));
}

static void set_order(struct given *of, int backwards)
{
    for (uint32_t i = 0; i < now.events; i++)
        of->order[i] = backwards ? now.events - 1 - i : i;
}

/* Each circuit's events are put back into their own order, and the circuits stay mixed as they are. With one event a circuit
   nothing moves. */
static void keep_circuits_order(struct given *of)
{
    for (uint32_t i = 0; i < now.events; i++)
        for (uint32_t j = i + 1; j < now.events; j++)
            if (of->order[j] < of->order[i] && now.batch[of->order[j]].cic == now.batch[of->order[i]].cic)
                swap(of->order + i, of->order + j);
}

/* Backwards for which 0, else shuffled. */
static void draw_order(struct given *of, unsigned which)
{
    set_order(of, which == 0);
    if (which > 0)
        shuffle(of->order, now.events, now.events);
    keep_circuits_order(of);
}

/* What is promised. */

/* Each event got the answer that it got in the order drawn, and the same states and flags are left: at every circuit but one, or
   but NONE. */
static void expect_as_drawn(const struct given *got, uint32_t but)
{
    for (uint32_t i = 0; i < now.events; i++) {
        now.event = now.batch + i;
        if (now.event->cic != but && got->answers[i] != drawn.answers[i])
            differ("in another order the answer is %012llx, and was %012llx", (unsigned long long)got->answers[i],
                   (unsigned long long)drawn.answers[i]);
    }
    now.event = NULL;
    for (uint32_t cic = 0; cic < now.circuits; cic++)
        if (cic != but && !same_record(got->table, drawn.table, cic))
            differ("in another order circuit %u is left in state %u with flags %u, and was in state %u with flags %u", cic,
                   tup_record_state(got->table, cic), tup_record_flags(got->table, cic), tup_record_state(drawn.table, cic),
                   tup_record_flags(drawn.table, cic));
    if (but == NONE && tup_counter(got->table) != tup_counter(drawn.table))
        differ("in another order the counter is left at %llx", (unsigned long long)tup_counter(got->table));
}

/* A circuit's events by themselves get the answers, and leave the state and flags, that they do in the batch. */
static void expect_alone(uint32_t cic)
{
    static uint8_t table[sizeof before];
    memcpy(table, before, now.len);
    for (uint32_t i = 0; i < now.events; i++) {
        uint64_t answer = now.batch[i].cic == cic ? step(table, now.batch + i) : drawn.answers[i];
        if (answer != drawn.answers[i])
            differ("with its circuit's events alone the answer is %012llx, and in the batch %012llx", (unsigned long long)answer,
                   (unsigned long long)drawn.answers[i]);
    }
    if (cic < now.circuits && !same_record(table, drawn.table, cic))
        differ("its circuit's events alone leave state %u and flags %u, and in the batch state %u and flags %u",
               tup_record_state(table, cic), tup_record_flags(table, cic), tup_record_state(drawn.table, cic),
               tup_record_flags(drawn.table, cic));
    expect_rest_kept(table, cic);
}

static void expect_each_alone(void)
{
    for (uint32_t i = 0; i < now.events; i++) {
        uint32_t earlier = 0;
        while (now.batch[earlier].cic != now.batch[i].cic)
            earlier++;
        if (earlier == i)
            expect_alone(now.batch[i].cic);
    }
}

/* Where fewer than two circuits were freed, the order leaves no trace in any octet. Else ranks may differ, and the choice. */
static void note_ranks(void)
{
    int differing = memcmp(turned.table, drawn.table, now.len) != 0;
    if (differing && tup_counter(drawn.table) - tup_counter(before) < 2)
        differ("fewer than two circuits were freed, and in another order there are other ranks");
    if (!differing)
        return;
    met.ranks++;
    met.choices += tup_select(now.own, now.far, turned.table, now.len) != tup_select(now.own, now.far, drawn.table, now.len);
}

/* The batch as it stands, for which the counter has room, in the order drawn and in so many others. */
static void try_orders(unsigned orders)
{
    set_order(&drawn, 0);
    hand_over_anew(&drawn);
    for (uint32_t i = 0; i < now.events; i++) {
        uint32_t refusal = tup_answer_refusal(drawn.answers[i]);
        now.event = now.batch + i;
        if (refusal >= REFUSALS || refusal == TUP_COUNTER_FULL)
            differ("refused %u", refusal);
        met.refused[refusal]++;
    }
    expect_rest_kept(drawn.table, EVERY);
    for (unsigned i = 0; i < orders; i++) {
        draw_order(&turned, i);
        hand_over_anew(&turned);
        expect_as_drawn(&turned, NONE);
        expect_rest_kept(turned.table, EVERY);
        note_ranks();
    }
}

/* What is not. */

/* Whether the event of a batch with one a circuit has freed it in the order drawn. */
static int frees(uint32_t at)
{
    uint32_t cic = now.batch[at].cic;
    return cic < now.circuits && tup_record_state(before, cic) != TUP_IDLE && tup_record_state(drawn.table, cic) == TUP_IDLE;
}

/* What an event that frees its circuit is answered where the counter is full: 13, and the record as it stands. */
static uint64_t answer_13(uint32_t cic)
{
    return TUP_COUNTER_FULL | (uint64_t)tup_record_state(before, cic) << 16 | (uint64_t)tup_record_flags(before, cic) << 24;
}

/* The counter has room for so many releases, fewer than the batch has: those that come first take it, the others are refused 13 and
   change nothing, and whatever frees no circuit is answered as ever. Gives the places of the refused as bits. */
static uint64_t expect_13(struct given *of, uint64_t room)
{
    uint64_t refused = 0;
    hand_over_anew(of);
    for (uint32_t i = 0; i < now.events; i++) {
        uint32_t at = of->order[i], cic = now.batch[at].cic;
        int freeing = frees(at), full = freeing && room == 0;
        now.event = now.batch + at;
        if (of->answers[at] != (full ? answer_13(cic) : drawn.answers[at]))
            differ("with room for too few releases the answer is %012llx", (unsigned long long)of->answers[at]);
        if (full && memcmp(of->table + TUP_RECORD_AT(cic), before + TUP_RECORD_AT(cic), TUP_RECORD_OCTETS) != 0)
            differ("refused 13, and its record is changed");
        room -= freeing && !full;
        refused |= (uint64_t)full << at;
    }
    return refused;
}

/* A batch with one event a circuit, which was given in the order drawn: now in two orders with room for fewer releases than it
   has. */
static void try_full(void)
{
    uint64_t counter = tup_counter(before), releases = tup_counter(drawn.table) - counter;
    if (releases == 0)
        return;
    uint64_t room = releases == 2 ? 1 : draw((uint32_t)releases);
    put_eight(before, UINT64_MAX - room);
    set_order(&turned, 0);
    uint64_t refused = expect_13(&turned, room);
    set_order(&turned, 1);
    met.by_order += expect_13(&turned, room) != refused;
    met.full++;
    put_eight(before, counter);
}

/* Two events of one circuit, of which one comes next behind the other, change places. What they do may change, and what other
   circuits' events do may not. */
static void exchange(void)
{
    uint32_t first = draw(now.events), second = first + 1, cic = now.batch[first].cic;
    while (second < now.events && now.batch[second].cic != cic)
        second++;
    if (second == now.events)
        return;
    set_order(&turned, 0);
    swap(turned.order + first, turned.order + second);
    hand_over_anew(&turned);
    expect_as_drawn(&turned, cic);
    met.exchanged += turned.answers[first] != drawn.answers[first] || turned.answers[second] != drawn.answers[second];
}

/* Every event, record and neighbour. */

/* The one event of the batch, on either circuit of two, with this record there and that one beside it. */
static void give_beside(struct given *to, const struct record *own, const struct record *beside, unsigned which)
{
    uint32_t cic = now.batch[0].cic;
    set_record(cic, own, edges[which % EDGES]);
    set_record(1 - cic, beside, edges[which / 2 % EDGES]);
    put_eight(before, edges[which % (EDGES - 1)]); /* the last of them is full */
    hand_over_anew(to);
    expect_rest_kept(to->table, cic);
}

static void every_neighbour(const struct record *own)
{
    uint32_t cic = now.batch[0].cic;
    give_beside(&drawn, own, records, 0);
    for (unsigned i = 1; i < RECORDS; i++) {
        give_beside(&turned, own, records + i, i);
        if (turned.answers[0] != drawn.answers[0] || !same_record(turned.table, drawn.table, cic))
            differ("beside state %u and flags %u it is answered %012llx and left in state %u with flags %u, beside an idle circuit "
                   "answered %012llx", records[i].state, records[i].flags, (unsigned long long)turned.answers[0],
                   tup_record_state(turned.table, cic), tup_record_flags(turned.table, cic), (unsigned long long)drawn.answers[0]);
    }
}

static struct event event_of(uint32_t cic, const struct particulars *particulars)
{
    return (struct event){cic, particulars->kind, particulars->code, particulars->detail};
}

/* Either circuit of two, at either end, so that each has either role. */
static void every_event_beside(void)
{
    now.events = 1;
    turned.order[0] = drawn.order[0] = 0;
    for (unsigned i = 0; i < 4 * LEGAL * LISTED; i++) {
        if (i % (LEGAL * LISTED) == 0)
            make_table(1 + i / (LEGAL * LISTED) % 2, 2);
        now.batch[0] = event_of(i / (2 * LEGAL * LISTED), listed + i % LISTED);
        every_neighbour(records + i / LISTED % LEGAL);
    }
    covered("%u listed events on %u legal records of either circuit in either role, each beside %u records", LISTED, LEGAL,
            RECORDS);
}

/* Two events on two circuits with these records. */
static void try_pair(const struct record *one, const struct record *other)
{
    set_record(0, one, 7);
    set_record(1, other, 8);
    set_order(&drawn, 0);
    hand_over_anew(&drawn);
    set_order(&turned, 1);
    hand_over_anew(&turned);
    expect_as_drawn(&turned, NONE);
    expect_rest_kept(turned.table, EVERY);
    note_ranks();
    try_full();
}

static void every_pair(int all)
{
    unsigned long pairs = 0;
    make_table(2, 2);
    now.events = 2;
    for (unsigned i = 0; i < LEGAL * LISTED * LISTED; i++) {
        now.batch[0] = event_of(0, listed + i % LISTED);
        now.batch[1] = event_of(1, listed + i / LISTED % LISTED);
        for (unsigned j = 0; j < (all ? LEGAL : 1); j++, pairs++)
            try_pair(records + i / (LISTED * LISTED), records + (all ? j : draw(LEGAL)));
    }
    expect_met(met.by_order, "two releases with room for one, where the order tells which event is refused 13");
    covered("%lu pairs of listed events on two circuits with legal records, in both orders: other ranks in %lu; %lu again with "
            "room for one release less than they have, and in %lu of these the order tells which is refused 13", pairs, met.ranks,
            met.full, met.by_order);
}

/* Random batches. */

static uint32_t pool[TUP_CIRCUITS_MAX + BEYOND]; /* the circuits that a batch may be about */

/* The whole table, or a stretch of it in which neighbours meet, at times its two ends; now and then some circuits beyond it, of
   which two are taken for circuits of the table by whoever looks at the lower bits alone. */
static uint32_t draw_pool(void)
{
    const uint32_t beyond[BEYOND] = {now.circuits, now.circuits + 1, 0x10000, UINT32_MAX - 4095};
    uint32_t most = chance(2) ? 48 : TUP_CIRCUITS_MAX, span = now.circuits < most ? now.circuits : most, count;
    uint32_t from = chance(2) ? draw(now.circuits) : now.circuits - span / 2;
    uint32_t further = chance(2) ? draw(BEYOND + 1) : 0;
    for (count = 0; count < span; count++)
        pool[count] = (from + count) % now.circuits;
    memcpy(pool + count, beyond, further * sizeof *pool);
    return count + further;
}

/* Mostly one that fits the circuit's state; now and then none, since one of its numbers is too large. */
static struct event draw_event(const uint8_t *table, uint32_t cic)
{
    uint32_t state = cic < now.circuits ? tup_record_state(table, cic) : STATES;
    struct particulars particulars = state < STATES ? draw_next(state) : listed[draw(LISTED)];
    struct event event = event_of(cic, &particulars);
    uint32_t *numbers[] = {&event.kind, &event.code, &event.detail};
    if (event.kind == TUP_SIGNAL && event.code == TUP_ACM)
        event.detail = draw(256);
    if (chance(20))
        *numbers[draw(3)] |= 256;
    return event;
}

/* Room for as many releases as the batch has events, at times exactly that. */
static uint64_t draw_counter(void)
{
    switch (draw(4)) {
    case 0:
        return 0;
    case 1:
        return 0xFFFFFFFF - draw(8);
    case 2:
        return draw64() / 2;
    default:
        return UINT64_MAX - now.events;
    }
}

static void draw_batch(int several)
{
    static uint8_t table[sizeof before]; /* as it is so far, so that a circuit's later events fit its earlier ones */
    uint32_t pooled = draw_pool(), most = several ? 8 : BATCH, count = 1 + draw(pooled < most ? pooled : most);
    shuffle(pool, pooled, count);
    now.events = several ? 1 + draw(BATCH) : count;
    put_eight(before, draw_counter());
    memcpy(table, before, now.len);
    for (uint32_t i = 0; i < now.events; i++) {
        now.batch[i] = draw_event(table, pool[several ? draw(count) : i]);
        step(table, now.batch + i);
    }
}

/* Records of every kind, some bad where that is wanted; or what events have made of an idle group. */
static void draw_table(uint32_t circuits, int reached, int with_bad)
{
    make_table(1 + draw(2), circuits);
    for (uint32_t cic = 0; !reached && cic < circuits; cic++) {
        uint64_t rank = chance(2) ? draw64() : draw(4);
        set_record(cic, records + (with_bad && chance(10) ? LEGAL + draw(BAD) : draw(LEGAL)), rank);
    }
    for (uint32_t i = 0; reached && i < 6 * circuits; i++) {
        now.batch[0] = draw_event(before, draw(circuits));
        step(before, now.batch);
    }
}

static void try_batch(int several)
{
    draw_batch(several);
    try_orders(4);
    expect_each_alone();
    if (several)
        exchange();
    else
        try_full();
    met.batches++;
    met.several += several != 0;
    met.events += now.events;
    met.releases += tup_counter(drawn.table) - tup_counter(before);
}

/* A host that goes on from what each batch has left, and beside it a second table that is given each batch in another order. */
static void random_batches(uint32_t circuits, unsigned which)
{
    draw_table(circuits, which % 2, which % 4 == 0);
    memcpy(standby.table, before, now.len);
    for (unsigned i = 0; i < 8; i++) {
        try_batch(i % 2);
        memcpy(standby.table, before, TUP_COUNTER_OCTETS);
        draw_order(&standby, 1);
        hand_over(&standby);
        expect_as_drawn(&standby, NONE);
        memcpy(before, drawn.table, now.len);
    }
}

/* What the page for hosts says of two events that change places. */

/* An event on the table as it stands. */
static void expect_gives(uint32_t cic, uint32_t kind, uint32_t code, uint32_t refusal, uint32_t state, uint32_t indication)
{
    now.batch[0] = (struct event){cic, kind, code, 0};
    uint64_t answer = step(before, now.batch);
    if (tup_answer_refusal(answer) != refusal || tup_answer_state(answer) != state || tup_answer_indication(answer) != indication)
        differ("refusal %u, state %u, indication %u, and the page says %u, %u, %u", tup_answer_refusal(answer),
               tup_answer_state(answer), tup_answer_indication(answer), refusal, state, indication);
}

/* On circuit 0, of which the end with code 2 has control. */
static void iam_and_seizure(void)
{
    for (uint32_t own = 1; own <= 2; own++) {
        make_table(own, 1);
        expect_gives(0, TUP_SIGNAL, TUP_IAM, TUP_ACCEPTED, TUP_IN_SEIZED, TUP_IND_INCOMING_CALL);
        expect_gives(0, TUP_COMMAND, TUP_SEIZE, TUP_COMMAND_NOT_ALLOWED, TUP_IN_SEIZED, TUP_IND_NOTHING);
        make_table(own, 1);
        expect_gives(0, TUP_COMMAND, TUP_SEIZE, TUP_ACCEPTED, TUP_OUT_SEIZED, TUP_IND_NOTHING);
        if (own == 2)
            expect_gives(0, TUP_SIGNAL, TUP_IAM, TUP_ACCEPTED, TUP_OUT_SEIZED, TUP_IND_DISCARDED);
        else
            expect_gives(0, TUP_SIGNAL, TUP_IAM, TUP_ACCEPTED, TUP_IN_SEIZED, TUP_IND_INCOMING_CALL_TRY_OWN_ELSEWHERE);
    }
}

/* Two circuits of ours are freed, the one or the other first: that one is then chosen. */
static void two_freed(void)
{
    for (uint32_t first = 0; first <= 2; first += 2) {
        make_table(2, 3);
        for (uint32_t cic = 0; cic < 3; cic++)
            set_record(cic, &(struct record){TUP_AWAITING_RELEASE_GUARD, 0}, 0);
        expect_gives(first, TUP_SIGNAL, TUP_RLG, TUP_ACCEPTED, TUP_IDLE, TUP_IND_CIRCUIT_FREED);
        expect_gives(2 - first, TUP_SIGNAL, TUP_RLG, TUP_ACCEPTED, TUP_IDLE, TUP_IND_CIRCUIT_FREED);
        if (tup_selected_circuit(tup_select(now.own, now.far, before, now.len)) != first)
            differ("circuit %u was freed first and is not chosen", first);
    }
}

static void random_tables(void)
{
    static const uint32_t sizes[] = {1, 2, 3, 5, 16, 64, 300};
    static const unsigned refusals[] = {0, 2, 3, 4, 5, 6, 12};
    unsigned long rounds = long_run() ? 4000 : 100;
    memset(&met, 0, sizeof met);
    for (unsigned i = 0; i < rounds; i++)
        for (unsigned size = 0; size < sizeof sizes / sizeof *sizes; size++)
            random_batches(sizes[size], i);
    for (unsigned i = 0; i < rounds / 4; i++)
        random_batches(TUP_CIRCUITS_MAX, i);
    for (unsigned i = 0; i < sizeof refusals / sizeof *refusals; i++)
        if (met.refused[refusals[i]] == 0)
            differ("never met: an event refused %u", refusals[i]);
    covered("events accepted %lu, refused 2: %lu, 3: %lu, 4: %lu, 5: %lu, 6: %lu, 12: %lu", met.refused[0], met.refused[2],
            met.refused[3], met.refused[4], met.refused[5], met.refused[6], met.refused[12]);
    expect_met(met.ranks, "ranks that go by the order");
    expect_met(met.choices, "a choice that goes by the order");
    expect_met(met.exchanged, "two events of one circuit that do something else in the other order");
    expect_met(met.by_order, "an order that tells which event is refused 13");
}

int main(int argc, char **argv)
{
    int all = argc > 1 && strcmp(argv[1], "all") == 0;
    harness_begin("batches", describe);
    list_records();
    every_event_beside();
    every_pair(all);
    random_tables();
    covered("%lu batches of %lu events, %lu with several events a circuit, in %lu orders: %lu releases; in %lu orders other ranks, "
            "in %lu of these another choice; %lu times other answers where two events of a circuit changed places; in %lu batches "
            "too few releases left, in %lu the order told which event was refused 13", met.batches, met.events, met.several,
            met.orders, met.releases, met.ranks, met.choices, met.exchanged, met.full, met.by_order);
    iam_and_seizure();
    two_freed();
    covered("%llu calls in all", calls);
    return 0;
}
