/* tup_select against the reference: every small table over a few telling records, every record, every circuit, random tables of all
   sizes and make-ups, bad groups and lengths. And against the request's own words, with no reference beside it: what is chosen
   qualifies, is seized at once, and no other circuit goes before it. Tables are lent through a view that cannot be written, beside
   an unreadable stretch. */
#include "harness.h"
#include "reference.h"
#include "tup.h"

#include <stdio.h>
#include <string.h>

static struct {
    uint32_t own, far, circuits;
    size_t len;
} now;

static struct room room;
static uint8_t *table;      /* here a table is laid out .. */
static const uint8_t *lent; /* .. and these are the same octets as they are lent */
static unsigned long long calls;

static void describe(void)
{
    printf("  own %u far %u, %zu octets, %u circuits\n", now.own, now.far, now.len, now.circuits);
    for (uint32_t cic = 0; cic < now.circuits && now.circuits <= 8; cic++)
        printf("  circuit %u: state %u flags %u rank %016llx\n", cic, tup_record_state(lent, cic), tup_record_flags(lent, cic),
               (unsigned long long)tup_record_rank(lent, cic));
}

/* The end whose code is the higher controls the even circuits. */
enum role { HIGHER, LOWER, ROLES };

static void place_octets(enum role role, enum place place, size_t len)
{
    now.own = role == HIGHER ? 2 : 1, now.far = 3 - now.own;
    now.len = len;
    table = room.open + room_at(place, len);
    lent = room.shut + room_at(place, len);
}

static void place_table(enum role role, enum place place, uint32_t circuits)
{
    now.circuits = circuits;
    place_octets(role, place, TUP_TABLE_OCTETS(circuits));
}

static void set_record(uint32_t cic, unsigned state, unsigned flags, uint64_t rank)
{
    put_record(table, cic, state, flags, rank);
}

static uint64_t compare(void)
{
    uint64_t want = ref_select(now.own, now.far, lent, now.len), got = tup_select(now.own, now.far, lent, now.len);
    calls++;
    if (got != want)
        differ("the answer is %016llx and should be %016llx", (unsigned long long)got, (unsigned long long)want);
    return got;
}

/* Small tables. The first few records and ranks are those that tell the most. */

static const struct { uint8_t state, flags; } records[] = {
    {0, 0}, {1, 0}, {0, 2}, {13, 0}, {0, 1}, {0, 8}, {0, 5}, {0, 3}, {0, 10}, {0, 7}, {0, 4}, {0, 9}, {0, 16}, {1, 2}, {11, 5},
    {12, 0}, {12, 2}, {12, 1}, {1, 6}, {255, 255}};
static const uint64_t ranks[] = {0, 1, UINT64_MAX, 2, (uint64_t)1 << 56, (uint64_t)1 << 63};
enum { RECORDS = sizeof records / sizeof *records, RANKS = sizeof ranks / sizeof *ranks, FEW = 4 };

static void every_table(uint32_t cic, unsigned of_records, unsigned of_ranks)
{
    if (cic == now.circuits) {
        compare();
        return;
    }
    for (unsigned i = 0; i < of_records * of_ranks; i++) {
        set_record(cic, records[i / of_ranks].state, records[i / of_ranks].flags, ranks[i % of_ranks]);
        every_table(cic + 1, of_records, of_ranks);
    }
}

static void small_tables(int all)
{
    for (unsigned i = 0; i < ROLES * PLACES; i++)
        for (uint32_t circuits = 1; circuits <= (all ? 5 : 4); circuits++) {
            int wide = circuits <= (all ? 3 : 2);
            place_table(i / PLACES, i % PLACES, circuits);
            every_table(0, wide ? RECORDS : FEW, wide ? RANKS : FEW);
        }
    covered("%llu tables of up to %d circuits, in both roles", calls, all ? 5 : 4);
}

/* Laws of the choice, by the table's octets and by tup_step. */

static uint8_t copy[TUP_TABLE_OCTETS(TUP_CIRCUITS_MAX)];

static int ours(uint32_t cic)
{
    return (now.own > now.far) == (cic % 2 == 0);
}

static int qualifies(const uint8_t *of, uint32_t cic)
{
    return tup_record_state(of, cic) == TUP_IDLE && !(tup_record_flags(of, cic) & TUP_FAR_BLOCK);
}

/* Whether the one circuit is to be taken rather than the other, where both qualify. */
static int goes_before(uint32_t one, uint32_t other)
{
    uint64_t rank = tup_record_rank(lent, one), others = tup_record_rank(lent, other);
    if (ours(one) != ours(other))
        return ours(one);
    if (rank != others)
        return ours(one) ? rank < others : rank > others;
    return one < other;
}

static uint64_t step(uint8_t *of, uint32_t cic, uint32_t kind, uint32_t code)
{
    return tup_step(now.own, now.far, of, now.len, cic, kind, code, 0);
}

/* How many records an event would be refused 12 at. Kind 0 is no event: a good record refuses it 3, and none changes. */
static uint32_t bad_records(void)
{
    uint32_t bad = 0;
    for (uint32_t cic = 0; cic < now.circuits; cic++)
        bad += tup_answer_refusal(step(copy, cic, 0, 0)) == TUP_BAD_RECORD;
    return bad;
}

/* The chosen circuit qualifies in this table, and none that does goes before it; refused, there is none. */
static void expect_first(const uint8_t *in, uint64_t answer)
{
    uint32_t chosen = tup_selected_circuit(answer), refusal = tup_selected_refusal(answer);
    if (refusal == 0 && (chosen >= now.circuits || !qualifies(in, chosen)))
        differ("circuit %u is chosen and does not qualify", chosen);
    for (uint32_t cic = 0; cic < now.circuits; cic++)
        if (qualifies(in, cic) && (refusal != 0 || goes_before(cic, chosen)))
            differ("refusal %u, circuit %u, where circuit %u goes before", refusal, chosen, cic);
}

static void expect_taken(uint64_t answer)
{
    uint32_t chosen = tup_selected_circuit(answer), looked = now.circuits;
    if (ours(chosen) && tup_record_rank(lent, chosen) == 0)
        looked = chosen + 1;
    if (tup_selected_looked(answer) != looked || answer >> 48 != 0)
        differ("%016llx: records looked at should be %u", (unsigned long long)answer, looked);
    uint64_t seized = step(copy, chosen, TUP_COMMAND, TUP_SEIZE);
    if (tup_answer_refusal(seized) != 0 || tup_answer_first(seized) != TUP_IAM)
        differ("circuit %u is chosen and not seized: refused %u", chosen, tup_answer_refusal(seized));
}

/* A host that wants circuits left out, here those that we have blocked and every third one, marks them in a copy as blocked by the
   far end: every good record stays good, and the choice is the first of the others. */
static void expect_left_out(void)
{
    memcpy(copy, lent, now.len);
    for (uint32_t cic = 0; cic < now.circuits; cic++)
        if (cic % 3 == 2 || (tup_record_flags(copy, cic) & TUP_OWN_BLOCK))
            copy[TUP_RECORD_AT(cic) + TUP_RECORD_FLAGS] |= TUP_FAR_BLOCK;
    uint64_t answer = tup_select(now.own, now.far, copy, now.len);
    if (tup_selected_refusal(answer) != 0 && answer != TUP_NO_CIRCUIT)
        differ("a copy with circuits left out is refused %llu", (unsigned long long)answer);
    expect_first(copy, answer);
}

static void expect_laws(uint64_t answer)
{
    memcpy(copy, lent, now.len);
    uint32_t refusal = tup_selected_refusal(answer), bad = bad_records();
    if (refusal != 0 && answer != refusal)
        differ("%016llx: circuit and count of a refusal are 0", (unsigned long long)answer);
    if ((refusal == TUP_BAD_RECORD) != (bad > 0))
        differ("refusal %u, and %u records are bad", refusal, bad);
    if (bad > 0)
        return;
    expect_first(lent, answer);
    if (refusal == 0)
        expect_taken(answer);
    expect_left_out();
}

/* Records one by one: every value of state and flags, and every circuit as the one that qualifies. */

static void every_record(void)
{
    for (unsigned role = 0; role < ROLES; role++) {
        place_table(role, AT_END, 3);
        for (uint32_t cic = 0; cic < 3; cic++)
            set_record(cic, TUP_IDLE, 0, cic);
        for (unsigned record = 0; record < 65536; record++) {
            set_record(record % 3, record >> 8, record & 255, 7);
            expect_laws(compare());
            set_record(record % 3, TUP_IDLE, 0, record % 3);
        }
    }
}

static void every_circuit(int all)
{
    for (unsigned role = 0; role < ROLES; role++) {
        place_table(role, role ? AT_START : AT_END, TUP_CIRCUITS_MAX);
        for (uint32_t cic = 0; cic < TUP_CIRCUITS_MAX; cic++)
            set_record(cic, TUP_OUT_SEIZED, 0, 0);
        for (uint32_t cic = 0; cic < TUP_CIRCUITS_MAX; cic += all ? 1 : 63)
            for (uint64_t rank = 0; rank < 2; rank++) {
                set_record(cic, TUP_IDLE, 0, rank);
                uint64_t looked = ours(cic) && rank == 0 ? cic + 1 : TUP_CIRCUITS_MAX;
                if (compare() != ((uint64_t)cic << 16 | looked << 32))
                    differ("circuit %u alone is idle, with rank %llu", cic, (unsigned long long)rank);
                set_record(cic, TUP_OUT_SEIZED, 0, 0);
            }
    }
}

/* Two circuits of one end whose ranks lie around each power of two, so that they differ in one bit or in many. */
static void every_bit(void)
{
    for (unsigned i = 0; i < ROLES * 64; i++) {
        uint64_t power = (uint64_t)1 << i / ROLES, around[] = {power - 1, power, power + 1, power / 2};
        place_table(i % ROLES, AT_START, 3);
        set_record(1, TUP_OUT_SEIZED, 0, 0);
        for (unsigned pair = 0; pair < 16; pair++) {
            set_record(0, TUP_IDLE, 0, around[pair / 4]);
            set_record(2, TUP_IDLE, 0, around[pair % 4]);
            expect_laws(compare());
        }
    }
}

/* Random tables. */

enum make_up { ANYTHING, MOSTLY_BUSY, ALL_IDLE, ALL_FAR_BLOCKED, OURS_BUSY, THEIRS_BUSY, MAKE_UPS };
enum order { ALL_ZERO, MANY_EQUAL, EQUAL_NOT_ZERO, ALL_DIFFERENT, ANY_NUMBER, HIGHEST_OCTET, ORDERS };

static struct {
    unsigned long tables, stopped, ours, theirs, none, bad_behind;
} seen;

static uint64_t draw_rank(enum order order, uint32_t cic)
{
    switch (order) {
    case ALL_ZERO:
        return 0;
    case MANY_EQUAL:
        return draw(4);
    case EQUAL_NOT_ZERO:
        return 1 + draw(3);
    case ALL_DIFFERENT:
        return 1 + cic * 2654435761u % 4294967296u;
    case ANY_NUMBER:
        return draw64();
    default:
        return (uint64_t)draw(256) << 56 | 0x123456789ABCDE;
    }
}

static void draw_record(enum make_up make_up, uint32_t cic, uint64_t rank)
{
    static const uint8_t open[] = {0, 1, 5, 8}, far_blocked[] = {2, 3, 7, 10};
    unsigned flags = (chance(4) ? far_blocked : open)[draw(4)], busy = 1 + draw(11);
    if (make_up == ALL_IDLE)
        set_record(cic, TUP_IDLE, open[draw(4)], rank);
    else if (make_up == ALL_FAR_BLOCKED)
        set_record(cic, TUP_IDLE, far_blocked[draw(4)], rank);
    else if (make_up == ANYTHING ? chance(2) : make_up == MOSTLY_BUSY ? chance(100) : ours(cic) == (make_up == THEIRS_BUSY))
        set_record(cic, TUP_IDLE, flags, rank);
    else if (chance(8))
        set_record(cic, TUP_AWAITING_RESET, chance(2) ? 0 : TUP_FAR_BLOCK, rank);
    else
        set_record(cic, busy, flags, rank);
}

/* One record made bad from this circuit on, and then good again as it was. */
static void with_a_bad_record(uint32_t from)
{
    static const uint8_t bad[][2] = {{13, 0}, {255, 0}, {0, 4}, {0, 9}, {0, 16}, {12, 1}, {1, 12}, {7, 128}, {12, 8}};
    uint8_t kept[TUP_RECORD_OCTETS];
    uint32_t cic = from + draw(now.circuits - from), which = draw(sizeof bad / sizeof *bad);
    memcpy(kept, table + TUP_RECORD_AT(cic), sizeof kept);
    set_record(cic, bad[which][0], bad[which][1], tup_record_rank(lent, cic));
    if (compare() != TUP_BAD_RECORD)
        differ("circuit %u has a bad record", cic);
    memcpy(table + TUP_RECORD_AT(cic), kept, sizeof kept);
}

static void random_table(enum make_up make_up, enum order order)
{
    uint32_t most = chance(4) ? TUP_CIRCUITS_MAX : chance(2) ? 64 : 6;
    place_table(draw(ROLES), draw(PLACES), 1 + draw(most));
    put_eight(table, draw64());
    for (uint32_t cic = 0; cic < now.circuits; cic++)
        draw_record(make_up, cic, draw_rank(order, cic));
    uint64_t answer = compare();
    uint32_t refusal = tup_selected_refusal(answer), looked = tup_selected_looked(answer);
    expect_laws(answer);
    with_a_bad_record(0);
    seen.tables++;
    seen.none += refusal == TUP_NO_CIRCUIT;
    seen.ours += refusal == 0 && ours(tup_selected_circuit(answer));
    seen.theirs += refusal == 0 && !ours(tup_selected_circuit(answer));
    if (refusal == 0 && looked < now.circuits) {
        seen.stopped++;
        with_a_bad_record(looked);
        seen.bad_behind++;
    }
}

static void expect_seen(unsigned long count, const char *what)
{
    if (count == 0)
        differ("never seen: %s", what);
}

static void random_tables(int all)
{
    unsigned long each = long_run() ? 20000 : all ? 200 : 20;
    for (unsigned long i = 0; i < each * MAKE_UPS * ORDERS; i++)
        random_table(i % MAKE_UPS, i / MAKE_UPS % ORDERS);
    expect_seen(seen.ours, "one of ours chosen");
    expect_seen(seen.theirs, "one of theirs chosen");
    expect_seen(seen.none, "no circuit that qualifies");
    expect_seen(seen.bad_behind, "a bad record behind an early stop");
    covered("%lu random tables: one of ours in %lu, %lu of them by an early stop, one of theirs in %lu, none in %lu; a bad record "
            "in each, %lu more behind the stop", seen.tables, seen.ours, seen.stopped, seen.theirs, seen.none, seen.bad_behind);
}

/* Chosen and seized until none is left: all that qualify are taken, each in its turn. */
static void drained(enum order order)
{
    uint32_t last = 0, taken = 0, qualify = 0;
    uint64_t answer;
    place_table(draw(ROLES), draw(PLACES), 1 + draw(100));
    for (uint32_t cic = 0; cic < now.circuits; cic++) {
        draw_record(ANYTHING, cic, draw_rank(order, cic));
        qualify += (uint32_t)qualifies(lent, cic);
    }
    for (; tup_selected_refusal(answer = compare()) == 0; taken++) {
        uint32_t cic = tup_selected_circuit(answer);
        if (taken > 0 && !goes_before(last, cic))
            differ("circuit %u is taken after circuit %u", cic, last);
        if (tup_answer_refusal(step(table, cic, TUP_COMMAND, TUP_SEIZE)) != 0)
            differ("circuit %u is not seized", cic);
        last = cic;
    }
    if (answer != TUP_NO_CIRCUIT || taken != qualify)
        differ("%u of %u are taken, then %016llx", taken, qualify, (unsigned long long)answer);
}

/* Groups and lengths. */

/* Refused 1 exactly where tup_step refuses it. */
static void expect_judged_alike(uint64_t answer)
{
    if ((answer == TUP_NO_SUCH_GROUP) != (tup_answer_refusal(step(table, 0, 0, 0)) == TUP_NO_SUCH_GROUP))
        differ("the answer is %016llx, and tup_step judges the group otherwise", (unsigned long long)answer);
}

/* Every length up to beyond the longest table. Where it is one, only its last circuit is idle. */
static void every_length(void)
{
    for (size_t len = 0; len <= TUP_TABLE_OCTETS(TUP_CIRCUITS_MAX + 2); len++) {
        place_octets(len % 4 / 2, len % 2, len);
        now.circuits = len < TUP_COUNTER_OCTETS ? 0 : (uint32_t)((len - TUP_COUNTER_OCTETS) / TUP_RECORD_OCTETS);
        int whole = now.circuits > 0 && len == TUP_TABLE_OCTETS(now.circuits);
        for (uint32_t cic = 0; whole && cic < now.circuits; cic++)
            set_record(cic, cic + 1 < now.circuits ? TUP_IN_ANSWERED : TUP_IDLE, 0, len);
        uint64_t last = (uint64_t)(now.circuits - 1) << 16 | (uint64_t)now.circuits << 32;
        uint64_t answer = compare();
        if (answer != (whole && now.circuits <= TUP_CIRCUITS_MAX ? last : TUP_NO_SUCH_GROUP))
            differ("the answer is %016llx", (unsigned long long)answer);
        expect_judged_alike(answer);
    }
}

static void every_code(void)
{
    static const uint32_t others[] = {0, 1, 16383, 16384};
    place_table(HIGHER, AT_END, 2);
    memset(table, 0, now.len);
    for (uint32_t code = 0; code < 0x12000; code++)
        for (unsigned i = 0; i < 4 * WIDE; i++) {
            now.own = widened(code, i / 4), now.far = others[i % 4];
            expect_judged_alike(compare());
            now.far = now.own, now.own = others[i % 4];
            expect_judged_alike(compare());
        }
}

/* No octets at all, where the pointer is not looked at; and a length whose lowest 32 bits would do. */
static void no_table(void)
{
    uint8_t *vast = vast_make();
    if (tup_select(2, 1, NULL, 0) != TUP_NO_SUCH_GROUP)
        differ("an empty table is not refused 1");
    if (tup_select(2, 1, vast, VAST + TUP_TABLE_OCTETS(2)) != TUP_NO_SUCH_GROUP)
        differ("a table of more than 4 GiB is not refused 1");
}

int main(int argc, char **argv)
{
    int all = argc > 1 && strcmp(argv[1], "all") == 0;
    harness_begin("select", describe);
    room = room_make();
    small_tables(all);
    every_record();
    every_circuit(all);
    every_bit();
    every_length();
    every_code();
    no_table();
    random_tables(all);
    for (unsigned i = 0; i < 300; i++)
        drained(i % ORDERS);
    covered("%llu calls in all", calls);
    return 0;
}
