/* tup_step against the reference: every record, role, kind, code and detail of an octet; every listed event with counters and ranks
   of all sizes; numbers too large for an octet or two; bad groups and lengths of tables; every circuit's role. The answer is
   compared, and every octet of the table, its counter and its ranks among them, and around it. */
#include "harness.h"
#include "reference.h"
#include "tup.h"

#include <stdio.h>
#include <stdlib.h>
#include <string.h>

enum { MARGIN = 64 }; /* octets compared where the table is one of up to five circuits at an end of the room */

static struct call {
    uint32_t own, far, cic, kind, code, detail;
    size_t len;
    unsigned state, flags;
    uint64_t counter, rank;
} now;

static struct room room;
static uint8_t model[ROOM], blank[ROOM];
static uint8_t *lent, *twin; /* the table lent to the archive, and the reference's own at the same offset */
static unsigned long long calls;

static void describe(void)
{
    printf("  own %u far %u table of %zu octets, circuit %u with state %u flags %u; kind %u code %u detail %u\n", now.own, now.far,
           now.len, now.cic, now.state, now.flags, now.kind, now.code, now.detail);
    printf("  counter and rank last set: %016llx %016llx\n", (unsigned long long)now.counter, (unsigned long long)now.rank);
}

static void place_table(enum place place, size_t len)
{
    memcpy(room.open, blank, ROOM);
    memcpy(model, blank, ROOM);
    now.len = len;
    lent = room.open + room_at(place, len);
    twin = model + room_at(place, len);
}

static void set_ranks(uint32_t cic, uint64_t counter, uint64_t rank)
{
    uint8_t *tables[2] = {lent, twin};
    for (int i = 0; i < 2; i++) {
        put_eight(tables[i], counter);
        put_eight(tables[i] + TUP_RECORD_AT(cic) + TUP_RECORD_RANK, rank);
    }
    now.counter = counter;
    now.rank = rank;
}

static void set_record(uint32_t cic, unsigned state, unsigned flags)
{
    uint8_t *records[2] = {lent + TUP_RECORD_AT(cic), twin + TUP_RECORD_AT(cic)};
    for (int i = 0; i < 2; i++) {
        records[i][TUP_RECORD_STATE] = (uint8_t)state;
        records[i][TUP_RECORD_FLAGS] = (uint8_t)flags;
    }
    now.state = state;
    now.flags = flags;
}

/* Eight octets at a time and from..to a multiple of that, since the C library's memcmp, which may look ahead under a mask, takes a
   slow path beside an unreadable stretch. */
static int same_memory(size_t from, size_t to)
{
    for (; from < to; from += 8) {
        uint64_t got, want;
        memcpy(&got, room.open + from, 8);
        memcpy(&want, model + from, 8);
        if (got != want)
            return 0;
    }
    return 1;
}

static void compare_memory(size_t from, size_t to)
{
    if (same_memory(from, to))
        return;
    while (room.open[from] == model[from])
        from++;
    differ("octet %ld of the table is %u and should be %u", (long)from - (long)(lent - room.open), room.open[from], model[from]);
}

static void compare_answer(void)
{
    uint64_t want = ref_step(now.own, now.far, twin, now.len, now.cic, now.kind, now.code, now.detail);
    uint64_t got = tup_step(now.own, now.far, lent, now.len, now.cic, now.kind, now.code, now.detail);
    calls++;
    if (got != want)
        differ("the answer is %012llx and should be %012llx", (unsigned long long)got, (unsigned long long)want);
}

static int looks_at_detail(uint32_t kind, uint32_t code)
{
    return (kind == TUP_SIGNAL && code == TUP_ACM) ||
           (kind == TUP_COMMAND && (code == TUP_ADDRESS_COMPLETE || code == TUP_ANSWER || code == TUP_FAIL));
}

/* The stretch at the room's end, as it is before a call and is to be again behind it. */
static uint8_t before[MARGIN];

static void compare_and_put_back(void)
{
    compare_answer();
    compare_memory(ROOM - MARGIN, ROOM);
    memcpy(room.open + ROOM - MARGIN, before, MARGIN);
    memcpy(model + ROOM - MARGIN, before, MARGIN);
}

static void every_detail(const unsigned char *wanted)
{
    int all = looks_at_detail(now.kind, now.code);
    memcpy(before, model + ROOM - MARGIN, MARGIN);
    for (now.detail = 0; now.detail < 256; now.detail++)
        if (all || wanted[now.detail])
            compare_and_put_back();
}

/* Every record on one circuit of a table of five, whose other records are bad ones that must not matter. */
static void every_event(uint32_t own, uint32_t far, uint32_t cic, const unsigned char *wanted)
{
    place_table(AT_END, TUP_TABLE_OCTETS(5));
    now.own = own, now.far = far, now.cic = cic;
    for (unsigned record = 0; record < 16 * 32; record++)
        for (now.kind = 0; now.kind < 6; now.kind++)
            for (now.code = 0; now.code < 256; now.code++) {
                set_record(cic, record / 32, record % 32);
                set_ranks(cic, edges[(record + now.code) % EDGES], edges[(record + now.code / EDGES) % EDGES]);
                every_detail(wanted);
            }
}

/* Every listed event, and each with a detail one higher, on every record of the circuit as its counter and rank now stand. */
static void every_listed(uint32_t cic)
{
    for (unsigned record = 0; record < 16 * 32; record++) {
        set_record(cic, record / 32, record % 32);
        memcpy(before, model + ROOM - MARGIN, MARGIN);
        for (unsigned i = 0; i < 2 * LISTED; i++) {
            const struct particulars *event = listed + i / 2;
            now.kind = event->kind, now.code = event->code, now.detail = event->detail + i % 2;
            compare_and_put_back();
        }
    }
}

static void every_rank(uint32_t own, uint32_t far, uint32_t cic)
{
    place_table(AT_END, TUP_TABLE_OCTETS(5));
    now.own = own, now.far = far, now.cic = cic;
    for (unsigned i = 0; i < EDGES * EDGES; i++) {
        set_ranks(cic, edges[i / EDGES], edges[i % EDGES]);
        every_listed(cic);
    }
}

/* Records with octets of any value: only the legal ones may be taken, whether the event would free a circuit or not, and whether
   the counter is full or not. */
static void every_record(void)
{
    static const struct particulars events[] = {{TUP_COMMAND, TUP_RESTART, 0}, {TUP_SIGNAL, TUP_CLF, 0}};
    place_table(AT_START, TUP_TABLE_OCTETS(3));
    now.own = 1, now.far = 2, now.cic = 1, now.detail = 0;
    for (unsigned i = 0; i < 4; i++)
        for (unsigned record = 0; record < 65536; record++) {
            now.kind = events[i % 2].kind, now.code = events[i % 2].code;
            set_record(1, record / 256, record % 256);
            set_ranks(1, i / 2 ? UINT64_MAX : 255, record);
            compare_answer();
            compare_memory(0, MARGIN);
        }
}

/* Who controls: an IAM on a seized circuit and then a CLF, for every circuit, from both ends; and the two circuits beyond the
   last. The CLF frees the circuits that have given way, with a carry in the counter on the way. */
static void every_circuit(void)
{
    static const uint32_t pairs[][2] = {{2, 1}, {1, 2}, {16383, 0}, {0, 16383}, {8192, 8191}, {255, 256}};
    for (unsigned i = 0; i < sizeof pairs / sizeof *pairs; i++) {
        place_table(i % 2 ? AT_START : AT_END, TUP_TABLE_OCTETS(TUP_CIRCUITS_MAX));
        set_ranks(0, 0xFFFFFF00, 0);
        now.own = pairs[i][0], now.far = pairs[i][1], now.kind = TUP_SIGNAL, now.detail = 0;
        for (now.cic = 0; now.cic < TUP_CIRCUITS_MAX + 2; now.cic++) {
            if (now.cic < TUP_CIRCUITS_MAX)
                set_record(now.cic, TUP_OUT_SEIZED, 0);
            now.code = TUP_IAM;
            compare_answer();
            now.code = TUP_CLF;
            compare_answer();
        }
        compare_memory(0, ROOM);
    }
}

/* Every length up to beyond the longest table, with the circuits at both its ends and beyond. */
static void every_length(void)
{
    now.own = 2, now.far = 1, now.kind = TUP_SIGNAL, now.code = TUP_CLF, now.detail = 0;
    for (size_t len = 0; len <= TUP_TABLE_OCTETS(TUP_CIRCUITS_MAX + 2); len++) {
        uint32_t records = len < TUP_COUNTER_OCTETS ? 0 : (uint32_t)((len - TUP_COUNTER_OCTETS) / TUP_RECORD_OCTETS);
        place_table(len % 4 < 2 ? AT_END : AT_START, len);
        uint32_t asked[] = {0, records ? records - 1 : 0, records, records + 1, UINT32_MAX};
        for (unsigned i = 0; i < sizeof asked / sizeof *asked; i++) {
            now.cic = asked[i];
            if (now.cic < records)
                set_record(now.cic, TUP_IN_ANSWERED, TUP_FAR_BLOCK);
            compare_answer();
        }
        compare_memory(0, ROOM);
    }
}

/* One or two of the parameters replaced by numbers that differ from good ones in their higher bits. */
static void wide_numbers(void)
{
    static const uint32_t codes[] = {1, 2, 3, 4, 7, 10, 0x11, 0x14, 0x46, 0x77};
    enum { CODES = sizeof codes / sizeof *codes, PARAMETERS = 6 };
    place_table(AT_END, TUP_TABLE_OCTETS(4));
    for (unsigned i = 0; i < 13 * 3 * CODES; i++)
        for (unsigned first = 0; first < PARAMETERS * WIDE; first++)
            for (unsigned second = 0; second < PARAMETERS * WIDE; second++) {
                uint32_t set[PARAMETERS] = {2, 1, i % 4, i / 13 % 3 + 1, codes[i / 39], 0};
                set[first / WIDE] = widened(set[first / WIDE], first % WIDE);
                set[second / WIDE] = widened(set[second / WIDE], second % WIDE);
                now.own = set[0], now.far = set[1], now.cic = set[2], now.kind = set[3], now.code = set[4], now.detail = set[5];
                set_record(i % 4, i % 13, 0);
                compare_answer();
                compare_memory(ROOM - MARGIN, ROOM);
            }
}

static void every_point_code(void)
{
    place_table(AT_START, TUP_TABLE_OCTETS(1));
    now.cic = 0, now.kind = TUP_COMMAND, now.code = TUP_SEIZE, now.detail = 0;
    for (uint32_t code = 0; code < 0x12000; code++) {
        for (unsigned other = 0; other < 4; other++) {
            static const uint32_t others[] = {0, 1, 16383, 16384};
            now.own = code, now.far = others[other];
            set_record(0, TUP_IDLE, 0);
            compare_answer();
            now.own = others[other], now.far = code;
            set_record(0, TUP_IDLE, 0);
            compare_answer();
        }
        compare_memory(0, MARGIN);
    }
}

/* No table at all: the pointer is not looked at. */
static void no_table(void)
{
    now.own = 2, now.far = 1, now.len = 0, now.cic = 0, now.kind = TUP_COMMAND, now.code = TUP_RESTART, now.detail = 0;
    if (tup_step(2, 1, NULL, 0, 0, TUP_COMMAND, TUP_RESTART, 0) != TUP_NO_SUCH_GROUP)
        differ("an empty table is not refused 1");
}

/* A length whose lowest 32 bits would do. */
static void vast_table(void)
{
    uint8_t *vast = vast_make();
    now.len = VAST + TUP_TABLE_OCTETS(2);
    if (tup_step(2, 1, vast, now.len, 0, TUP_COMMAND, TUP_RESTART, 0) != TUP_NO_SUCH_GROUP)
        differ("a table of more than 4 GiB is not refused 1");
}

int main(int argc, char **argv)
{
    unsigned char wanted[256];
    int all = argc > 1 && strcmp(argv[1], "all") == 0;
    harness_begin("step", describe);
    room = room_make();
    pattern(blank, ROOM);
    for (unsigned detail = 0; detail < 256; detail++)
        wanted[detail] = (unsigned char)(all || detail_telling(detail));
    every_event(2, 1, 2, wanted);
    every_event(2, 1, 3, wanted);
    covered("%llu events on one circuit in both roles, %s details", calls, all ? "all" : "the telling");
    unsigned long long so_far = calls;
    every_rank(2, 1, 2);
    every_rank(2, 1, 3);
    covered("%llu events with %u counters and %u ranks", calls - so_far, EDGES, EDGES);
    every_record();
    every_circuit();
    every_length();
    wide_numbers();
    every_point_code();
    no_table();
    vast_table();
    covered("%llu calls in all", calls);
    return 0;
}
