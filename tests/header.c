/* The functions that tup.h and tup_names.h have of their own, against the archive: which timers run, who controls, which records
   are bad, how many circuits a table has, the table with which a host comes up, fields as enums, names. Exhaustive where that is
   small. */
#include "harness.h"
#include "tup_names.h"

#include <stdio.h>
#include <string.h>

#if TUP_VERSION < 40400 || TUP_VERSION_MAJOR != 4
#error "the version is compared at compile time"
#endif
#if TUP_TABLE_FORMAT != 2
#error "the table's format is compared at compile time"
#endif

enum { GROUP = 5 };
static uint8_t table[TUP_TABLE_OCTETS(TUP_CIRCUITS_MAX) + 16];
static struct { uint32_t state, flags, number; } now;

static void describe(void)
{
    printf("  state %u flags %u number %u\n", now.state, now.flags, now.number);
}

static void expect(const char *what, uint64_t got, uint64_t wanted)
{
    if (got != wanted)
        differ("%s: %llu instead of %llu", what, (unsigned long long)got, (unsigned long long)wanted);
}

static void lay_record(uint32_t circuit, uint32_t state, uint32_t flags)
{
    now.state = state, now.flags = flags;
    memset(table, 0, TUP_TABLE_OCTETS(GROUP));
    put_record(table, circuit, state, flags, 0);
}

static uint32_t refusal_of(uint32_t circuit, uint32_t kind, uint32_t code)
{
    return tup_answer_refusal(tup_step(2, 1, table, TUP_TABLE_OCTETS(GROUP), circuit, kind, code, 0));
}

/* Every pair of octets: a record is bad exactly where an event that is none is refused 12 and not 3. */
static void bad_records(void)
{
    unsigned long bad = 0;
    for (uint32_t state = 0; state < 256; state++)
        for (uint32_t flags = 0; flags < 256; flags++) {
            lay_record(3, state, flags);
            uint32_t refusal = refusal_of(3, 0, 0);
            expect("a bad record", tup_record_bad(table, 3) != 0, refusal == TUP_BAD_RECORD);
            expect("a good record", !tup_record_bad(table, 3), refusal == TUP_NO_SUCH_EVENT);
            expect("the first bad one", tup_bad_record(table, TUP_TABLE_OCTETS(GROUP), 0), refusal == TUP_BAD_RECORD ? 3 : GROUP);
            expect("the first bad one from it on", tup_bad_record(table, TUP_TABLE_OCTETS(GROUP), 3),
                   refusal == TUP_BAD_RECORD ? 3 : GROUP);
            expect("the first bad one behind it", tup_bad_record(table, TUP_TABLE_OCTETS(GROUP), 4), GROUP);
            bad += refusal == TUP_BAD_RECORD;
        }
    expect("the bad ones", bad, 65536 - 12 * 8 - 2);
    expect("bad ones of no table", tup_bad_record(table, TUP_TABLE_OCTETS(GROUP) - 1, 0), 0);
    covered("every record: %lu of 65536 bad", bad);
}

/* A timer runs exactly where it is not refused 6. */
static void timers(void)
{
    unsigned long running = 0;
    for (uint32_t state = 0; state <= TUP_AWAITING_RESET; state++)
        for (uint32_t flags = 0; flags < 16; flags++)
            for (uint32_t timer = 1; timer <= TUP_TIMER_BLOCK_REPEAT; timer++) {
                lay_record(3, state, flags);
                now.number = timer;
                if (tup_record_bad(table, 3))
                    continue;
                int runs = (tup_timers(state, flags) & tup_timer_bit(timer)) != 0;
                expect("the refusal of a timer", refusal_of(3, TUP_TIMER, timer), runs ? TUP_ACCEPTED : TUP_TIMER_NOT_RUNNING);
                running += runs != 0;
            }
    for (uint32_t state = 0; state < 256; state++)
        expect("timers that there are not", tup_timers(state, 255) & ~UINT32_C(0x7E), 0);
    covered("timers run in %lu cases", running);
}

/* All sets of timers that are due, quiet and not. */
static void timers_now(void)
{
    for (uint32_t due = 0; due < 128; due += 2) {
        uint32_t four = due >> 4 & 1, five = due >> 5 & 1;
        now.number = due;
        expect("timers 1 to 3, not quiet", tup_timers_now(due, 0), due & 0x0E);
        expect("timer 4", tup_timers_now(due, 1) >> 4 & 1, four && !five);
        expect("the others", tup_timers_now(due, 1) & ~UINT32_C(0x10), due & ~UINT32_C(0x10));
    }
    expect("no timer", tup_timer_bit(32) | tup_timer_bit(UINT32_MAX), 0);
    for (uint32_t timer = 0; timer < 32; timer++)
        expect("a timer's bit", tup_timer_bit(timer), (uint64_t)1 << timer);
}

/* An IAM that meets our own on a seized circuit is discarded where we control it, and taken where we do not. */
static void control(void)
{
    static const uint32_t codes[] = {0, 1, 2, 3, 8191, 8192, 16382, 16383};
    for (unsigned i = 0; i < 8; i++)
        for (unsigned j = 0; j < 8; j++)
            for (uint32_t circuit = 0; circuit < GROUP && i != j; circuit++) {
                lay_record(circuit, TUP_OUT_SEIZED, 0);
                now.number = circuit;
                uint64_t answer = tup_step(codes[i], codes[j], table, TUP_TABLE_OCTETS(GROUP), circuit, TUP_SIGNAL, TUP_IAM, 0);
                expect("who controls", tup_answer_indication(answer),
                       tup_controls(codes[i], codes[j], circuit) ? TUP_IND_DISCARDED : TUP_IND_INCOMING_CALL_TRY_OWN_ELSEWHERE);
            }
}

/* Every length up to one beyond the longest table. */
static void lengths(void)
{
    memset(table, 0, sizeof table);
    for (size_t len = 0; len <= sizeof table; len++) {
        uint32_t circuits = tup_circuits(len);
        now.number = (uint32_t)len;
        uint32_t last = circuits > 0 ? circuits - 1 : 0;
        uint64_t at_last = tup_step(2, 1, table, len, last, 0, 0, 0), behind = tup_step(2, 1, table, len, circuits, 0, 0, 0);
        expect("the last circuit", tup_answer_refusal(at_last), circuits > 0 ? TUP_NO_SUCH_EVENT : TUP_NO_SUCH_GROUP);
        expect("the one behind", tup_answer_refusal(behind), circuits > 0 ? TUP_NO_SUCH_CIRCUIT : TUP_NO_SUCH_GROUP);
        if (circuits > 0)
            expect("the length", TUP_TABLE_OCTETS(circuits), len);
    }
}

/* Before its restart a circuit can be neither chosen nor seized. */
static void coming_up(void)
{
    pattern(table, sizeof table);
    tup_await_reset(table, TUP_TABLE_OCTETS(GROUP));
    expect("the counter", tup_counter(table), 0);
    expect("the choice", tup_selected_refusal(tup_select(2, 1, table, TUP_TABLE_OCTETS(GROUP))), TUP_NO_CIRCUIT);
    for (uint32_t circuit = 0; circuit < GROUP; circuit++) {
        expect("the state", tup_record_state(table, circuit), TUP_AWAITING_RESET);
        expect("the flags", tup_record_flags(table, circuit), 0);
        expect("the rank", tup_record_rank(table, circuit), 0);
        expect("seizing", refusal_of(circuit, TUP_COMMAND, TUP_SEIZE), TUP_COMMAND_NOT_ALLOWED);
        expect("restarting", refusal_of(circuit, TUP_COMMAND, TUP_RESTART), TUP_ACCEPTED);
        expect("the reset that is answered", refusal_of(circuit, TUP_SIGNAL, TUP_RLG), TUP_ACCEPTED);
        expect("seizing then", refusal_of(circuit, TUP_COMMAND, TUP_SEIZE), TUP_ACCEPTED);
    }
    uint8_t after[16];
    pattern(table, sizeof table);
    memcpy(after, table + TUP_TABLE_OCTETS(GROUP), sizeof after);
    tup_await_reset(table, TUP_TABLE_OCTETS(GROUP));
    expect("the octets behind the table", memcmp(after, table + TUP_TABLE_OCTETS(GROUP), sizeof after) == 0, 1);
}

/* What docs/HOST.md says of codes that have changed places, at a dual seizure on circuit 0, which the end with code 2 controls:
   with them in place that end goes on; exchanged at that end, both give way. A message read with them exchanged is refused 8. */
static void codes_exchanged(void)
{
    static const uint8_t release_guard[] = {0x02, 0x40, 0x00, 0x00, 0x00, 0x17};
    uint8_t fields[TUP_MESSAGE_OCTETS];
    for (uint32_t exchanged = 0; exchanged < 2; exchanged++) {
        lay_record(0, TUP_OUT_SEIZED, 0);
        now.number = exchanged;
        uint32_t own = 2 - exchanged, far = 1 + exchanged;
        uint64_t answer = tup_step(own, far, table, TUP_TABLE_OCTETS(GROUP), 0, TUP_SIGNAL, TUP_IAM, 0);
        expect("the end that controls", tup_answer_state(answer), exchanged ? TUP_IN_SEIZED : TUP_OUT_SEIZED);
        uint64_t read = tup_read(own, far, GROUP, release_guard, sizeof release_guard, fields, sizeof fields);
        expect("a message", tup_read_refusal(read), exchanged ? TUP_WRONG_LABEL : TUP_ACCEPTED);
        expect("its place", tup_read_place(read), 0);
    }
    lay_record(0, TUP_OUT_SEIZED, 0);
    uint64_t other = tup_step(1, 2, table, TUP_TABLE_OCTETS(GROUP), 0, TUP_SIGNAL, TUP_IAM, 0);
    expect("the other end", tup_answer_state(other), TUP_IN_SEIZED);
}

/* With far block every good record stays good, as docs/HOST.md says to a host that wants circuits left out of a choice. */
static void left_out(void)
{
    for (uint32_t state = 0; state <= TUP_AWAITING_RESET; state++)
        for (uint32_t flags = 0; flags < 16; flags++) {
            lay_record(2, state, flags);
            int bad = tup_record_bad(table, 2);
            lay_record(2, state, flags | TUP_FAR_BLOCK);
            expect("bad with far block", !bad && tup_record_bad(table, 2), 0);
        }
}

/* A field as an enum is its number. */
static void enums(void)
{
    for (unsigned i = 0; i < LISTED; i++)
        for (uint32_t state = 0; state <= TUP_AWAITING_RESET; state++) {
            lay_record(1, state, 0);
            uint64_t answer = tup_step(2, 1, table, TUP_TABLE_OCTETS(GROUP), 1, listed[i].kind, listed[i].code, listed[i].detail);
            expect("the refusal", tup_refusal_of_answer(answer), answer & 255);
            expect("the indication", tup_indication_of_answer(answer), answer >> 8 & 255);
            expect("the state", tup_state_of_answer(answer), answer >> 16 & 255);
            expect("the first heading", tup_first_of_answer(answer), answer >> 32 & 255);
            expect("the second heading", tup_second_of_answer(answer), answer >> 40 & 255);
            expect("the state stored", tup_state_of_record(table, 1), answer >> 16 & 255);
        }
}

static void enums_of_messages(void)
{
    uint8_t octets[TUP_MESSAGE_MAX], fields[TUP_MESSAGE_OCTETS];
    static const uint8_t address[] = {1, 2, 3};
    for (unsigned i = 0; i < HEADINGS; i++) {
        int iam = headings[i] == TUP_IAM;
        size_t len = iam ? sizeof address : 0;
        uint32_t written = tup_write(2, 1, GROUP, 4, headings[i], 0, 0, 0, address, len, octets, sizeof octets);
        uint64_t read = tup_read(1, 2, GROUP, octets, tup_written_length(written), fields, sizeof fields);
        uint64_t unread = tup_read(1, 2, 4, octets, tup_written_length(written), fields, sizeof fields);
        expect("writing", tup_refusal_of_written(written), TUP_ACCEPTED);
        expect("reading", tup_refusal_of_read(read), TUP_ACCEPTED);
        expect("reading in a group without the circuit", tup_refusal_of_read(unread), TUP_NO_SUCH_CIRCUIT);
        expect("the heading", tup_heading_of_message(fields), headings[i]);
    }
    uint32_t unwritten = tup_write(2, 1, GROUP, 4, 0, 0, 0, 0, address, 0, octets, sizeof octets);
    expect("a bad heading", tup_refusal_of_written(unwritten), TUP_NO_SUCH_HEADING);
    expect("no octets", tup_refusal_of_read(tup_read(2, 1, GROUP, octets, 0, fields, sizeof fields)), TUP_WRONG_LENGTH);
    unwritten = tup_write(2, 1, GROUP, 4, TUP_IAM, 0, 0, 3, address, sizeof address, octets, sizeof octets);
    expect("a short number", tup_refusal_of_written(unwritten), TUP_SHORT_NUMBER);
    memset(table, 0, sizeof table);
    expect("a choice", tup_refusal_of_selected(tup_select(2, 1, table, TUP_TABLE_OCTETS(GROUP))), TUP_ACCEPTED);
    expect("no choice", tup_refusal_of_selected(tup_select(2, 1, table, 0)), TUP_NO_SUCH_GROUP);
}

/* The two parts of what tup_read answers: every refusal beside places of all sizes, and none takes a bit of the other. */
static void parts_of_a_reading(void)
{
    static const uint64_t places[] = {0, 1, 8, 16, 255, 256, 65535, UINT32_MAX, UINT64_C(1) << 32, (UINT64_C(1) << 56) - 1};
    for (uint32_t refusal = 0; refusal < 256; refusal++)
        for (unsigned i = 0; i < sizeof places / sizeof *places; i++) {
            uint64_t answer = refusal + 256 * places[i];
            now.number = refusal;
            expect("the refusal of a reading", tup_read_refusal(answer), refusal);
            expect("the refusal as an enum", tup_refusal_of_read(answer), refusal);
            expect("the place", tup_read_place(answer), places[i]);
        }
}

/* Of the numbers below 300 and some above, exactly so many have a name, and no two the same. Which, is compared with docs/RULES.md
   elsewhere. */
static void names_of(const char *what, const char *(*name)(uint32_t), unsigned wanted)
{
    const char *found[32];
    unsigned count = 0;
    for (uint32_t number = 0; number < 300; number++) {
        const char *text = name(number);
        if (strcmp(text, "?") == 0)
            continue;
        for (unsigned i = 0; i < count; i++)
            expect(text, strcmp(found[i], text) != 0, 1);
        if (count < 32)
            found[count++] = text;
    }
    expect(what, count, wanted);
    for (unsigned which = 1; which < WIDE; which++)
        expect("a name of a larger number", strcmp(name(widened(1, which)), "?") == 0, 1);
}

static void names(void)
{
    names_of("states with a name", tup_state_name, 13);
    names_of("flags", tup_flag_name, 4);
    names_of("indications", tup_indication_name, 11);
    names_of("refusals", tup_refusal_name, 16);
    names_of("headings", tup_heading_name, HEADINGS);
    names_of("kinds", tup_kind_name, 3);
    names_of("commands", tup_command_name, 10);
    names_of("timers", tup_timer_name, 6);
}

int main(void)
{
    harness_begin("header", describe);
    bad_records();
    timers();
    timers_now();
    control();
    lengths();
    coming_up();
    codes_exchanged();
    left_out();
    enums();
    enums_of_messages();
    parts_of_a_reading();
    names();
    return 0;
}
