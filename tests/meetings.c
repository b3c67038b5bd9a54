/* Two ends that both choose by tup_select, over eight circuits and a link on which a signal takes its time: where do they meet on
   one circuit? Each makes calls of its own, which last some rounds. While each end has a circuit of its own that qualifies they
   may never meet; and where both see the same circuits of one end free, in one order of rank, only on the last of those. */
#include "harness.h"
#include "tup.h"

#include <stdio.h>

enum { GROUP = 8, WAY = 64 };

/* End 0 has code 2 and so controls the even circuits, end 1 has code 1 and the odd ones. */
static struct end {
    uint8_t table[TUP_TABLE_OCTETS(GROUP)];
    struct { uint32_t cic, heading; } way[WAY]; /* what this end has sent and is on its way */
    unsigned first, count;
    unsigned left[GROUP]; /* rounds until this end releases the call that it made there */
} ends[2];

static struct {
    unsigned long rounds, calls, theirs, none, both, each_has_own, met, last_one, lowest_met, yielded;
} seen;

/* How long calls last at most and how seldom one is made, in rounds, and how many signals arrive in a round at most. */
static struct { unsigned longest, seldom, pace; } load;

static void describe(void)
{
    for (unsigned end = 0; end < 2; end++)
        for (uint32_t cic = 0; cic < GROUP; cic++)
            printf("  round %lu, end %u, circuit %u: state %u flags %u rank %llu\n", seen.rounds, end, cic,
                   tup_record_state(ends[end].table, cic), tup_record_flags(ends[end].table, cic),
                   (unsigned long long)tup_record_rank(ends[end].table, cic));
}

static void event(unsigned end, uint32_t cic, uint32_t kind, uint32_t code)
{
    struct end *at = &ends[end];
    uint64_t answer = tup_step(2 - end, 1 + end, at->table, sizeof at->table, cic, kind, code, 0);
    if (tup_answer_refusal(answer) != 0)
        differ("at end %u kind %u code %u on circuit %u is refused %u", end, kind, code, cic, tup_answer_refusal(answer));
    seen.yielded += tup_answer_indication(answer) == TUP_IND_INCOMING_CALL_TRY_OWN_ELSEWHERE;
    if (tup_answer_first(answer) == 0)
        return;
    if (at->count == WAY || tup_answer_second(answer) != 0)
        differ("end %u sends too much", end);
    unsigned last = (at->first + at->count++) % WAY;
    at->way[last].cic = cic, at->way[last].heading = tup_answer_first(answer);
}

static void arrive(unsigned end)
{
    struct end *from = &ends[1 - end];
    unsigned at = from->first;
    if (from->count == 0)
        return;
    from->first = (at + 1) % WAY, from->count--;
    event(end, from->way[at].cic, TUP_SIGNAL, from->way[at].heading);
}

static void release_due(unsigned end)
{
    for (uint32_t cic = 0; cic < GROUP; cic++)
        if (tup_record_state(ends[end].table, cic) == TUP_OUT_SEIZED && ends[end].left[cic]-- == 0)
            event(end, cic, TUP_COMMAND, TUP_RELEASE);
}

/* The circuit that this end would take; GROUP for none. */
static uint32_t choose(unsigned end)
{
    uint64_t choice = tup_select(2 - end, 1 + end, ends[end].table, sizeof ends[end].table);
    if (tup_selected_refusal(choice) != 0 && choice != TUP_NO_CIRCUIT)
        differ("at end %u the choice is refused %u", end, tup_selected_refusal(choice));
    return choice == TUP_NO_CIRCUIT ? GROUP : tup_selected_circuit(choice);
}

/* Nobody blocks here, so what is idle qualifies. */
static int is_free(unsigned end, uint32_t cic)
{
    return tup_record_state(ends[end].table, cic) == TUP_IDLE;
}

/* How many of the circuits that `owner` controls are free at this end. */
static unsigned free_of(unsigned end, unsigned owner)
{
    unsigned count = 0;
    for (uint32_t cic = owner; cic < GROUP; cic += 2)
        count += is_free(end, cic) ? 1 : 0;
    return count;
}

static uint32_t lowest_free(unsigned end)
{
    uint32_t cic = 0;
    while (cic < GROUP && !is_free(end, cic))
        cic++;
    return cic;
}

/* Below, equal or above, as -1, 0 or 1. */
static int order(unsigned end, uint32_t one, uint32_t other)
{
    uint64_t rank = tup_record_rank(ends[end].table, one), others = tup_record_rank(ends[end].table, other);
    return rank < others ? -1 : rank > others;
}

/* Whether the same circuits of `owner` are free at both ends, and their ranks, all different, stand in the same order. */
static int in_one_order(unsigned owner)
{
    for (uint32_t one = owner; one < GROUP; one += 2) {
        if (is_free(0, one) != is_free(1, one))
            return 0;
        for (uint32_t other = owner; other < one; other += 2)
            if (is_free(0, one) && is_free(0, other) && (order(0, one, other) == 0 || order(0, one, other) != order(1, one, other)))
                return 0;
    }
    return 1;
}

/* Both ends have chosen before either has heard of the other's choice. */
static void both_chose(const uint32_t *chosen)
{
    unsigned each_has_own = free_of(0, 0) > 0 && free_of(1, 1) > 0, owner = chosen[0] % 2;
    seen.both++;
    seen.each_has_own += each_has_own;
    seen.lowest_met += lowest_free(0) == lowest_free(1);
    if (chosen[0] != chosen[1])
        return;
    seen.met++;
    seen.last_one += free_of(owner, owner) == 1;
    if (each_has_own)
        differ("both ends choose circuit %u, and each has one of its own", chosen[0]);
    if (free_of(owner, owner) > 1 && in_one_order(owner))
        differ("both ends choose circuit %u, and others of that end are free", chosen[0]);
}

static void one_round(void)
{
    uint32_t chosen[2] = {GROUP, GROUP};
    for (unsigned end = 0; end < 2; end++)
        release_due(end);
    for (unsigned i = draw(load.pace); i > 0; i--)
        arrive(draw(2));
    for (unsigned end = 0; end < 2; end++)
        if (chance(load.seldom)) {
            chosen[end] = choose(end);
            seen.none += chosen[end] == GROUP;
        }
    if (chosen[0] < GROUP && chosen[1] < GROUP)
        both_chose(chosen);
    for (unsigned end = 0; end < 2; end++)
        if (chosen[end] < GROUP) {
            event(end, chosen[end], TUP_COMMAND, TUP_SEIZE);
            ends[end].left[chosen[end]] = draw(load.longest);
            seen.calls++;
            seen.theirs += chosen[end] % 2 != end;
        }
}

int main(void)
{
    unsigned long rounds = long_run() ? 50000000 : 500000;
    harness_begin("meetings", describe);
    for (; seen.rounds < rounds; seen.rounds++) {
        if (seen.rounds % 500 == 0)
            load.longest = 1 + draw(30), load.seldom = 1 + draw(8), load.pace = 2 + draw(30);
        one_round();
    }
    covered("%lu calls in %lu rounds, %lu on a circuit of the other end; no circuit was free %lu times; %lu dual seizures",
            seen.calls, seen.rounds, seen.theirs, seen.none, seen.yielded);
    covered("both chose at once %lu times, and %lu times the same circuit, %lu of them the last one free", seen.both, seen.met,
            seen.last_one);
    covered("each had one of its own %lu times, and they never met then; by the lowest free number %lu choices would have met",
            seen.each_has_own, seen.lowest_met);
    if (seen.each_has_own == 0 || seen.theirs == 0 || seen.none == 0 || seen.met == 0 || seen.yielded == 0)
        differ("something never happened");
    return 0;
}
