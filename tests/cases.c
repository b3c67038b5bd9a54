/* Cases written down by hand, each with the answer that the rules give: those of docs/RULES.md, "Cases" (P1 to P10 and the ones to
   be run by a program), and one for each place where the rules were open and docs/DECISIONS.md says how they were read; then those
   of release ranks and refusal 13, of the choice of a circuit and refusal 14, and of short numbers and refusal 17. They hold the
   archive, and the reference as well, to numbers that neither of them computed. */
#include "harness.h"
#include "reference.h"
#include "tup.h"

#include <stdio.h>
#include <string.h>

static const char *case_now;

static void describe(void)
{
    printf("  case: %s\n", case_now);
}

enum { S = TUP_SIGNAL, C = TUP_COMMAND, T = TUP_TIMER };

/* An event on circuit 0 (own 2, far 1: controlling) or 1 (not), and its answer. */
static const struct step_case {
    const char *name;
    uint32_t cic, state, flags, kind, code, detail;
    uint32_t refusal, new_state, new_flags, indication, first, second;
} step_cases[] = {
    {"P1 IAM in 1, controlling", 0, 1, 0, S, 0x11, 0, 0, 1, 0, 7, 0, 0},
    {"P2 IAM in 1, not controlling", 1, 1, 0, S, 0x11, 0, 0, 6, 0, 9, 0, 0},
    {"P3 CLF in idle", 0, 0, 0, S, 0x46, 0, 0, 0, 0, 0, 0x17, 0},
    {"P4 RLG in 3", 0, 3, 0, S, 0x17, 0, 0, 3, 0, 7, 0, 0},
    {"P5 BLO in 1", 0, 1, 0, S, 0x27, 0, 0, 5, 2, 6, 0x37, 0x46},
    {"P6 RSC in 9 with own block", 0, 9, 1, S, 0x77, 0, 0, 0, 5, 5, 0x27, 0x17},
    {"P7 failing in 8", 0, 8, 0, C, 7, 0x55, 5, 8, 0, 0, 0, 0},
    {"P8 seize with far block in idle", 0, 0, 2, C, 1, 0, 4, 0, 2, 0, 0, 0},
    {"P8 seize with far block in 1", 0, 1, 2, C, 1, 0, 5, 1, 2, 0, 0, 0},
    {"seize with far block in 12", 0, 12, 2, C, 1, 0, 5, 12, 2, 0, 0, 0},
    {"flag 4 without 1", 0, 0, 4, S, 0x46, 0, 12, 0, 4, 0, 0, 0},
    {"flag 8 with 1", 0, 0, 9, S, 0x46, 0, 12, 0, 9, 0, 0, 0},
    {"own block in 12", 0, 12, 1, S, 0x46, 0, 12, 12, 1, 0, 0, 0},
    {"far block in 12", 0, 12, 2, S, 0x46, 0, 0, 0, 2, 5, 0x17, 0},
    {"a flag above 8", 0, 0, 16, S, 0x46, 0, 12, 0, 16, 0, 0, 0},
    {"a bad record is not repaired by restart", 0, 13, 0, C, 10, 0, 12, 13, 0, 0, 0, 0},
    {"a bad record comes before a bad event", 0, 13, 0, C, 99, 0, 12, 13, 0, 0, 0, 0},
    {"a signal's unknown heading is 3, not 9", 0, 0, 0, S, 0x21, 0, 3, 0, 0, 0, 0, 0},
    {"an ACM's octet may be any", 0, 0, 0, S, 0x14, 255, 0, 0, 0, 7, 0, 0},
    {"the ACM's octet changes nothing", 0, 1, 0, S, 0x14, 4, 0, 2, 0, 2, 0, 0},
    {"another signal's detail is 0", 0, 0, 0, S, 0x46, 1, 3, 0, 0, 0, 0, 0},
    {"no such kind", 0, 0, 0, 4, 1, 0, 3, 0, 0, 0, 0, 0},
    {"a listed failure not allowed in 7 is 5", 0, 7, 0, C, 7, 0x65, 5, 7, 0, 0, 0, 0},
    {"no failure at all is 3", 0, 7, 0, C, 7, 0x46, 3, 7, 0, 0, 0, 0},
    {"3 is judged without the state", 0, 0, 0, C, 7, 0x46, 3, 0, 0, 0, 0, 0},
    {"CGC in 7", 0, 7, 0, C, 7, 0x25, 0, 11, 0, 0, 0x25, 0},
    {"any failure in 6", 0, 6, 0, C, 7, 0x95, 0, 11, 0, 0, 0x95, 0},
    {"a timer's number above 6", 0, 0, 0, T, 7, 0, 3, 0, 0, 0, 0, 0},
    {"a timer not for the state", 0, 0, 0, T, 4, 0, 6, 0, 0, 0, 0, 0},
    {"\"n\" does not reach from 5 to 6: CLF, controlling", 0, 6, 0, S, 0x46, 0, 0, 0, 0, 5, 0x17, 0},
    {"CLF in 5, controlling", 0, 5, 0, S, 0x46, 0, 0, 5, 0, 7, 0, 0},
    {"CLF in 5, not controlling", 1, 5, 0, S, 0x46, 0, 0, 0, 0, 5, 0x17, 0},
    {"CLF in 1, controlling", 0, 1, 0, S, 0x46, 0, 0, 1, 0, 7, 0, 0},
    {"CLF in 1, not controlling", 1, 1, 0, S, 0x46, 0, 0, 0, 0, 6, 0x17, 0},
    {"nonsense in 1: ANC, controlling", 0, 1, 0, S, 0x16, 0, 0, 5, 0, 6, 0x46, 0},
    {"nonsense in 1: ANC, not controlling", 1, 1, 0, S, 0x16, 0, 0, 5, 0, 6, 0x46, 0},
    {"nonsense in 1: ANN keeps the far block", 0, 1, 2, S, 0x26, 0, 0, 5, 2, 6, 0x46, 0},
    {"nonsense in 1: CBK keeps own block and what is awaited", 1, 1, 5, S, 0x36, 0, 0, 5, 5, 6, 0x46, 0},
    {"nonsense in 1: RAN keeps all marks", 0, 1, 10, S, 0x56, 0, 0, 5, 10, 6, 0x46, 0},
    {"nonsense in 1: RLG, controlling", 0, 1, 0, S, 0x17, 0, 0, 5, 0, 6, 0x46, 0},
    {"nonsense in 1: RLG, not controlling", 1, 1, 0, S, 0x17, 0, 0, 5, 0, 6, 0x46, 0},
    {"nonsense in 1: its detail is 0", 0, 1, 0, S, 0x16, 1, 3, 1, 0, 0, 0, 0},
    {"RLG in 0 is still discarded", 0, 0, 0, S, 0x17, 0, 0, 0, 0, 7, 0, 0},
    {"RLG in 2 is still discarded", 0, 2, 0, S, 0x17, 0, 0, 2, 0, 7, 0, 0},
    {"RLG in 6 is still discarded", 0, 6, 0, S, 0x17, 0, 0, 6, 0, 7, 0, 0},
    {"ANC in 5 is still discarded", 0, 5, 0, S, 0x16, 0, 0, 5, 0, 7, 0, 0},
    {"CBK in 2 is still discarded", 0, 2, 0, S, 0x36, 0, 0, 2, 0, 7, 0, 0},
    {"BLA in 1, not awaited", 0, 1, 0, S, 0x37, 0, 0, 1, 0, 7, 0, 0},
    {"RSC in 1", 0, 1, 0, S, 0x77, 0, 0, 5, 0, 6, 0x46, 0},
    {"RSC in 3", 0, 3, 0, S, 0x77, 0, 0, 5, 0, 10, 0x46, 0},
    {"RSC in 5 sends BLO and clears flag 2", 0, 5, 7, S, 0x77, 0, 0, 5, 5, 7, 0x27, 0},
    {"RSC in 5 clears flag 2", 0, 5, 2, S, 0x77, 0, 0, 5, 0, 7, 0, 0},
    {"RSC in 12", 0, 12, 2, S, 0x77, 0, 0, 12, 0, 0, 0x17, 0},
    {"RSC in 1 with own block", 0, 1, 5, S, 0x77, 0, 0, 5, 5, 6, 0x27, 0x46},
    {"RSC leaves flag 8", 0, 0, 10, S, 0x77, 0, 0, 0, 8, 0, 0x17, 0},
    {"IAM with own block, BLA awaited already", 0, 0, 5, S, 0x11, 0, 0, 0, 5, 7, 0x27, 0},
    {"IAM in 1 with own block, not controlling", 1, 1, 1, S, 0x11, 0, 0, 6, 1, 9, 0, 0},
    {"IAM in 5 with own block, not controlling", 1, 5, 1, S, 0x11, 0, 0, 6, 1, 1, 0, 0},
    {"IAM with far block", 0, 0, 2, S, 0x11, 0, 0, 6, 2, 1, 0, 0},
    {"IAM while UBA is awaited", 0, 0, 8, S, 0x11, 0, 0, 6, 8, 1, 0, 0},
    {"BLA while UBA is awaited", 0, 0, 8, S, 0x37, 0, 0, 0, 8, 7, 0, 0},
    {"BLA awaited", 0, 3, 5, S, 0x37, 0, 0, 3, 1, 0, 0, 0},
    {"BLA not awaited", 0, 0, 1, S, 0x37, 0, 0, 0, 1, 7, 0, 0},
    {"BLO in 12", 0, 12, 0, S, 0x27, 0, 0, 12, 2, 0, 0x37, 0},
    {"BLO again", 0, 5, 2, S, 0x27, 0, 0, 5, 2, 0, 0x37, 0},
    {"a failure in 3", 0, 3, 0, S, 0x95, 0, 0, 5, 0, 10, 0x46, 0},
    {"a failure in 5", 0, 5, 0, S, 0x55, 0, 0, 5, 0, 7, 0, 0},
    {"seize with own block", 0, 0, 5, C, 1, 0, 0, 1, 5, 0, 0x11, 0},
    {"block while UBA is awaited", 0, 0, 8, C, 8, 0, 0, 0, 5, 0, 0x27, 0},
    {"block keeps the far block", 0, 5, 10, C, 8, 0, 0, 5, 7, 0, 0x27, 0},
    {"block twice", 0, 0, 1, C, 8, 0, 5, 0, 1, 0, 0, 0},
    {"block in 12", 0, 12, 0, C, 8, 0, 5, 12, 0, 0, 0, 0},
    {"unblock while BLA is awaited", 0, 0, 5, C, 9, 0, 0, 0, 8, 0, 0x47, 0},
    {"unblock without a block", 0, 0, 0, C, 9, 0, 5, 0, 0, 0, 0, 0},
    {"restart in 12", 0, 12, 2, C, 10, 0, 0, 12, 0, 0, 0x77, 0},
    {"restart of an answered call with marks", 0, 9, 7, C, 10, 0, 0, 12, 0, 0, 0x77, 0},
    {"address complete, subscriber free", 0, 6, 0, C, 3, 4, 0, 8, 0, 0, 0x14, 0},
    {"address complete, type 3", 0, 6, 0, C, 3, 3, 0, 7, 0, 0, 0x14, 0},
    {"address complete, detail 8", 0, 6, 0, C, 3, 8, 3, 6, 0, 0, 0, 0},
    {"answer without charge", 0, 8, 0, C, 4, 1, 0, 9, 0, 0, 0x26, 0},
    {"timer 1", 0, 1, 0, T, 1, 0, 0, 5, 0, 10, 0x46, 0},
    {"timer 2 in 3", 0, 3, 0, T, 2, 0, 6, 3, 0, 0, 0, 0},
    {"timer 3 fails a call that command 7 may not", 0, 10, 0, T, 3, 0, 0, 11, 0, 0, 0x55, 0},
    {"timer 4 in 11 keeps the flags", 0, 11, 1, T, 4, 0, 0, 11, 1, 0, 0x55, 0},
    {"timer 5 in 5", 0, 5, 3, T, 5, 0, 0, 12, 0, 8, 0x77, 0},
    {"timer 5 in 12 keeps the far block", 0, 12, 2, T, 5, 0, 0, 12, 2, 8, 0x77, 0},
    {"timer 6 awaiting BLA", 0, 3, 5, T, 6, 0, 0, 3, 5, 0, 0x27, 0},
    {"timer 6 awaiting UBA", 0, 3, 10, T, 6, 0, 0, 3, 10, 0, 0x47, 0},
    {"timer 6 awaiting nothing", 0, 0, 1, T, 6, 0, 6, 0, 1, 0, 0, 0},
    {"a timer has no detail", 0, 1, 0, T, 1, 1, 3, 1, 0, 0, 0, 0},
};

#define FULL UINT64_MAX

/* The counter and the circuit's rank before an event and after it. */
struct ranks {
    uint64_t counter, rank, new_counter, new_rank;
};

static const struct rank_case {
    struct step_case step;
    struct ranks ranks;
} rank_cases[] = {
    {{"the first freed gets 1", 0, 6, 0, S, 0x46, 0, 0, 0, 0, 5, 0x17, 0}, {0, 0, 1, 1}},
    {{"freed again: the old rank is lost", 0, 6, 0, S, 0x46, 0, 0, 0, 0, 5, 0x17, 0}, {41, 7, 42, 42}},
    {{"freed by RLG, the marks stay", 0, 5, 7, S, 0x17, 0, 0, 0, 7, 5, 0, 0}, {1, 1, 2, 2}},
    {{"freed by RSC, with own block", 0, 9, 3, S, 0x77, 0, 0, 0, 5, 5, 0x27, 0x17}, {9, 4, 10, 10}},
    {{"freed from a seizure that yields", 1, 1, 0, S, 0x46, 0, 0, 0, 0, 6, 0x17, 0}, {9, 4, 10, 10}},
    {{"a carry into the second octet", 0, 11, 0, S, 0x46, 0, 0, 0, 0, 5, 0x17, 0}, {255, 0, 256, 256}},
    {{"a carry beyond 32 bits", 0, 12, 0, S, 0x17, 0, 0, 0, 0, 5, 0, 0}, {0xFFFFFFFF, 1, 0x100000000, 0x100000000}},
    {{"a lent rank above the counter", 0, 6, 0, S, 0x46, 0, 0, 0, 0, 5, 0x17, 0}, {0, FULL, 1, 1}},
    {{"it stays while nothing is freed", 0, 0, 0, C, 1, 0, 0, 1, 0, 0, 0x11, 0}, {3, FULL, 3, FULL}},
    {{"the last rank there is", 0, 6, 0, S, 0x46, 0, 0, 0, 0, 5, 0x17, 0}, {FULL - 1, 0, FULL, FULL}},
    {{"from idle to idle by CLF", 0, 0, 0, S, 0x46, 0, 0, 0, 0, 0, 0x17, 0}, {3, 2, 3, 2}},
    {{"from idle to idle by RSC", 0, 0, 3, S, 0x77, 0, 0, 0, 5, 0, 0x27, 0x17}, {3, 2, 3, 2}},
    {{"from idle to idle by IAM with own block", 0, 0, 1, S, 0x11, 0, 0, 0, 5, 7, 0x27, 0}, {3, 2, 3, 2}},
    {{"from idle to idle by a block", 0, 0, 0, C, 8, 0, 0, 0, 5, 0, 0x27, 0}, {3, 2, 3, 2}},
    {{"CLF discarded in 5, controlling", 0, 5, 0, S, 0x46, 0, 0, 5, 0, 7, 0, 0}, {3, 2, 3, 2}},
    {{"RSC in 12 stays there", 0, 12, 0, S, 0x77, 0, 0, 12, 0, 0, 0x17, 0}, {3, 2, 3, 2}},
    {{"a restart keeps the rank", 0, 9, 7, C, 10, 0, 0, 12, 0, 0, 0x77, 0}, {3, 2, 3, 2}},
    {{"full: CLF in 6", 0, 6, 0, S, 0x46, 0, 13, 6, 0, 0, 0, 0}, {FULL, 5, FULL, 5}},
    {{"full: RSC in 9 sets no mark and sends no BLO", 0, 9, 3, S, 0x77, 0, 13, 9, 3, 0, 0, 0}, {FULL, FULL, FULL, FULL}},
    {{"full: RLG in 5", 0, 5, 0, S, 0x17, 0, 13, 5, 0, 0, 0, 0}, {FULL, 0, FULL, 0}},
    {{"full: RLG in 12 with far block", 0, 12, 2, S, 0x17, 0, 13, 12, 2, 0, 0, 0}, {FULL, 0, FULL, 0}},
    {{"full: RLG in 1 frees nothing", 0, 1, 0, S, 0x17, 0, 0, 5, 0, 6, 0x46, 0}, {FULL, 3, FULL, 3}},
    {{"full: CLF in 1, not controlling", 1, 1, 0, S, 0x46, 0, 13, 1, 0, 0, 0, 0}, {FULL, 0, FULL, 0}},
    {{"full: CLF in 5, not controlling", 1, 5, 1, S, 0x46, 0, 13, 5, 1, 0, 0, 0}, {FULL, 0, FULL, 0}},
    {{"full: CLF in 1, controlling, frees nothing", 0, 1, 0, S, 0x46, 0, 0, 1, 0, 7, 0, 0}, {FULL, 0, FULL, 0}},
    {{"full: CLF in idle frees nothing", 0, 0, 0, S, 0x46, 0, 0, 0, 0, 0, 0x17, 0}, {FULL, 0, FULL, 0}},
    {{"full: RSC in idle frees nothing", 0, 0, 1, S, 0x77, 0, 0, 0, 5, 0, 0x27, 0x17}, {FULL, 0, FULL, 0}},
    {{"full: an incoming call is taken", 0, 0, 0, S, 0x11, 0, 0, 6, 0, 1, 0, 0}, {FULL, 8, FULL, 8}},
    {{"full: a release sends CLF", 0, 3, 0, C, 2, 0, 0, 5, 0, 0, 0x46, 0}, {FULL, 8, FULL, 8}},
    {{"full: a restart is taken", 0, 9, 0, C, 10, 0, 0, 12, 0, 0, 0x77, 0}, {FULL, 8, FULL, 8}},
    {{"12 comes before 13: flags", 0, 6, 4, S, 0x46, 0, 12, 6, 4, 0, 0, 0}, {FULL, 0, FULL, 0}},
    {{"12 comes before 13: state", 0, 13, 0, S, 0x46, 0, 12, 13, 0, 0, 0, 0}, {FULL, 0, FULL, 0}},
    {{"3 comes before 13: detail", 0, 6, 0, S, 0x46, 1, 3, 6, 0, 0, 0, 0}, {FULL, 0, FULL, 0}},
    {{"3 comes before 13: kind", 0, 6, 0, 4, 0x46, 0, 3, 6, 0, 0, 0, 0}, {FULL, 0, FULL, 0}},
    {{"full: a command not allowed is 5", 0, 6, 0, C, 2, 0, 5, 6, 0, 0, 0, 0}, {FULL, 0, FULL, 0}},
    {{"full: seize in another state is 5", 0, 9, 0, C, 1, 0, 5, 9, 0, 0, 0, 0}, {FULL, 0, FULL, 0}},
    {{"full: seize with far block is 4", 0, 0, 2, C, 1, 0, 4, 0, 2, 0, 0, 0}, {FULL, 0, FULL, 0}},
    {{"full: a timer not for the state is 6", 0, 6, 0, T, 4, 0, 6, 6, 0, 0, 0, 0}, {FULL, 0, FULL, 0}},
};

typedef uint64_t (*stepper)(uint32_t, uint32_t, uint8_t *, size_t, uint32_t, uint32_t, uint32_t, uint32_t);
typedef uint64_t (*selector)(uint32_t, uint32_t, const uint8_t *, size_t);
typedef uint64_t (*reader)(uint32_t, uint32_t, uint32_t, const uint8_t *, size_t, uint8_t *, size_t);
typedef uint32_t (*writer)(uint32_t, uint32_t, uint32_t, uint32_t, uint32_t, uint32_t, uint32_t, uint32_t, const uint8_t *, size_t,
                           uint8_t *, size_t);

static void expect(const char *what, uint64_t got, uint64_t want)
{
    if (got != want)
        differ("%s is %llu and should be %llu", what, (unsigned long long)got, (unsigned long long)want);
}

static void lay_out(uint8_t table[TUP_TABLE_OCTETS(2)], uint32_t cic, uint32_t state, uint32_t flags, uint64_t counter,
                    uint64_t rank)
{
    memset(table, 99, TUP_TABLE_OCTETS(2)); /* the other record is a bad one, which must not matter */
    put_eight(table, counter);
    put_record(table, cic, state, flags, rank);
}

static void run_step_case(stepper step, const struct step_case *c, const struct ranks *ranks)
{
    uint8_t table[TUP_TABLE_OCTETS(2)], after[TUP_TABLE_OCTETS(2)];
    case_now = c->name;
    lay_out(table, c->cic, c->state, c->flags, ranks->counter, ranks->rank);
    lay_out(after, c->cic, c->new_state, c->new_flags, ranks->new_counter, ranks->new_rank);
    uint64_t answer = step(2, 1, table, sizeof table, c->cic, c->kind, c->code, c->detail);
    expect("the refusal", tup_answer_refusal(answer), c->refusal);
    expect("the state", tup_answer_state(answer), c->new_state);
    expect("the flags", tup_answer_flags(answer), c->new_flags);
    expect("the indication", tup_answer_indication(answer), c->indication);
    expect("the first heading", tup_answer_first(answer), c->first);
    expect("the second heading", tup_answer_second(answer), c->second);
    expect("the rest of the answer", answer >> 48, 0);
    expect("the state stored", tup_record_state(table, c->cic), c->new_state);
    expect("the flags stored", tup_record_flags(table, c->cic), c->new_flags);
    expect("the rank stored", tup_record_rank(table, c->cic), ranks->new_rank);
    expect("the counter", tup_counter(table), ranks->new_counter);
    for (size_t i = 0; i < sizeof table; i++)
        expect("an octet of the table", table[i], after[i]);
}

/* A case that says nothing of ranks: they change where it goes from another state to idle. */
static void run_plain_case(stepper step, const struct step_case *c)
{
    struct ranks ranks = {0x1122334455667788, 7, 0x1122334455667788, 7};
    if (c->refusal == 0 && c->state != 0 && c->new_state == 0)
        ranks.new_counter = ranks.new_rank = ranks.counter + 1;
    run_step_case(step, c, &ranks);
}

/* Where counter and ranks lie: octets counted out here, and not by the header's names. */
static void run_layout_case(stepper step)
{
    uint8_t table[28] = {0xFF, 0x01, 0, 0, 0, 0, 0, 0x80, 0, 0, 0, 0, 0, 0, 0, 0, 0, 0, 6, 2, 1, 2, 3, 4, 5, 6, 7, 8};
    static const uint8_t after[28] = {0, 2, 0, 0, 0, 0, 0, 0x80, 0, 0, 0, 0, 0, 0, 0, 0, 0, 0, 0, 2, 0, 2, 0, 0, 0, 0, 0, 0x80};
    case_now = "the layout of a table of two";
    expect("the rank before", tup_record_rank(table, 1), 0x0807060504030201);
    expect("the counter before", tup_counter(table), 0x80000000000001FF);
    expect("the refusal", tup_answer_refusal(step(2, 1, table, 28, 1, S, 0x46, 0)), 0);
    for (size_t i = 0; i < sizeof table; i++)
        expect("an octet of the table", table[i], after[i]);
    expect("the rank after", tup_record_rank(table, 1), 0x8000000000000200);
    expect("the other's rank", tup_record_rank(table, 0), 0);
}

/* The group and the circuit. The lengths are counted out: eight octets and ten to a circuit. */
static const struct group_case {
    const char *name;
    uint32_t own, far;
    size_t len;
    uint32_t cic, refusal;
} group_cases[] = {
    {"all is wrong at once", 5, 5, 0, 9, 1},
    {"65537 is not 1", 65537, 2, 28, 0, 1},
    {"point code 16383", 16383, 1, 28, 0, 0},
    {"own code 16384", 16384, 1, 28, 0, 1},
    {"far code 16384", 1, 16384, 28, 0, 1},
    {"no octets", 2, 1, 0, 0, 1},
    {"a part of the counter", 2, 1, 7, 0, 1},
    {"the counter and no records", 2, 1, 8, 0, 1},
    {"the counter and a part of a record", 2, 1, 17, 0, 1},
    {"a record without a counter", 2, 1, 10, 0, 1},
    {"one record", 2, 1, 18, 0, 0},
    {"a record and a part of one", 2, 1, 19, 0, 1},
    {"two records without a counter", 2, 1, 20, 0, 1},
    {"4096 records but for an octet", 2, 1, 40967, 4095, 1},
    {"4096 records, the last", 2, 1, 40968, 4095, 0},
    {"4096 records, beyond the last", 2, 1, 40968, 4096, 2},
    {"4096 records and an octet", 2, 1, 40969, 0, 1},
    {"4097 records", 2, 1, 40978, 0, 1},
    {"one record, CIC 1", 2, 1, 18, 1, 2},
    {"a circuit beyond 16 bits", 2, 1, 28, 65536, 2},
};

/* CLF in a group all idle; refused, a table of octets 255 as well, whose counter is full and whose records are bad. */
static void run_group_case(stepper step, const struct group_case *c)
{
    static uint8_t table[TUP_TABLE_OCTETS(TUP_CIRCUITS_MAX + 1)];
    case_now = c->name;
    for (int filled = 0; filled <= (c->refusal ? 255 : 0); filled += 255) {
        memset(table, filled, sizeof table);
        uint64_t answer = step(c->own, c->far, table, c->len, c->cic, S, 0x46, 0);
        expect("the answer", answer, c->refusal ? c->refusal : (uint64_t)0x17 << 32);
        for (size_t i = 0; i < sizeof table; i++)
            expect("an octet of the table", table[i], (uint64_t)filled);
    }
}

static void run_roles(stepper step)
{
    uint8_t table[TUP_TABLE_OCTETS(2)];
    case_now = "P9 codes 2 and 1: the first controls circuit 0, not 1";
    for (uint32_t end = 0; end < 2; end++)
        for (uint32_t cic = 0; cic < 2; cic++) {
            memset(table, 0, sizeof table);
            table[TUP_RECORD_AT(cic) + TUP_RECORD_STATE] = 1;
            uint64_t answer = step(2 - end, 1 + end, table, sizeof table, cic, S, 0x11, 0);
            expect("the state after a crossing IAM", tup_answer_state(answer), end == cic ? 1 : 6);
        }
}

/* A table of up to four circuits, and the choice in it. With own 2 circuits 0 and 2 are ours to control, with own 1 circuits 1
   and 3. The numbered six go through the request sentence by sentence. */
static const struct select_case {
    const char *name;
    uint32_t own, far, circuits;
    struct { uint8_t state, flags; uint64_t rank; } records[4];
    uint32_t refusal, circuit, looked;
} select_cases[] = {
    {"1: all idle, never freed", 2, 1, 4, {{0, 0, 0}}, 0, 0, 1},
    {"2: one of ours never freed behind one that was", 2, 1, 4, {{0, 0, 7}, {0, 0, 0}, {0, 0, 0}}, 0, 2, 3},
    {"3: none of ours: the latest of theirs", 2, 1, 4, {{1, 0, 0}, {0, 0, 5}, {9, 0, 0}, {0, 0, 9}}, 0, 3, 4},
    {"4: none of ours: theirs never freed do not stop it", 2, 1, 4, {{1, 0, 0}, {0, 0, 0}, {9, 0, 0}}, 0, 1, 4},
    {"5: a bad record behind the stop", 2, 1, 4, {{0, 0, 0}, {0, 0, 0}, {0, 0, 0}, {13, 0, 0}}, 12, 0, 0},
    {"6: all blocked by the far end", 2, 1, 4, {{0, 2, 0}, {0, 2, 1}, {0, 3, 2}, {0, 10, 3}}, 14, 0, 0},
    {"all idle, never freed, from the other end", 1, 2, 4, {{0, 0, 0}}, 0, 1, 2},
    {"ours though theirs was freed earlier", 2, 1, 4, {{0, 0, 9}, {0, 0, 1}, {0, 0, 8}, {0, 0, 0}}, 0, 2, 4},
    {"ours freed longest ago, from the other end", 1, 2, 4, {{0, 0, 1}, {0, 0, 9}, {0, 0, 0}, {0, 0, 8}}, 0, 3, 4},
    {"equal ranks of ours", 2, 1, 4, {{0, 0, 5}, {0, 0, 5}, {0, 0, 5}, {0, 0, 5}}, 0, 0, 4},
    {"equal ranks of theirs", 2, 1, 4, {{5, 0, 5}, {0, 0, 5}, {12, 0, 5}, {0, 0, 5}}, 0, 1, 4},
    {"theirs freed latest comes first", 1, 2, 4, {{0, 0, 6}, {1, 0, 0}, {0, 0, 5}, {1, 0, 0}}, 0, 0, 4},
    {"theirs never freed behind one that was", 1, 2, 4, {{0, 0, 1}, {1, 0, 0}, {0, 0, 0}, {1, 0, 0}}, 0, 0, 4},
    {"the first of ours never freed, not the last", 1, 2, 4, {{0, 0, 0}, {0, 0, 3}, {0, 0, 0}, {0, 0, 0}}, 0, 3, 4},
    {"one circuit, ours", 2, 1, 1, {{0, 0, 0}}, 0, 0, 1},
    {"one circuit, ours, freed once", 2, 1, 1, {{0, 0, 1}}, 0, 0, 1},
    {"one circuit, theirs", 1, 2, 1, {{0, 0, 0}}, 0, 0, 1},
    {"our own block does not bar it", 2, 1, 2, {{0, 1, 0}, {0, 0, 0}}, 0, 0, 1},
    {"nor does a block or an unblocking not yet acknowledged", 2, 1, 4, {{0, 5, 4}, {1, 0, 0}, {0, 8, 3}}, 0, 2, 4},
    {"a far block does, beside our own", 2, 1, 4, {{0, 3, 0}, {0, 7, 0}, {0, 10, 0}, {0, 1, 0}}, 0, 3, 4},
    {"a far-blocked circuit never freed does not stop it", 2, 1, 4, {{0, 2, 0}, {1, 0, 0}, {0, 0, 9}, {0, 0, 0}}, 0, 2, 4},
    {"a busy circuit never freed does not stop it", 2, 1, 4, {{1, 0, 0}, {1, 0, 0}, {0, 0, 9}, {0, 0, 0}}, 0, 2, 4},
    {"every other state bars it", 2, 1, 4, {{1, 0, 0}, {5, 0, 0}, {11, 0, 0}, {12, 0, 0}}, 14, 0, 0},
    {"awaiting reset with far block is no bad record", 2, 1, 2, {{12, 2, 0}, {12, 0, 0}}, 14, 0, 0},
    {"12 comes before 14: state", 2, 1, 2, {{1, 0, 0}, {13, 0, 0}}, 12, 0, 0},
    {"12 comes before 14: flags", 2, 1, 2, {{0, 2, 0}, {0, 6, 0}}, 12, 0, 0},
    {"a bad record that is in no way idle", 2, 1, 2, {{0, 0, 0}, {255, 0, 0}}, 12, 0, 0},
    {"a bad record of flags alone", 2, 1, 2, {{0, 0, 0}, {0, 16, 0}}, 12, 0, 0},
    {"own block in 12", 2, 1, 2, {{0, 0, 0}, {12, 1, 0}}, 12, 0, 0},
    {"the largest rank is the latest of theirs", 1, 2, 4, {{0, 0, FULL / 2}, {6, 0, 0}, {0, 0, FULL}, {6, 0, 0}}, 0, 2, 4},
    {"the largest rank is the last of ours", 2, 1, 4, {{0, 0, FULL}, {6, 0, 0}, {0, 0, FULL / 2 + 1}, {6, 0, 0}}, 0, 2, 4},
    {"the largest rank, where it is alone", 2, 1, 4, {{0, 0, FULL}, {0, 0, 0}, {6, 0, 0}, {0, 0, 0}}, 0, 0, 4},
};

static void run_select_case(selector select, const struct select_case *c)
{
    uint8_t table[TUP_TABLE_OCTETS(4)], kept[sizeof table];
    case_now = c->name;
    for (int full = 0; full < 2; full++) { /* the counter is not looked at */
        put_eight(table, full ? FULL : 0);
        for (uint32_t cic = 0; cic < 4; cic++)
            put_record(table, cic, c->records[cic].state, c->records[cic].flags, c->records[cic].rank);
        memcpy(kept, table, sizeof table);
        uint64_t answer = select(c->own, c->far, table, TUP_TABLE_OCTETS(c->circuits));
        expect("the refusal", tup_selected_refusal(answer), c->refusal);
        expect("the circuit", tup_selected_circuit(answer), c->circuit);
        expect("the count", tup_selected_looked(answer), c->looked);
        expect("the answer", answer, c->refusal + 0x10000 * (uint64_t)c->circuit + 0x100000000 * (uint64_t)c->looked);
        for (size_t i = 0; i < sizeof table; i++)
            expect("an octet of the table", table[i], kept[i]);
    }
}

/* Where states, flags and ranks lie, counted out: of circuits 0 and 2, both ours, the latter has the lower rank. */
static void run_select_layout(selector select)
{
    static const uint8_t table[38] = {0, 0, 0, 0, 0, 0, 0, 0, 0, 0, 1, 0, 0, 0, 0, 0, 0, 2, 3, 0,
                                      0, 0, 0, 0, 0, 0, 0, 0, 0, 1, 2, 0, 0, 0, 0, 0, 0, 1};
    case_now = "the layout of a table of three";
    expect("the answer", select(2, 1, table, 38), 0x0000000300020000);
}

/* The group: a table of zeros is all idle, and in one of octets 255 every record is bad. */
static void run_select_group(selector select, const struct group_case *c)
{
    static uint8_t table[TUP_TABLE_OCTETS(TUP_CIRCUITS_MAX + 1)];
    case_now = c->name;
    memset(table, 0, sizeof table);
    expect("the answer", select(c->own, c->far, table, c->len), c->refusal == 1 ? 1 : 0x0000000100000000);
    memset(table, 255, sizeof table);
    expect("the answer for bad records", select(c->own, c->far, table, c->len), c->refusal == 1 ? 1 : 12);
}

/* Messages read at own 1, far 2. `text` is hexadecimal; then the refusal and its place, or the fields where it is taken. */
static const struct read_case {
    const char *name, *text;
    uint32_t count;
    size_t out_len;
    uint32_t refusal, place;
    uint8_t fields[TUP_MESSAGE_OCTETS];
} read_cases[] = {
    {"P10 read", "018000300046", 4, 23, 0, 0, {3, 0, 0x46}},
    {"beyond the group", "018000300046", 3, 23, 2, 3, {0}},
    {"far beyond the group: CIC 4095", "018000f0ff46", 4, 23, 2, 3, {0}},
    {"a wrong length comes before 2", "01800030004600", 3, 23, 7, 7, {0}},
    {"no octets", "", 4, 23, 7, 0, {0}},
    {"one octet", "01", 4, 23, 7, 1, {0}},
    {"five octets come before the label", "0280003000", 4, 23, 7, 5, {0}},
    {"wrong DPC", "028000300046", 4, 23, 8, 0, {0}},
    {"wrong DPC in its upper six bits", "018100300046", 4, 23, 8, 0, {0}},
    {"wrong DPC in its highest bit", "01a000300046", 4, 23, 8, 0, {0}},
    {"wrong OPC", "014000300046", 4, 23, 8, 1, {0}},
    {"wrong OPC in its middle bits", "018001300046", 4, 23, 8, 1, {0}},
    {"wrong OPC in its highest bit", "018000380046", 4, 23, 8, 1, {0}},
    {"wrong DPC and wrong OPC", "024000300046", 4, 23, 8, 0, {0}},
    {"both wrong, DPC in its upper six bits", "014100300046", 4, 23, 8, 0, {0}},
    {"a wrong label comes before the heading", "014000300021", 4, 23, 8, 1, {0}},
    {"an unknown heading", "018000300021", 4, 23, 9, 5, {0}},
    {"an unknown heading comes before the length", "01800030002100", 4, 23, 9, 5, {0}},
    {"CLF of 18 octets", "018000300046000000000000000000000000", 4, 23, 7, 18, {0}},
    {"ACM without its octet", "018000300014", 4, 23, 7, 6, {0}},
    {"ACM with an octet more", "0180003000140000", 4, 23, 7, 8, {0}},
    {"ACM with all bits set", "018000300014ff", 4, 23, 0, 0, {3, 0, 0x14, 63}},
    {"IAM of six octets", "018000300011", 4, 23, 7, 6, {0}},
    {"IAM of eight octets", "0180003000110a03", 4, 23, 7, 8, {0}},
    {"IAM with no signals", "0180003000110a0300", 4, 23, 10, 8, {0}},
    {"no signals come before the length", "0180003000110a03001122", 4, 23, 10, 8, {0}},
    {"no signals, whatever the spare bit and the indicators", "0180003000110aff0f", 4, 23, 10, 8, {0}},
    {"IAM too short for its count", "0180003000110a0310", 4, 23, 7, 9, {0}},
    {"IAM too long for its count", "0180003000110a03100102", 4, 23, 7, 11, {0}},
    {"a wrong length comes before a spare code", "0180003000110a0330aa", 4, 23, 7, 10, {0}},
    {"a spare code comes before 2", "0180003000110a03100a", 3, 23, 10, 9, {0}},
    {"one signal, spare bits and filler set", "018000300011ca0218f1", 4, 23, 0, 0, {3, 0, 0x11, 0, 10, 2, 0, 1, 1}},
    {"a spare code as filler", "0180003000110a0210a1", 4, 23, 0, 0, {3, 0, 0x11, 0, 10, 2, 0, 1, 1}},
    {"ST alone", "0180003000110a02100f", 4, 23, 0, 0, {3, 0, 0x11, 0, 10, 2, 0, 1, 15}},
    {"ST before the end", "0180003000110a03201f", 4, 23, 10, 9, {0}},
    {"ST before the end, its follower in the next octet", "0180003000110a0330f102", 4, 23, 10, 9, {0}},
    {"ST before the end, in the second octet", "0180003000110a0340213f", 4, 23, 10, 10, {0}},
    {"ST before ST", "0180003000110a0320ff", 4, 23, 10, 9, {0}},
    {"ST behind which filler alone stands", "0180003000110a0230213f", 4, 23, 0, 0, {3, 0, 0x11, 0, 10, 2, 0, 3, 1, 2, 15}},
    {"ST at the end", "0180003000110a0220f1", 4, 23, 0, 0, {3, 0, 0x11, 0, 10, 2, 0, 2, 1, 15}},
    {"two bad signals: the first one's octet", "0180003000110a0340a12d", 4, 23, 10, 9, {0}},
    {"two bad signals in one octet, behind a good one", "0180003000110a034021da", 4, 23, 10, 10, {0}},
    {"an early ST, then a spare code", "0180003000110a0340f1e2", 4, 23, 10, 9, {0}},
    {"a spare code, then an early ST", "0180003000110a0360d1f243", 4, 23, 10, 9, {0}},
    {"15 signals", "0180003000110a03f0214365870921436f", 4, 23, 0, 0,
     {3, 0, 0x11, 0, 10, 3, 0, 15, 1, 2, 3, 4, 5, 6, 7, 8, 9, 0, 1, 2, 3, 4, 15}},
    {"a spare code as the 15th signal", "0180003000110a03f0214365870921430a", 4, 23, 10, 16, {0}},
    {"a spare code as the 14th signal", "0180003000110a03f0214365870921d301", 4, 23, 10, 15, {0}},
    {"a spare code behind the 15th signal", "0180003000110a03f021436587092143e1", 4, 23, 0, 0,
     {3, 0, 0x11, 0, 10, 3, 0, 15, 1, 2, 3, 4, 5, 6, 7, 8, 9, 0, 1, 2, 3, 4, 1}},
    {"ST as the 14th of 15 signals", "0180003000110a03f0214365870921f301", 4, 23, 10, 15, {0}},
    {"15 signals and an octet more", "0180003000110a03f0214365870921436f00", 4, 23, 7, 18, {0}},
    {"15 signals and an octet less", "0180003000110a03f021436587092143", 4, 23, 7, 16, {0}},
    {"output too short", "018000300046", 4, 22, 11, 0, {0}},
    {"no output, and beyond the group", "018000300046", 3, 0, 2, 3, {0}},
    {"no output, and a spare code", "0180003000110a0340213e", 4, 0, 10, 10, {0}},
    {"a short number comes before 2", "0180003000110a03302103", 3, 23, 17, 8, {0}},
    {"a short number on CIC 4095", "018000f0ff110a03302103", 4, 23, 17, 8, {0}},
    {"a short number comes before 11", "0180003000110a03302103", 4, 22, 17, 8, {0}},
    {"a short number comes before 2 and 11", "0180003000110a03302103", 3, 0, 17, 8, {0}},
    {"an operator beyond the group", "0180003000110a03100b", 3, 23, 2, 3, {0}},
    {"an operator into no output", "0180003000110a03100b", 4, 0, 11, 0, {0}},
    {"a short number with all spare bits and the filler set", "018000300011ca033821f3", 4, 23, 17, 8, {0}},
    {"a fourth signal in the filler's place", "0180003000110a03302143", 4, 23, 17, 8, {0}},
    {"a wrong length comes before a short number", "0180003000110a033021", 4, 23, 7, 10, {0}},
    {"a wrong label comes before a short number", "0140003000110a03302103", 4, 23, 8, 1, {0}},
    {"an early ST comes before a short number", "0180003000110a0320ff", 4, 23, 10, 9, {0}},
    {"a spare third signal comes before a short number", "0180003000110a0330210e", 4, 23, 10, 10, {0}},
};

static void run_read_case(reader read, const struct read_case *c)
{
    uint8_t octets[TUP_MESSAGE_MAX + 1], out[TUP_MESSAGE_OCTETS + 1], kept[TUP_MESSAGE_OCTETS + 1];
    case_now = c->name;
    pattern(out, sizeof out);
    pattern(kept, sizeof kept);
    size_t len = octets_in(c->text, octets);
    uint64_t answer = read(1, 2, c->count, octets, len, out, c->out_len);
    expect("the refusal", tup_read_refusal(answer), c->refusal);
    expect("the place", tup_read_place(answer), c->place);
    expect("the answer", answer, c->refusal + 256 * (uint64_t)c->place);
    if (c->refusal == 0)
        memcpy(kept, c->fields, TUP_MESSAGE_OCTETS);
    for (size_t i = 0; i < sizeof out; i++)
        expect("an octet of the output", out[i], kept[i]);
}

/* Refusal 1 is about the group, and names no octet: not even of a message in which everything is wrong. */
static void run_read_groups(reader read)
{
    static const uint32_t groups[][3] = {{1, 1, 4}, {16384, 2, 4}, {1, 16384, 4}, {65537, 2, 4}, {1, 2, 0}, {1, 2, 4097}};
    static const char *const texts[] = {"", "018000300046", "018000300021", "0180003000110a03100a", "0180003000110a03302103"};
    uint8_t octets[TUP_MESSAGE_MAX + 1], out[TUP_MESSAGE_OCTETS];
    case_now = "a message read in no group";
    for (size_t i = 0; i < sizeof groups / sizeof *groups; i++)
        for (size_t k = 0; k < sizeof texts / sizeof *texts; k++) {
            size_t len = octets_in(texts[k], octets);
            expect("the answer", read(groups[i][0], groups[i][1], groups[i][2], octets, len, out, sizeof out), 1);
        }
}

/* Messages written in own 2, far 1. */
static const struct write_case {
    const char *name;
    uint32_t count, cic, heading, acm, category, indicators;
    size_t address_len;
    uint8_t address[16];
    size_t out_len;
    uint32_t refusal;
    const char *text;
} write_cases[] = {
    {"P10 written", 4, 3, 0x46, 0, 0, 0, 0, {0}, 6, 0, "018000300046"},
    {"a circuit beyond the group is written", 1, 3, 0x46, 0, 0, 0, 0, {0}, 6, 0, "018000300046"},
    {"no circuits", 0, 3, 0x46, 0, 0, 0, 0, {0}, 6, 1, ""},
    {"CIC 4096 comes before the heading", 4, 4096, 0, 0, 0, 0, 0, {0}, 6, 2, ""},
    {"an unknown heading comes before the fields", 4, 3, 0x21, 64, 0, 0, 0, {0}, 6, 9, ""},
    {"heading 256 + CLF", 4, 3, 0x146, 0, 0, 0, 0, {0}, 6, 9, ""},
    {"ACM 63", 4, 3, 0x14, 63, 0, 0, 0, {0}, 7, 0, "0180003000143f"},
    {"ACM 64", 4, 3, 0x14, 64, 0, 0, 0, {0}, 7, 3, ""},
    {"CLF with an ACM's octet", 4, 3, 0x46, 1, 0, 0, 0, {0}, 6, 3, ""},
    {"CLF with an address", 4, 3, 0x46, 0, 0, 0, 1, {1}, 6, 3, ""},
    {"category 64", 4, 3, 0x11, 0, 64, 3, 1, {1}, 17, 3, ""},
    {"indicators 2048", 4, 3, 0x11, 0, 10, 2048, 1, {1}, 17, 3, ""},
    {"indicators beyond 16 bits", 4, 3, 0x11, 0, 10, 65536 + 3, 1, {1}, 17, 3, ""},
    {"3 comes before 10", 4, 3, 0x11, 0, 10, 2048, 1, {10}, 17, 3, ""},
    {"a spare code", 4, 3, 0x11, 0, 10, 3, 1, {10}, 17, 10, ""},
    {"no signals", 4, 3, 0x11, 0, 10, 3, 0, {0}, 17, 10, ""},
    {"16 signals", 4, 3, 0x11, 0, 10, 3, 16, {1, 1, 1, 1, 1, 1, 1, 1, 1, 1, 1, 1, 1, 1, 1, 1}, 17, 10, ""},
    {"16 signals, the last above 15", 4, 3, 0x11, 0, 10, 3, 16, {1, 1, 1, 1, 1, 1, 1, 1, 1, 1, 1, 1, 1, 1, 1, 16}, 17, 3, ""},
    {"ST before the end", 4, 3, 0x11, 0, 10, 3, 2, {15, 1}, 17, 10, ""},
    {"ST alone", 4, 3, 0x11, 0, 10, 2, 1, {15}, 10, 0, "0180003000110a02100f"},
    {"one signal into nine octets", 4, 3, 0x11, 0, 10, 2, 1, {1}, 9, 11, ""},
    {"15 signals", 4, 3, 0x11, 0, 10, 3, 15, {1, 2, 3, 4, 5, 6, 7, 8, 9, 0, 1, 2, 3, 4, 15}, 17, 0,
     "0180003000110a03f0214365870921430f"},
    {"a short number comes before 11", 4, 3, 0x11, 0, 10, 3, 3, {1, 2, 3}, 10, 17, ""},
    {"a short number into no octets", 4, 3, 0x11, 0, 10, 3, 3, {1, 2, 3}, 0, 17, ""},
    {"four signals into ten octets", 4, 3, 0x11, 0, 10, 3, 4, {1, 2, 3, 4}, 10, 11, ""},
    {"an operator into nine octets", 4, 3, 0x11, 0, 10, 3, 1, {11}, 9, 11, ""},
    {"a short number beyond the group", 1, 3, 0x11, 0, 10, 3, 3, {1, 2, 3}, 17, 17, ""},
    {"3 comes before a short number: the spare indicator", 4, 3, 0x11, 0, 10, 2051, 3, {1, 2, 3}, 17, 3, ""},
    {"3 comes before a short number: category 64", 4, 3, 0x11, 0, 64, 3, 3, {1, 2, 3}, 17, 3, ""},
    {"3 comes before a short number: a code above 15", 4, 3, 0x11, 0, 10, 3, 3, {1, 2, 16}, 17, 3, ""},
    {"9 comes before a short number", 4, 3, 0x21, 0, 10, 3, 3, {1, 2, 3}, 17, 9, ""},
    {"2 comes before a short number", 4, 4096, 0x11, 0, 10, 3, 3, {1, 2, 3}, 17, 2, ""},
    {"1 comes before a short number", 0, 3, 0x11, 0, 10, 3, 3, {1, 2, 3}, 17, 1, ""},
    {"10 comes before a short number: an early ST", 4, 3, 0x11, 0, 10, 3, 2, {15, 1}, 17, 10, ""},
    {"CLF with nature of address 3", 4, 3, 0x46, 0, 0, 3, 0, {0}, 17, 3, ""},
};

static void run_write_case(writer write, const struct write_case *c)
{
    uint8_t out[TUP_MESSAGE_MAX + 1], kept[TUP_MESSAGE_MAX + 1];
    case_now = c->name;
    pattern(out, sizeof out);
    pattern(kept, sizeof kept);
    size_t len = octets_in(c->text, kept);
    uint32_t answer = write(2, 1, c->count, c->cic, c->heading, c->acm, c->category, c->indicators, c->address, c->address_len, out,
                            c->out_len);
    expect("the refusal", tup_written_refusal(answer), c->refusal);
    expect("the length", tup_written_length(answer), len);
    expect("the rest of the answer", answer >> 16, 0);
    for (size_t i = 0; i < sizeof out; i++)
        expect("an octet of the output", out[i], kept[i]);
}

/* IAMs with few signals, by indicators and address, and the octets that they are on the link, or would be if they were not refused;
   the refusal and its place. Each is read as above, and written. */
static const struct number_case {
    const char *name;
    uint32_t indicators;
    size_t address_len;
    uint8_t address[TUP_ADDRESS_MAX];
    const char *text;
    uint32_t refusal, place;
} number_cases[] = {
    {"three digits", 3, 3, {1, 2, 3}, "0180003000110a03302103", 17, 8},
    {"three digits and ST, which does not count", 3, 4, {1, 2, 3, 15}, "0180003000110a034021f3", 17, 8},
    {"four digits", 3, 4, {1, 2, 3, 4}, "0180003000110a03402143", 0, 0},
    {"four digits and ST", 3, 5, {1, 2, 3, 4, 15}, "0180003000110a035021430f", 0, 0},
    {"four digits 0", 3, 4, {0, 0, 0, 0}, "0180003000110a03400000", 0, 0},
    {"one digit", 3, 1, {1}, "0180003000110a031001", 17, 8},
    {"two digits", 3, 2, {1, 2}, "0180003000110a032021", 17, 8},
    {"ST alone", 3, 1, {15}, "0180003000110a03100f", 17, 8},
    {"operator code 11 alone", 3, 1, {11}, "0180003000110a03100b", 0, 0},
    {"operator code 11 and ST", 3, 2, {11, 15}, "0180003000110a0320fb", 0, 0},
    {"operator code 12 alone", 3, 1, {12}, "0180003000110a03100c", 0, 0},
    {"operator code 12 and ST", 3, 2, {12, 15}, "0180003000110a0320fc", 0, 0},
    {"operator code 12 and a digit", 3, 2, {12, 1}, "0180003000110a03201c", 0, 0},
    {"operator code 11 second of three", 3, 3, {1, 11, 2}, "0180003000110a0330b102", 17, 8},
    {"operator code 11 second of two", 3, 2, {1, 11}, "0180003000110a0320b1", 17, 8},
    {"operator code 12 last of three, before ST", 3, 4, {1, 2, 12, 15}, "0180003000110a034021fc", 17, 8},
    {"operator code 11 counts as one of four", 3, 4, {1, 11, 2, 3}, "0180003000110a0340b132", 0, 0},
    {"a spare code comes before a short number", 3, 2, {1, 10}, "0180003000110a0320a1", 10, 9},
    {"a spare code behind operator code 11", 3, 2, {11, 13}, "0180003000110a0320db", 10, 9},
    {"nature 2, one digit", 2, 1, {1}, "0180003000110a021001", 0, 0},
    {"nature 2, ST alone", 2, 1, {15}, "0180003000110a02100f", 0, 0},
    {"nature 1, one digit", 1, 1, {1}, "0180003000110a011001", 0, 0},
    {"nature 0, one digit", 0, 1, {1}, "0180003000110a001001", 0, 0},
    {"indicators 4 are nature 0", 4, 3, {1, 2, 3}, "0180003000110a04302103", 0, 0},
    {"indicators 6 are nature 2", 6, 3, {1, 2, 3}, "0180003000110a06302103", 0, 0},
    {"indicators 7 are nature 3", 7, 3, {1, 2, 3}, "0180003000110a07302103", 17, 8},
    {"indicators 11 are nature 3", 11, 3, {1, 2, 3}, "0180003000110a0b302103", 17, 8},
    {"indicators 12 are nature 0", 12, 3, {1, 2, 3}, "0180003000110a0c302103", 0, 0},
    {"indicators 259 are nature 3", 259, 3, {1, 2, 3}, "0180003000110a03312103", 17, 8},
    {"indicators 768 are nature 0", 768, 3, {1, 2, 3}, "0180003000110a00332103", 0, 0},
    {"indicators 2046 are nature 2", 2046, 3, {1, 2, 3}, "0180003000110afe372103", 0, 0},
    {"indicators 2047 are nature 3", 2047, 3, {1, 2, 3}, "0180003000110aff372103", 17, 8},
    {"indicators 2047, four digits", 2047, 4, {1, 2, 3, 4}, "0180003000110aff472143", 0, 0},
    {"indicators 2047, operator code 12", 2047, 1, {12}, "0180003000110aff170c", 0, 0},
};

static void run_number_case(reader read, writer write, const struct number_case *c)
{
    struct read_case arrived = {c->name, c->text, 4, TUP_MESSAGE_OCTETS, c->refusal, c->place, {3, 0, 0x11, 0, 10}};
    struct write_case sent = {c->name, 4, 3, 0x11, 0, 10, c->indicators, c->address_len, {0}, TUP_MESSAGE_MAX, c->refusal, ""};
    arrived.fields[5] = (uint8_t)c->indicators, arrived.fields[6] = (uint8_t)(c->indicators >> 8);
    arrived.fields[7] = (uint8_t)c->address_len;
    memcpy(arrived.fields + 8, c->address, c->address_len);
    memcpy(sent.address, c->address, c->address_len);
    if (c->refusal == 0)
        sent.text = c->text;
    run_read_case(read, &arrived);
    run_write_case(write, &sent);
}

static void run_all(stepper step, selector select, reader read, writer write)
{
    for (size_t i = 0; i < sizeof step_cases / sizeof *step_cases; i++)
        run_plain_case(step, step_cases + i);
    for (size_t i = 0; i < sizeof rank_cases / sizeof *rank_cases; i++)
        run_step_case(step, &rank_cases[i].step, &rank_cases[i].ranks);
    run_layout_case(step);
    for (size_t i = 0; i < sizeof group_cases / sizeof *group_cases; i++)
        run_group_case(step, group_cases + i);
    run_roles(step);
    for (size_t i = 0; i < sizeof select_cases / sizeof *select_cases; i++)
        run_select_case(select, select_cases + i);
    run_select_layout(select);
    for (size_t i = 0; i < sizeof group_cases / sizeof *group_cases; i++)
        run_select_group(select, group_cases + i);
    for (size_t i = 0; i < sizeof read_cases / sizeof *read_cases; i++)
        run_read_case(read, read_cases + i);
    run_read_groups(read);
    for (size_t i = 0; i < sizeof write_cases / sizeof *write_cases; i++)
        run_write_case(write, write_cases + i);
    for (size_t i = 0; i < sizeof number_cases / sizeof *number_cases; i++)
        run_number_case(read, write, number_cases + i);
}

int main(void)
{
    harness_begin("cases (the reference)", describe);
    run_all(ref_step, ref_select, ref_read, ref_write);
    harness_begin("cases", describe);
    run_all(tup_step, tup_select, tup_read, tup_write);
    covered("%zu events, %zu with ranks, %zu groups, %zu choices, %zu messages read, %zu written and %zu both",
            sizeof step_cases / sizeof *step_cases, sizeof rank_cases / sizeof *rank_cases,
            sizeof group_cases / sizeof *group_cases, sizeof select_cases / sizeof *select_cases,
            sizeof read_cases / sizeof *read_cases, sizeof write_cases / sizeof *write_cases,
            sizeof number_cases / sizeof *number_cases);
    return 0;
}
