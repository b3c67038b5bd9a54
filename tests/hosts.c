/* Two hosts made of examples/exchange.c over a link on which a signal takes its time, driven at random: calls to any number,
   blocks, resets by maintenance, hosts that go down at any moment and come up again, a link that fails and loses what is on it,
   memory that is overwritten, and waits through the 60th second. By the rules of docs/HOST.md the ends agree at every quiet moment,
   and where no signal was lost no nonsense arrives before address complete. Then each rule is broken in turn, and a fixed seed
   shows that the ends come to disagree without it. `hosts search` looks for such seeds, where a change has made others of them. */
#include "../examples/exchange.h"
#include "harness.h"

#include <stdio.h>
#include <string.h>

enum { WAY = 256, STATES = 13 };

/* With nothing restarted after a failure: the seconds after which calls that were torn have ended by their timers. */
enum { SETTLED = 200 };

/* What a run does other than docs/HOST.md says, if anything; how long a signal takes to cross at most, in seconds; and, where a
   rule is broken, the seed that shows it. */
enum broken {
    NOTHING_BROKEN,
    TIMERS_WAIT_NOT,      /* 4, 5 and 6 run out when they are due */
    MINUTE_BESIDE_REPEAT, /* 4 and 5, due in the same second, both run out */
    RESET_WAITS_NOT,      /* command 10 by maintenance while signals are on their way */
    START_WAITS_NOT,      /* command 10 as soon as the host is up */
    START_RESTARTS_NOT,   /* a host that comes up with zeros, and gives no command 10 */
    START_WITH_STORED,    /* .. with the table that it had */
    LOSS_RESTARTS_NOT,    /* the link is back, and nobody restarts anything */
    LOSS_RESTARTS_SOME,   /* one end restarts what is not idle with no flags there */
    SEIZED_UNWRITTEN      /* a circuit is seized for an IAM that is then found to be refused */
};
static const struct run {
    enum broken broken;
    const char *what;
    unsigned slowest;
    uint64_t seed;
} runs[] = {
    {NOTHING_BROKEN, "all rules kept, a quick link", 3, 0},
    {NOTHING_BROKEN, "all rules kept, a slow link", 9, 0},
    {TIMERS_WAIT_NOT, "timers that do not wait for a quiet circuit", 9, 2537},
    {MINUTE_BESIDE_REPEAT, "timer 5 beside timer 4", 9, 2067},
    {RESET_WAITS_NOT, "a reset that does not wait for a quiet circuit", 9, 2922},
    {START_WAITS_NOT, "a host that comes up and does not wait", 9, 604},
    {START_RESTARTS_NOT, "a host that comes up and does not restart its circuits", 9, 617},
    {START_WITH_STORED, "a host that comes up with a stored table", 9, 2851},
    {LOSS_RESTARTS_NOT, "a link that failed, and no restart", 9, 2762},
    {LOSS_RESTARTS_SOME, "a link that failed, and a restart of what is not idle", 9, 96},
    {SEIZED_UNWRITTEN, "a circuit seized for a short number", 9, 776},
};
static const struct run *run;

struct message {
    uint8_t octets[TUP_MESSAGE_MAX];
    size_t len;
    uint32_t circuit;
    unsigned arrives;
};

/* way[i] carries what end i sent, in order. */
static struct way {
    struct message at[WAY];
    unsigned first, count, latest;
} way[2];
static struct exchange ends[2];
static unsigned down[2];   /* seconds until the host comes up again */
static unsigned failed;    /* seconds until the link is back */
static unsigned to_settle; /* with no restart after a failure: seconds until the ends should agree */
static unsigned on_way[CIRCUITS];
static uint32_t state_before[2][CIRCUITS];
static int trusted[CIRCUITS]; /* no signal was lost on the circuit since it was last restarted */
static int disagreed, both_due;
static unsigned load; /* how much the hosts want, busy at one time and calm at another */

static struct {
    unsigned long seconds, events, quiet, apart[STATES][STATES], marks[2][2], lost, starts, failures, resets, waited, minutes, both,
        overwritten, in_seized, short_numbers;
} seen;

static void describe(void)
{
    printf("  %s, second %lu\n", run->what, seen.seconds);
    for (unsigned end = 0; end < 2; end++)
        for (uint32_t circuit = 0; circuit < CIRCUITS; circuit++)
            printf("  end %u, circuit %u: state %u flags %u%s\n", end, circuit, tup_record_state(ends[end].table, circuit),
                   tup_record_flags(ends[end].table, circuit), trusted[circuit] ? "" : ", something was lost");
}

static unsigned end_of(const struct exchange *x)
{
    return (unsigned)(x - ends);
}

/* The link. */

static void lose(uint32_t circuit)
{
    trusted[circuit] = 0;
    seen.lost++;
}

static void send(struct exchange *x, uint32_t circuit, const uint8_t *octets, size_t len)
{
    struct way *to = &way[end_of(x)];
    if (len == 0)
        differ("end %u sends a message of no octets", end_of(x));
    if (failed > 0) {
        lose(circuit);
        return;
    }
    if (to->count == WAY)
        differ("the link is full");
    struct message *message = &to->at[(to->first + to->count++) % WAY];
    unsigned arrives = x->seconds + 1 + draw(run->slowest);
    if (arrives > to->latest)
        to->latest = arrives;
    message->circuit = circuit, message->len = len, message->arrives = to->latest;
    memcpy(message->octets, octets, len);
    on_way[circuit]++;
}

static struct message take(unsigned end)
{
    struct way *from = &way[1 - end];
    struct message message = from->at[from->first];
    from->first = (from->first + 1) % WAY;
    from->count--;
    on_way[message.circuit]--;
    return message;
}

static void link_fails(void)
{
    failed = 1 + draw(100);
    seen.failures++;
    for (unsigned end = 0; end < 2; end++)
        while (way[1 - end].count > 0)
            lose(take(end).circuit);
}

/* Demand 3, at a moment when nothing is on its way on the circuit. */

static int awaits(uint32_t state)
{
    return state == TUP_AWAITING_RELEASE_GUARD || state == TUP_AWAITING_RESET;
}

static void look(uint32_t circuit)
{
    uint32_t state[2], own[2], far[2];
    for (unsigned end = 0; end < 2; end++) {
        uint32_t flags = tup_record_flags(ends[end].table, circuit);
        state[end] = tup_record_state(ends[end].table, circuit);
        own[end] = (flags & TUP_OWN_BLOCK) != 0, far[end] = (flags & TUP_FAR_BLOCK) != 0;
        if (down[end] > 0 || ends[end].shut[circuit] || tup_record_bad(ends[end].table, circuit))
            return; /* the host is not there, or has yet to begin anew on this circuit */
    }
    if (!trusted[circuit] || on_way[circuit] > 0 || awaits(state[0]) || awaits(state[1]))
        return;
    if (!stages_agree(state[0], state[1]))
        disagreed = 1;
    if (far[0] != own[1] || far[1] != own[0])
        disagreed = 1;
    seen.quiet++;
    seen.apart[state[0]][state[1]]++;
    seen.marks[own[0]][own[1]]++;
}

/* From a restart on, be it by timer 5, nothing that was lost before matters. */
static void tell(struct exchange *x, uint32_t circuit, uint32_t kind, uint32_t code, uint64_t answer)
{
    uint32_t before = state_before[end_of(x)][circuit];
    int minute = kind == TUP_TIMER && code == TUP_TIMER_MINUTE && before != TUP_AWAITING_RESET;
    seen.events++;
    if (kind == TUP_SIGNAL && trusted[circuit] && run->broken == NOTHING_BROKEN) {
        seen.in_seized += before == TUP_OUT_SEIZED;
        if (is_nonsense(before, code))
            differ("by the rules, and heading %02x arrives on circuit %u before address complete", code, circuit);
    }
    if (tup_answer_refusal(answer) != TUP_ACCEPTED)
        return;
    if (kind == TUP_TIMER && code == TUP_TIMER_MINUTE)
        seen.minutes++, seen.both += both_due != 0;
    if (minute || (kind == TUP_COMMAND && code == TUP_RESTART))
        trusted[circuit] = 1;
    state_before[end_of(x)][circuit] = tup_answer_state(answer);
}

/* What one end writes the other can read, and nothing else is on this link. */
static void refuse(struct exchange *x, const uint8_t *octets, size_t len, uint64_t answer)
{
    (void)octets;
    differ("end %u refuses a message of %zu octets: %llx", end_of(x), len, (unsigned long long)answer);
}

/* The rule on timers, and two that are none. */

static uint32_t by_the_rule(uint32_t due, int quiet)
{
    uint32_t both = tup_timer_bit(TUP_TIMER_REPEAT) | tup_timer_bit(TUP_TIMER_MINUTE);
    both_due = (due & both) == both;
    return tup_timers_now(due, quiet);
}

static uint32_t at_once(uint32_t due, int quiet)
{
    (void)quiet;
    return tup_timers_now(due, 1);
}

/* All that is due at a quiet moment runs out, though the first of them has ended the quiet. */
static uint32_t all_that_was_due(uint32_t due, int quiet)
{
    static uint32_t at_quiet;
    uint32_t minute = tup_timer_bit(TUP_TIMER_MINUTE);
    if (quiet) {
        at_quiet = due;
        return due;
    }
    return tup_timers_now(due, 0) | (due & at_quiet & minute);
}

/* What happens to a host. */

static void goes_down(unsigned end)
{
    down[end] = 1 + draw(chance(2) ? 3 : 90); /* back while its signals are still on their way, or when the far end has moved on */
    for (uint32_t circuit = 0; circuit < CIRCUITS; circuit++)
        trusted[circuit] = 0;
}

static void comes_up(struct exchange *x)
{
    uint8_t stored[sizeof x->table];
    memcpy(stored, x->table, sizeof stored);
    seen.starts++;
    exchange_start(x);
    for (uint32_t circuit = 0; circuit < CIRCUITS; circuit++) {
        state_before[end_of(x)][circuit] = TUP_AWAITING_RESET;
        if (run->broken == START_WAITS_NOT)
            x->last_signal[circuit] = x->seconds - x->round_trip - 1, exchange_restart(x, circuit);
        if (run->broken == START_RESTARTS_NOT || run->broken == START_WITH_STORED)
            x->shut[circuit] = 0, x->wheel[x->slot[circuit][RESTART_WAIT]][circuit] = 0, trusted[circuit] = 1;
    }
    if (run->broken == START_RESTARTS_NOT)
        memset(x->table, 0, sizeof x->table);
    if (run->broken == START_WITH_STORED)
        memcpy(x->table, stored, sizeof stored);
}

/* Memory is overwritten: a record becomes a bad one, or the counter is at its largest. */
static void overwritten(struct exchange *x, uint32_t circuit)
{
    seen.overwritten++;
    if (chance(2)) {
        memset(x->table, 255, TUP_COUNTER_OCTETS);
        return;
    }
    x->table[TUP_RECORD_AT(circuit) + TUP_RECORD_STATE] = (uint8_t)(STATES + draw(256 - STATES));
    trusted[circuit] = 0;
}

/* In the second in which the link is back nothing is on its way yet, so there is no need to wait; but waiting does no harm. */
static void restart_all(struct exchange *x)
{
    if (chance(2)) {
        exchange_link_back(x);
        return;
    }
    for (uint32_t circuit = 0; circuit < CIRCUITS; circuit++)
        if (!x->shut[circuit])
            exchange_command(x, circuit, TUP_RESTART, 0);
}

static void link_is_back(void)
{
    if (run->broken == LOSS_RESTARTS_NOT) {
        to_settle = SETTLED;
        return;
    }
    struct exchange *x = &ends[draw(2)];
    if (down[end_of(x)] > 0)
        return; /* it restarts everything when it comes up */
    if (run->broken != LOSS_RESTARTS_SOME) {
        restart_all(x);
        return;
    }
    for (uint32_t circuit = 0; circuit < CIRCUITS; circuit++)
        if (tup_record_state(x->table, circuit) != TUP_IDLE || tup_record_flags(x->table, circuit) != 0)
            exchange_restart(x, circuit);
        else
            to_settle = SETTLED;
}

static void reset(struct exchange *x, uint32_t circuit)
{
    seen.resets++;
    seen.waited += !exchange_quiet(x, circuit);
    if (run->broken == RESET_WAITS_NOT)
        exchange_command(x, circuit, TUP_RESTART, 0);
    else
        exchange_restart(x, circuit);
}

/* Drawn one after the other, so that a seed gives the same calls with every compiler. */
static struct call draw_call(void)
{
    struct call call;
    call.category = draw(64);
    call.indicators = draw(2048);
    call.address_len = 1 + draw(TUP_ADDRESS_MAX);
    draw_address(call.address, call.address_len);
    return call;
}

/* A call to any number, a short one too. That is refused before anything happens to the circuit, and no other number is. Without a
   number there is no seizure at all. */
static void seize(struct exchange *x, uint32_t circuit)
{
    struct call call = draw_call();
    uint8_t before[sizeof x->table];
    unsigned waiting = on_way[circuit];
    memcpy(before, x->table, sizeof before);
    int is_short = call.indicators % 4 == 3 && address_short(call.address, call.address_len);
    uint32_t refusal = exchange_seize(x, circuit, &call);
    if ((refusal == TUP_SHORT_NUMBER) != is_short)
        differ("end %u seizes circuit %u for a number that is %sshort: %u", end_of(x), circuit, is_short ? "" : "not ", refusal);
    if (!is_short)
        return;
    seen.short_numbers++;
    if (memcmp(x->table, before, sizeof before) != 0 || on_way[circuit] != waiting)
        differ("a short number has changed something on circuit %u", circuit);
    if (exchange_command(x, circuit, TUP_SEIZE, 0) != TUP_NO_SUCH_EVENT)
        differ("circuit %u can be seized with no IAM for it", circuit);
    if (run->broken == SEIZED_UNWRITTEN)
        tup_step(x->own, x->far, x->table, sizeof x->table, circuit, TUP_COMMAND, TUP_SEIZE, 0);
}

static void command(struct exchange *x, uint32_t circuit)
{
    static const uint8_t often[] = {TUP_SEIZE, TUP_SEIZE, TUP_RELEASE, TUP_ADDRESS_COMPLETE, TUP_ADDRESS_COMPLETE, TUP_ANSWER,
                                    TUP_ANSWER, TUP_CLEAR_BACK, TUP_RE_ANSWER, TUP_FAIL};
    uint32_t command = often[draw(sizeof often)], detail = draw_detail(command);
    if (chance(12))
        exchange_block(x, circuit, (int)draw(2));
    else if (command == TUP_SEIZE)
        seize(x, circuit);
    else
        exchange_command(x, circuit, command, detail);
}

/* One second at one end: its timers, what arrives, and its host's wishes. */
static void one_end(unsigned end)
{
    struct exchange *x = &ends[end];
    if (down[end] > 0) {
        x->seconds++;
        if (--down[end] == 0)
            comes_up(x);
    } else
        exchange_tick(x);
    while (way[1 - end].count > 0 && way[1 - end].at[way[1 - end].first].arrives <= x->seconds) {
        struct message message = take(end);
        if (down[end] > 0 || !exchange_receive(x, message.octets, message.len))
            lose(message.circuit);
        look(message.circuit);
    }
    for (unsigned wishes = draw(load); wishes > 0 && down[end] == 0; wishes--)
        command(x, draw(CIRCUITS));
    if (chance(100) && down[end] == 0)
        reset(x, draw(CIRCUITS));
    if (run->broken == NOTHING_BROKEN && chance(1000) && down[end] == 0)
        overwritten(x, draw(CIRCUITS));
    if (chance(1000) && down[end] == 0)
        goes_down(end);
}

static void one_second(void)
{
    unsigned first = draw(2);
    seen.seconds++;
    if (chance(100))
        load = 1 + draw(8);
    one_end(first);
    one_end(1 - first);
    if (failed > 0 && --failed == 0)
        link_is_back();
    else if (failed == 0 && chance(1500))
        link_fails();
    if (to_settle > 0 && --to_settle == 0)
        for (uint32_t circuit = 0; circuit < CIRCUITS && failed == 0; circuit++)
            trusted[circuit] = 1;
    for (uint32_t circuit = 0; circuit < CIRCUITS; circuit++)
        look(circuit);
}

static void begin(const struct run *of, uint64_t seed)
{
    run = of;
    draw_from(seed);
    memset(&seen, 0, sizeof seen);
    memset(way, 0, sizeof way);
    memset(down, 0, sizeof down);
    memset(on_way, 0, sizeof on_way);
    memset(trusted, 0, sizeof trusted);
    failed = to_settle = 0, disagreed = 0, load = 3;
    for (unsigned end = 0; end < 2; end++) {
        struct exchange *x = &ends[end];
        memset(x, 0, sizeof *x);
        x->own = 2 - end, x->far = 1 + end;
        x->round_trip = 2 * run->slowest;
        x->seconds = 1000;
        x->send = send, x->tell = tell, x->refuse = refuse;
        x->may_run_out = run->broken == TIMERS_WAIT_NOT ? at_once
                         : run->broken == MINUTE_BESIDE_REPEAT ? all_that_was_due
                                                               : by_the_rule;
        exchange_start(x);
        for (uint32_t circuit = 0; circuit < CIRCUITS; circuit++)
            state_before[end][circuit] = TUP_AWAITING_RESET;
    }
}

static void expect_seen(unsigned long count, const char *what)
{
    if (count == 0)
        differ("never seen: %s", what);
}

/* A run that never saw a call, a loss or the 60th second would show nothing. */
static void expect_all_seen(void)
{
    for (unsigned i = 0; i < STAGES; i++) {
        expect_seen(seen.apart[stages[i][0]][stages[i][1]], "a stage of a call");
        expect_seen(seen.apart[stages[i][1]][stages[i][0]], "a stage of a call the other way");
    }
    for (unsigned i = 0; i < 4; i++)
        expect_seen(seen.marks[i / 2][i % 2], "blocks at the ends");
    expect_seen(seen.lost, "signals lost");
    expect_seen(seen.starts, "a host that comes up");
    expect_seen(seen.overwritten, "memory overwritten");
    expect_seen(seen.in_seized, "a signal before address complete");
    expect_seen(seen.waited, "a reset that waits");
    expect_seen(seen.both, "timers 4 and 5 due in one second");
    expect_seen(seen.short_numbers, "a short number");
}

static void kept(const struct run *of, unsigned long seconds)
{
    begin(of, seed_given());
    while (seen.seconds < seconds) {
        one_second();
        if (disagreed)
            differ("by the rules, and the ends disagree");
    }
    expect_all_seen();
    covered("%s: %lu seconds, %lu events, agreed at %lu quiet moments; %lu signals lost, the link failed %lu times, a host came up "
            "%lu times", run->what, seen.seconds, seen.events, seen.quiet, seen.lost, seen.failures, seen.starts);
    covered("  %lu resets, of which %lu waited; timer 5 ran out %lu times, with timer 4 due beside it %lu times; memory "
            "was overwritten %lu times; %lu calls were to a short number", seen.resets, seen.waited, seen.minutes, seen.both,
            seen.overwritten, seen.short_numbers);
}

static int shown(const struct run *of, uint64_t seed, unsigned long seconds)
{
    begin(of, seed);
    while (!disagreed && seen.seconds < seconds)
        one_second();
    return disagreed;
}

enum { SHOWN_WITHIN = 20000, SEEDS = 3000 };

static void broken(const struct run *of)
{
    if (!shown(of, of->seed, SHOWN_WITHIN))
        differ("a rule is broken, and yet the ends agree: look for another seed");
    covered("%s: the ends disagree after %lu seconds (seed %llu)", run->what, seen.seconds, (unsigned long long)of->seed);
}

static void search(const struct run *of)
{
    unsigned long soonest = SHOWN_WITHIN, times = 0;
    uint64_t best = 0;
    for (uint64_t seed = 1; seed <= SEEDS; seed++)
        if (shown(of, seed, soonest))
            soonest = seen.seconds, best = seed, times++;
    covered("%s: seed %llu, after %lu seconds%s", of->what, (unsigned long long)best, soonest, times > 0 ? "" : ": none");
}

int main(int count, char **arguments)
{
    int searching = count > 1 && strcmp(arguments[1], "search") == 0;
    harness_begin("hosts", describe);
    for (const struct run *of = runs; of < runs + sizeof runs / sizeof *runs; of++)
        if (of->broken == NOTHING_BROKEN)
            kept(of, long_run() ? 20000000 : 200000);
        else if (searching)
            search(of);
        else
            broken(of);
    return 0;
}
