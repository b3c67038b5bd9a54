/* One exchange of a small host, as exchange.h says. */
#include "exchange.h"

#include <string.h>

/* How long each timer runs, in seconds. */
static const unsigned lengths[RESTART_WAIT] = {0, 25, 50, 30, 10, 60, 10};

/* The wheel. */

static void stop_timer(struct exchange *x, uint32_t circuit, uint32_t timer)
{
    unsigned *slot = &x->slot[circuit][timer];
    if (*slot < SLOTS)
        x->wheel[*slot][circuit] &= (uint8_t)~tup_timer_bit(timer);
    *slot = SLOTS;
}

static void start_timer(struct exchange *x, uint32_t circuit, uint32_t timer, unsigned seconds)
{
    stop_timer(x, circuit, timer);
    unsigned slot = x->slot[circuit][timer] = (x->seconds + seconds) % SLOTS;
    x->wheel[slot][circuit] |= (uint8_t)tup_timer_bit(timer);
}

static int running(const struct exchange *x, uint32_t circuit, uint32_t timer)
{
    return x->slot[circuit][timer] < SLOTS;
}

static void stop_timers(struct exchange *x, uint32_t circuit)
{
    for (uint32_t timer = 1; timer < TIMERS; timer++)
        stop_timer(x, circuit, timer);
}

/* After an event: a timer that ran before and is still wanted runs on. */
static void set_timers(struct exchange *x, uint32_t circuit, uint32_t wanted)
{
    for (uint32_t timer = 1; timer < RESTART_WAIT; timer++)
        if ((wanted & tup_timer_bit(timer)) == 0)
            stop_timer(x, circuit, timer);
        else if (!running(x, circuit, timer))
            start_timer(x, circuit, timer, lengths[timer]);
}

/* Quiet circuits. */

int exchange_quiet(const struct exchange *x, uint32_t circuit)
{
    return x->seconds - x->last_signal[circuit] > x->round_trip;
}

/* Puts off what is due until the circuit may be quiet, if nothing comes in between. */
static void wait_for_quiet(struct exchange *x, uint32_t circuit, uint32_t timer)
{
    start_timer(x, circuit, timer, x->last_signal[circuit] + x->round_trip + 1 - x->seconds);
}

/* The repeating timers run from the circuit's last signal. */
static void signal_passed(struct exchange *x, uint32_t circuit)
{
    static const uint32_t repeating[] = {TUP_TIMER_REPEAT, TUP_TIMER_BLOCK_REPEAT};
    x->last_signal[circuit] = x->seconds;
    for (unsigned i = 0; i < 2; i++)
        if (running(x, circuit, repeating[i]))
            start_timer(x, circuit, repeating[i], lengths[repeating[i]]);
}

/* Events. */

/* A message in TUP_MESSAGE_MAX octets; but for an IAM the call is one of zeros. Answers as tup_write does. */
static uint32_t write_message(const struct exchange *x, uint32_t circuit, uint32_t heading, uint32_t acm, const struct call *call,
                              uint8_t *octets)
{
    return tup_write(x->own, x->far, CIRCUITS, circuit, heading, acm, call->category, call->indicators, call->address,
                     call->address_len, octets, TUP_MESSAGE_MAX);
}

/* A step names the heading. The octet of an ACM is put in here; an IAM is there already. */
static void send_signal(struct exchange *x, uint32_t circuit, uint32_t heading, uint32_t detail)
{
    static const struct call none;
    uint8_t octets[TUP_MESSAGE_MAX];
    if (heading == TUP_NO_HEADING)
        return;
    signal_passed(x, circuit);
    if (heading == TUP_IAM) {
        x->send(x, circuit, x->iam[circuit], x->iam_len[circuit]);
        return;
    }
    /* Not refused: the heading is a step's, and the detail that of an address complete which was taken. */
    uint32_t written = write_message(x, circuit, heading, heading == TUP_ACM ? detail : 0, &none, octets);
    x->send(x, circuit, octets, tup_written_length(written));
}

/* The circuit begins anew: what arrives is dropped until it is quiet, and then it is restarted. */
static void shut(struct exchange *x, uint32_t circuit)
{
    uint8_t *record = x->table + TUP_RECORD_AT(circuit);
    record[TUP_RECORD_STATE] = TUP_AWAITING_RESET;
    record[TUP_RECORD_FLAGS] = 0;
    stop_timers(x, circuit);
    x->shut[circuit] = 1;
    x->last_signal[circuit] = x->seconds; /* what was sent before is still on its way, for all that this host knows */
    wait_for_quiet(x, circuit, RESTART_WAIT);
}

static void forget_ranks(struct exchange *x)
{
    memset(x->table, 0, TUP_COUNTER_OCTETS);
    for (uint32_t circuit = 0; circuit < CIRCUITS; circuit++)
        memset(x->table + TUP_RECORD_AT(circuit) + TUP_RECORD_RANK, 0, TUP_RECORD_OCTETS - TUP_RECORD_RANK);
}

/* A step, and what is to be done where memory was overwritten: with a counter that is full the event is given again, and a circuit
   with a bad record begins anew. */
static uint64_t step(struct exchange *x, uint32_t circuit, uint32_t kind, uint32_t code, uint32_t detail)
{
    uint64_t answer = tup_step(x->own, x->far, x->table, sizeof x->table, circuit, kind, code, detail);
    if (tup_answer_refusal(answer) == TUP_COUNTER_FULL) {
        forget_ranks(x);
        answer = tup_step(x->own, x->far, x->table, sizeof x->table, circuit, kind, code, detail);
    }
    if (tup_answer_refusal(answer) == TUP_BAD_RECORD)
        shut(x, circuit);
    return answer;
}

static uint64_t event(struct exchange *x, uint32_t circuit, uint32_t kind, uint32_t code, uint32_t detail)
{
    uint64_t answer = step(x, circuit, kind, code, detail);
    x->tell(x, circuit, kind, code, answer);
    if (tup_answer_refusal(answer) != TUP_ACCEPTED)
        return answer;
    set_timers(x, circuit, tup_timers(tup_answer_state(answer), tup_answer_flags(answer)));
    send_signal(x, circuit, tup_answer_first(answer), detail);
    send_signal(x, circuit, tup_answer_second(answer), detail);
    return answer;
}

/* Blocks or unblocks where the record is not what the site wants; while a reset is awaited that is not allowed yet. */
static void block_as_wanted(struct exchange *x, uint32_t circuit)
{
    int blocked = (tup_record_flags(x->table, circuit) & TUP_OWN_BLOCK) != 0;
    if (tup_record_state(x->table, circuit) != TUP_AWAITING_RESET && blocked != x->to_be_blocked[circuit])
        event(x, circuit, TUP_COMMAND, blocked ? TUP_UNBLOCK : TUP_BLOCK, 0);
}

static void restart_now(struct exchange *x, uint32_t circuit)
{
    stop_timers(x, circuit); /* those of a reset start anew */
    x->shut[circuit] = 0;
    event(x, circuit, TUP_COMMAND, TUP_RESTART, 0);
}

/* What tup_write answers depends on what it is given alone, so that an IAM which was written here can be sent whenever the seizure
   is taken. One of an earlier call on the circuit is overwritten: it was sent, and none is sent twice. */
uint32_t exchange_seize(struct exchange *x, uint32_t circuit, const struct call *call)
{
    uint32_t written = write_message(x, circuit, TUP_IAM, 0, call, x->iam[circuit]);
    if (tup_written_refusal(written) != TUP_ACCEPTED)
        return tup_written_refusal(written);
    x->iam_len[circuit] = tup_written_length(written);
    return tup_answer_refusal(event(x, circuit, TUP_COMMAND, TUP_SEIZE, 0));
}

uint64_t exchange_command(struct exchange *x, uint32_t circuit, uint32_t command, uint32_t detail)
{
    if (command == TUP_SEIZE)
        return TUP_NO_SUCH_EVENT;
    return event(x, circuit, TUP_COMMAND, command, detail);
}

int exchange_receive(struct exchange *x, const uint8_t *octets, size_t len)
{
    uint8_t fields[TUP_MESSAGE_OCTETS];
    uint64_t read = tup_read(x->own, x->far, CIRCUITS, octets, len, fields, sizeof fields);
    if (tup_read_refusal(read) != TUP_ACCEPTED) {
        x->refuse(x, octets, len, read);
        return 0;
    }
    uint32_t circuit = tup_message_circuit(fields);
    signal_passed(x, circuit);
    if (x->shut[circuit])
        return 0;
    uint64_t answer = event(x, circuit, TUP_SIGNAL, fields[TUP_MESSAGE_HEADING], fields[TUP_MESSAGE_ACM]);
    block_as_wanted(x, circuit);
    return tup_answer_refusal(answer) == TUP_ACCEPTED;
}

void exchange_block(struct exchange *x, uint32_t circuit, int blocked)
{
    x->to_be_blocked[circuit] = blocked;
    block_as_wanted(x, circuit);
}

void exchange_restart(struct exchange *x, uint32_t circuit)
{
    if (exchange_quiet(x, circuit))
        restart_now(x, circuit);
    else
        wait_for_quiet(x, circuit, RESTART_WAIT);
}

void exchange_link_back(struct exchange *x)
{
    for (uint32_t circuit = 0; circuit < CIRCUITS; circuit++)
        exchange_restart(x, circuit);
}

void exchange_start(struct exchange *x)
{
    tup_await_reset(x->table, sizeof x->table);
    memset(x->wheel, 0, sizeof x->wheel);
    for (uint32_t circuit = 0; circuit < CIRCUITS; circuit++) {
        for (uint32_t timer = 0; timer < TIMERS; timer++)
            x->slot[circuit][timer] = SLOTS;
        shut(x, circuit);
    }
}

/* What is due on a circuit in this second. After each timer it is asked anew what may run out: the signal that was sent ended the
   quiet, and the new state may have stopped what else was due. */
static void run_out(struct exchange *x, uint32_t circuit)
{
    const uint8_t *due = &x->wheel[x->seconds % SLOTS][circuit];
    if ((*due & tup_timer_bit(RESTART_WAIT)) != 0 && exchange_quiet(x, circuit))
        restart_now(x, circuit);
    for (uint32_t timer = 1; timer < RESTART_WAIT; timer++)
        if ((x->may_run_out(*due, exchange_quiet(x, circuit)) & tup_timer_bit(timer)) != 0) {
            stop_timer(x, circuit, timer);
            event(x, circuit, TUP_TIMER, timer, 0);
        }
    for (uint32_t timer = 1; timer < TIMERS; timer++)
        if ((*due & tup_timer_bit(timer)) != 0)
            wait_for_quiet(x, circuit, timer);
}

void exchange_tick(struct exchange *x)
{
    x->seconds++;
    for (uint32_t circuit = 0; circuit < CIRCUITS; circuit++)
        run_out(x, circuit);
}
