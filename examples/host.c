/* A small host to read first: two exchanges in one process, joined by a link of two octet queues. What each of them does for its
   circuits is in exchange.c; here is what is around it: the link, the clock, call control, and scenes that print what happens. */
#include "exchange.h"
#include "tup_names.h"

#include <stdio.h>
#include <string.h>

enum { QUEUE = 64, ROUND_TRIP = 2 };

/* What each exchange has sent and the other has not taken yet, in order. */
static struct queue {
    uint8_t octets[QUEUE][TUP_MESSAGE_MAX];
    size_t len[QUEUE];
    unsigned first, waiting;
} sent[2];
static int broken; /* the link loses what is sent */

static struct exchange exchanges[2];
static struct exchange *const a = &exchanges[0], *const b = &exchanges[1];

/* What most of the calls here are for: category 10, a national number. */
static const struct call usual = {10, 2, {5, 5, 5, 0, 1, 2, 3, 15}, 8};

static void print_octets(const uint8_t *octets, size_t len)
{
    for (size_t i = 0; i < len; i++)
        printf(" %02x", octets[i]);
}

static void send(struct exchange *x, uint32_t circuit, const uint8_t *octets, size_t len)
{
    struct queue *queue = &sent[x - exchanges];
    printf("%5u s  %s sends %s %u   ", x->seconds, x->name, tup_heading_name(octets[5]), circuit);
    print_octets(octets, len);
    printf(broken ? "  (lost)\n" : "\n");
    if (broken || queue->waiting == QUEUE)
        return;
    unsigned last = (queue->first + queue->waiting++) % QUEUE;
    memcpy(queue->octets[last], octets, len);
    queue->len[last] = len;
}

static const char *event_name(uint32_t kind, uint32_t code)
{
    switch (kind) {
    case TUP_SIGNAL: return tup_heading_name(code);
    case TUP_COMMAND: return tup_command_name(code);
    default: return tup_timer_name(code);
    }
}

static void tell(struct exchange *x, uint32_t circuit, uint32_t kind, uint32_t code, uint64_t answer)
{
    printf("%5u s  %s %s %s %u: ", x->seconds, x->name, tup_kind_name(kind), event_name(kind, code), circuit);
    if (tup_answer_refusal(answer) != TUP_ACCEPTED)
        printf("refused %u, %s; ", tup_answer_refusal(answer), tup_refusal_name(tup_answer_refusal(answer)));
    printf("%s", tup_state_name(tup_answer_state(answer)));
    for (uint32_t flag = TUP_OWN_BLOCK; flag <= TUP_AWAITING_UBA; flag *= 2)
        if ((tup_answer_flags(answer) & flag) != 0)
            printf(", %s", tup_flag_name(flag));
    if (tup_answer_indication(answer) != TUP_IND_NOTHING)
        printf(" (%s)", tup_indication_name(tup_answer_indication(answer)));
    printf("\n");
}

/* Whoever looks for the fault at the far end needs the message, why it was refused, and where. */
static void refuse(struct exchange *x, const uint8_t *octets, size_t len, uint64_t answer)
{
    uint32_t refusal = tup_read_refusal(answer);
    printf("%5u s  %s refuses", x->seconds, x->name);
    print_octets(octets, len);
    printf(": %s, ", tup_refusal_name(refusal));
    printf(refusal == TUP_WRONG_LENGTH ? "%llu octets\n" : "octet %llu\n", (unsigned long long)tup_read_place(answer));
}

/* Takes the oldest message that the other exchange sent. */
static void receive(struct exchange *x)
{
    struct queue *from = &sent[x == a];
    unsigned oldest = from->first;
    from->first = (oldest + 1) % QUEUE;
    from->waiting--;
    if (!exchange_receive(x, from->octets[oldest], from->len[oldest]))
        printf("%5u s  %s drops %s\n", x->seconds, x->name, tup_heading_name(from->octets[oldest][5]));
}

static void deliver_all(void)
{
    while (sent[0].waiting + sent[1].waiting > 0)
        for (int i = 0; i < 2; i++)
            if (sent[1 - i].waiting > 0)
                receive(&exchanges[i]);
}

static void wait_seconds(unsigned count)
{
    for (; count > 0; count--) {
        deliver_all();
        exchange_tick(a);
        exchange_tick(b);
    }
    deliver_all();
}

/* A circuit for an outgoing call; CIRCUITS where there is none, and another route is to be tried, or where the call cannot be made
   at all. Nothing happens to the table between the choice and the seizure. */
static uint32_t take_circuit(struct exchange *x, const struct call *call)
{
    uint64_t choice = tup_select(x->own, x->far, x->table, sizeof x->table);
    uint32_t circuit = tup_selected_circuit(choice);
    if (tup_selected_refusal(choice) != TUP_ACCEPTED) {
        printf("%5u s  %s wants a circuit: refused %u, %s\n", x->seconds, x->name, tup_selected_refusal(choice),
               tup_refusal_name(tup_selected_refusal(choice)));
        return CIRCUITS;
    }
    printf("%5u s  %s wants a circuit: %u (%u looked at)\n", x->seconds, x->name, circuit, tup_selected_looked(choice));
    uint32_t refusal = exchange_seize(x, circuit, call);
    if (refusal == TUP_ACCEPTED)
        return circuit;
    printf("%5u s  %s does not seize it: refused %u, %s\n", x->seconds, x->name, refusal, tup_refusal_name(refusal));
    return CIRCUITS;
}

static void scene_start(void)
{
    printf("Both exchanges come up\n");
    exchange_start(a);
    exchange_start(b);
    take_circuit(a, &usual);
    wait_seconds(ROUND_TRIP + 1);
}

static void scene_call(void)
{
    printf("\nA call from A\n");
    uint32_t circuit = take_circuit(a, &usual);
    wait_seconds(2);
    exchange_command(b, circuit, TUP_ADDRESS_COMPLETE, 5);
    wait_seconds(6);
    exchange_command(b, circuit, TUP_ANSWER, 0);
    wait_seconds(90);
    exchange_command(b, circuit, TUP_CLEAR_BACK, 0);
    wait_seconds(5);
    exchange_command(a, circuit, TUP_RELEASE, 0);
    wait_seconds(1);
}

static void scene_dual_seizure(void)
{
    printf("\nA dual seizure on circuit 1, which B controls\n");
    exchange_seize(a, 1, &usual);
    exchange_seize(b, 1, &usual);
    wait_seconds(1);
    exchange_command(a, 1, TUP_FAIL, TUP_SSB);
    wait_seconds(1);
}

static void scene_lost_block(void)
{
    printf("\nA block whose first message is lost\n");
    broken = 1;
    exchange_block(a, 3, 1);
    broken = 0;
    wait_seconds(10);
    exchange_seize(b, 3, &usual);
}

static void scene_reset(void)
{
    printf("\nMaintenance resets circuit 2 while a call is being set up there\n");
    exchange_seize(b, 2, &usual);
    wait_seconds(1);
    exchange_restart(a, 2);
    wait_seconds(ROUND_TRIP + 1);
}

static void scene_refused(void)
{
    static const uint8_t clf_from_3[] = {0x02, 0xc0, 0x00, 0x00, 0x00, 0x46}, no_heading[] = {0x02, 0x40, 0x00, 0x00, 0x00, 0x21},
                         short_acm[] = {0x02, 0x40, 0x00, 0x00, 0x00, 0x14}, clf_on_5[] = {0x02, 0x40, 0x00, 0x50, 0x00, 0x46},
                         spare_digit[] = {0x02, 0x40, 0x00, 0x00, 0x00, 0x11, 0x0a, 0x00, 0x30, 0x21, 0x0d},
                         short_number[] = {0x02, 0x40, 0x00, 0x00, 0x00, 0x11, 0x0a, 0x03, 0x30, 0x94, 0x08};
    printf("\nA writes messages that it cannot read into its log\n");
    exchange_receive(a, clf_from_3, sizeof clf_from_3);
    exchange_receive(a, no_heading, sizeof no_heading);
    exchange_receive(a, short_acm, sizeof short_acm);
    exchange_receive(a, clf_on_5, sizeof clf_on_5);
    exchange_receive(a, spare_digit, sizeof spare_digit);
    exchange_receive(a, short_number, sizeof short_number);
}

static void scene_failure(void)
{
    printf("\nThe link fails while A clears a call, and is back after the 60th second: A then restarts all circuits\n");
    exchange_seize(a, 0, &usual);
    wait_seconds(5);
    broken = 1;
    exchange_command(a, 0, TUP_RELEASE, 0);
    wait_seconds(65);
    broken = 0;
    exchange_link_back(a);
    wait_seconds(ROUND_TRIP + 1);
}

static void scene_restart(void)
{
    printf("\nA's host restarts in the middle of a call, which B then clears\n");
    uint32_t circuit = take_circuit(b, &usual);
    wait_seconds(1);
    exchange_command(a, circuit, TUP_ADDRESS_COMPLETE, 0);
    wait_seconds(5);
    exchange_start(a);
    take_circuit(a, &usual);
    exchange_command(b, circuit, TUP_RELEASE, 0);
    wait_seconds(15);
}

static void scene_abroad(void)
{
    struct call abroad = {10, 3, {4, 9, 8}, 3};
    printf("\nA caller at A dials abroad: after three digits no circuit may be seized yet, after the fourth one may\n");
    take_circuit(a, &abroad);
    abroad.address[abroad.address_len++] = 9;
    uint32_t circuit = take_circuit(a, &abroad);
    wait_seconds(1);
    exchange_command(a, circuit, TUP_RELEASE, 0);
    wait_seconds(1);
}

/* A stand-by sends nothing, since the exchange that it stands by for does. */
static void send_nothing(struct exchange *x, uint32_t circuit, const uint8_t *octets, size_t len)
{
    (void)x, (void)circuit, (void)octets, (void)len;
}

/* Ranks are left out: they go by the order in which circuits were freed. */
static int same_states_and_flags(const struct exchange *x, const struct exchange *y)
{
    for (uint32_t circuit = 0; circuit < CIRCUITS; circuit++)
        if (tup_record_state(x->table, circuit) != tup_record_state(y->table, circuit) ||
            tup_record_flags(x->table, circuit) != tup_record_flags(y->table, circuit))
            return 0;
    return 1;
}

static uint32_t would_choose(const struct exchange *x)
{
    return tup_selected_circuit(tup_select(x->own, x->far, x->table, sizeof x->table));
}

/* All that waits for A is one batch, in which no two messages are of one circuit: so the order is of no account, but for the ranks.
   Messages of one circuit would have to keep theirs. */
static void hand_over_batch(void)
{
    static struct exchange standby;
    static struct queue batch;
    standby = *a, batch = sent[1];
    standby.name = "A's stand-by", standby.send = send_nothing;
    while (sent[1].waiting > 0)
        receive(a);
    for (unsigned i = batch.waiting; i-- > 0;) {
        unsigned at = (batch.first + i) % QUEUE;
        exchange_receive(&standby, batch.octets[at], batch.len[at]);
    }
    printf("%5u s  states and flags are %s; the next circuit would be %u at A, and %u at its stand-by\n", a->seconds,
           same_states_and_flags(a, &standby) ? "the same" : "different", would_choose(a), would_choose(&standby));
}

static void scene_batch(void)
{
    printf("\nMessages of four circuits are one batch for A; a stand-by copy of A takes them the other way round\n");
    exchange_seize(a, 0, &usual);
    exchange_seize(a, 2, &usual);
    wait_seconds(1);
    exchange_command(a, 0, TUP_RELEASE, 0);
    exchange_command(a, 2, TUP_RELEASE, 0);
    receive(b);
    receive(b);
    exchange_seize(b, 1, &usual);
    exchange_block(b, 3, 1);
    hand_over_batch();
    wait_seconds(1);
    exchange_command(b, 1, TUP_RELEASE, 0);
    exchange_block(b, 3, 0);
    wait_seconds(1);
}

static void begin(struct exchange *x, const char *name, uint32_t own, uint32_t far)
{
    x->name = name, x->own = own, x->far = far;
    x->round_trip = ROUND_TRIP;
    x->send = send, x->tell = tell, x->refuse = refuse;
    x->may_run_out = tup_timers_now;
}

int main(void)
{
    begin(a, "A", 2, 1);
    begin(b, "B", 1, 2);
    scene_start();
    scene_call();
    scene_dual_seizure();
    scene_lost_block();
    scene_reset();
    scene_refused();
    scene_failure();
    scene_restart();
    scene_abroad();
    scene_batch();
    printf("\nAll circuits at the end\n");
    for (uint32_t circuit = 0; circuit < CIRCUITS; circuit++)
        printf("circuit %u: A %s, flags %u; B %s, flags %u\n", circuit, tup_state_name(tup_record_state(a->table, circuit)),
               tup_record_flags(a->table, circuit), tup_state_name(tup_record_state(b->table, circuit)),
               tup_record_flags(b->table, circuit));
    return 0;
}
