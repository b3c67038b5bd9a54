/* Two exchanges over one link: several circuits, and one queue of octets a direction, in which the messages of all are mixed. Both
   ends are run by tup_step; every signal is written by tup_write, and the oldest octets on their way are read by tup_read and given
   to the circuit that they name. The hosts do anything at any time, as far as demand 3 allows it (docs/RULES.md): a restart loses
   the messages of its own circuit, in both directions, and timers 4 to 6 wait until none of these is on its way. In half of the
   episodes they go by what a host can see: timers 4 and 5 in states 5 and 12 wait until their end is calm, and a restart at an end
   that is calm loses nothing.
   Whenever none of a circuit's messages is on its way, whatever the link carries of other circuits, the two ends must agree in
   states and blocks unless one awaits reset: an end may rest awaiting release-guard only opposite one that awaits reset. And no
   nonsense may ever arrive where a call awaits address complete.
   Beside this goes on what must not matter: circuits that only one of the exchanges has, octets that neither of them wrote, one
   circuit set aside with any record and with messages of anybody's, any ranks, and any counter that has room left, so that no event
   is refused 13.
   All this is to hold from idle records on, and also from any two legal ones, whatever was lost before, once either end has
   restarted the circuit. Both are tried in the episodes of a run at random, and the latter before it for every two records. */
#include "harness.h"
#include "tup.h"

#include <stdio.h>
#include <string.h>

/* Circuits that a group has, and a number that is none of theirs. */
enum { LEAST = 4, MOST = 6, NONE = MOST };

/* Messages that one direction of the link has room for, and so many that the hosts wait until some of them have arrived. */
enum { WAY = 128, MANY = 32 };

/* Events of an episode; orders of arrival that are tried for every two legal records. */
enum { EPISODE = 5000, ORDERS = 3 };

/* How many there are of each, counted from 0; legal records; octets of a label, behind which the heading stands. */
enum { CODES = 16384, STATES = 13, REFUSALS = TUP_SHORT_NUMBER + 1, INDICATIONS = 11, TIMERS = 7, LEGAL = 98, LABEL = 5 };

/* Octets that neither end wrote. The reader refuses them all but those of the last kind. */
enum foreign { JUNK, WRONG_CODES, TRUNCATED, UNKNOWN_HEADING, SPARE_DIGIT, SHORT_NUMBER, ON_CIRCUIT_ASIDE, FOREIGN };

struct message {
    uint8_t octets[TUP_MESSAGE_MAX];
    size_t len;
    uint32_t about;  /* its circuit; NONE for foreign octets that are refused */
    uint64_t answer; /* what the reader at the other end is to answer */
};

/* The group as each end has it, and the table that it keeps there, of which no more is lent than its circuits; and what stood in
   the tables when the episode began. */
static struct group { uint32_t own, far, circuits; } group[2];
static uint8_t table[2][TUP_TABLE_OCTETS(MOST)], at_first[2][TUP_TABLE_OCTETS(MOST)];

/* way[i] carries what end i sent, in order; on_way counts it by circuit, both directions together. */
static struct queue {
    struct message at[WAY];
    unsigned first, count;
} way[2];
static unsigned on_way[MOST + 1];

/* Whether an end is calm on a circuit: it has itself neither sent nor received anything on it since nothing was on its way there.
   by_calm: the hosts of this episode go by that. */
static int calm[2][MOST + 1], by_calm;

static uint32_t aside;            /* the circuit set aside: its ends are not compared */
static int to_be_restarted[MOST]; /* before anything else happens on the circuit */

/* The event that happens; waiting: the end awaited release-guard or reset before it. */
static struct { unsigned end; uint32_t circuit, kind, code, detail; int waiting; } now;
static struct {
    unsigned long events, refused, bad_records, from_idle, from_any, restarted_first, set_anew, in_seized, longest;
    unsigned long quiet, apart[STATES][STATES], marks[2][2], reset, guard_opposite_reset, amid_others, others, most_others;
    unsigned long indications[INDICATIONS], headings[256], timers[TIMERS];
    unsigned long calm_episodes, calm_restarts, calm_repeats;
    unsigned long lost, restarts_amid_others, foreign[FOREIGN], dropped[REFUSALS];
} seen;

static uint32_t state_at(unsigned end, uint32_t circuit)
{
    return tup_record_state(table[end], circuit);
}

static int has_flag(unsigned end, uint32_t circuit, uint32_t flag)
{
    return (tup_record_flags(table[end], circuit) & flag) != 0;
}

static void describe(void)
{
    printf("  event %lu, circuit %u, at end %u: kind %u code %u detail %u; circuit %u is set aside\n", seen.events, now.circuit,
           now.end, now.kind, now.code, now.detail, aside);
    for (unsigned end = 0; end < 2; end++) {
        printf("  end %u: code %u, %u circuits, %u messages on their way to the other", end, group[end].own, group[end].circuits,
               way[end].count);
        if (now.circuit < group[end].circuits)
            printf("; state %u flags %u, at first state %u flags %u", state_at(end, now.circuit),
                   tup_record_flags(table[end], now.circuit), tup_record_state(at_first[end], now.circuit),
                   tup_record_flags(at_first[end], now.circuit));
        printf("\n");
    }
}

static int awaits(uint32_t state)
{
    return state == TUP_AWAITING_RELEASE_GUARD || state == TUP_AWAITING_RESET;
}

/* Whether both ends have the circuit, and all that is said about it is said by them. */
static int compared(uint32_t circuit)
{
    return circuit < group[0].circuits && circuit < group[1].circuits && circuit != aside;
}

/* Demand 3, at a moment when none of the circuit's messages is on its way. */
static void agree(uint32_t circuit)
{
    unsigned controlling = tup_controls(group[0].own, group[0].far, circuit) ? 0 : 1, other = 1 - controlling;
    uint32_t state = state_at(controlling, circuit), opposite = state_at(other, circuit);
    unsigned others = way[0].count + way[1].count;
    if (state == TUP_AWAITING_RESET || opposite == TUP_AWAITING_RESET) {
        seen.reset++;
        seen.guard_opposite_reset += state == TUP_AWAITING_RELEASE_GUARD || opposite == TUP_AWAITING_RELEASE_GUARD;
        return;
    }
    if (!stages_agree(state, opposite))
        differ("at a quiet moment the two states do not agree");
    for (unsigned end = 0; end < 2; end++)
        if (has_flag(end, circuit, TUP_FAR_BLOCK) != has_flag(1 - end, circuit, TUP_OWN_BLOCK))
            differ("at a quiet moment the far-block mark of end %u is not the other's own block", end);
    seen.quiet++;
    seen.apart[state][opposite]++;
    seen.marks[has_flag(controlling, circuit, TUP_OWN_BLOCK)][has_flag(other, circuit, TUP_OWN_BLOCK)]++;
    seen.amid_others += others > 0;
    seen.others += others;
    if (others > seen.most_others)
        seen.most_others = others;
}

/* The link. */

static struct message *on_link(unsigned from, unsigned place)
{
    return &way[from].at[(way[from].first + place) % WAY];
}

static void put(unsigned from, const struct message *message)
{
    if (way[from].count == WAY)
        differ("the link is full");
    *on_link(from, way[from].count++) = *message;
    on_way[message->about]++;
    if (way[from].count > seen.longest)
        seen.longest = way[from].count;
}

static struct message take(unsigned from)
{
    struct message message = *on_link(from, 0);
    way[from].first = (way[from].first + 1) % WAY;
    way[from].count--;
    on_way[message.about]--;
    return message;
}

/* What a restart does to the link: every message is taken off once, and those of other circuits are put back in their order. */
static void lose(uint32_t circuit)
{
    unsigned lost = on_way[circuit];
    for (unsigned from = 0; from < 2; from++)
        for (unsigned left = way[from].count; left > 0; left--) {
            struct message message = take(from);
            if (message.about != circuit)
                put(from, &message);
        }
    seen.lost += lost;
    seen.restarts_amid_others += lost > 0 && way[0].count + way[1].count > 0;
}

/* Messages. */

/* What the writer of this group puts on the link; an IAM's particulars are drawn. */
static struct message write_message(const struct group *writer, uint32_t circuit, uint32_t heading, uint32_t acm)
{
    struct message message = {.about = circuit};
    uint8_t address[TUP_ADDRESS_MAX];
    uint32_t category = 0, indicators = 0;
    size_t address_len = 0;
    if (heading == TUP_IAM) {
        category = draw(64), address_len = 1 + draw(TUP_ADDRESS_MAX);
        draw_address(address, address_len);
        indicators = draw_indicators(address, address_len);
    }
    uint32_t written = tup_write(writer->own, writer->far, writer->circuits, circuit, heading, heading == TUP_ACM ? acm : 0,
                                 category, indicators, address, address_len, message.octets, sizeof message.octets);
    if (tup_written_refusal(written) != 0)
        differ("heading %02x is not written: %u", heading, tup_written_refusal(written));
    message.len = tup_written_length(written);
    return message;
}

/* Of the two codes in the label one is another exchange's, or they have changed places. */
static struct group with_wrong_codes(struct group writer)
{
    struct group wrong = writer;
    uint32_t code = draw(CODES);
    while (code == writer.own || code == writer.far)
        code = draw(CODES);
    switch (draw(3)) {
    case 0:
        wrong.own = code;
        break;
    case 1:
        wrong.far = code;
        break;
    default:
        wrong.own = writer.far, wrong.far = writer.own;
    }
    return wrong;
}

static uint8_t draw_unknown_heading(void)
{
    uint8_t heading = (uint8_t)draw(256);
    while (memchr(headings, heading, HEADINGS) != NULL)
        heading = (uint8_t)draw(256);
    return heading;
}

static uint64_t refused_at(uint32_t refusal, size_t place)
{
    return refusal | (uint64_t)place << 8;
}

/* Any octets; not even by chance are they for the exchange with this code. */
static void fill_with_junk(struct message *message, uint32_t code)
{
    message->len = draw(TUP_MESSAGE_MAX + 1);
    for (size_t i = 0; i < TUP_MESSAGE_MAX; i++)
        message->octets[i] = (uint8_t)draw(256);
    message->octets[0] = (uint8_t)(code + 1 + draw(255));
    message->answer = message->len <= LABEL ? refused_at(TUP_WRONG_LENGTH, message->len) : refused_at(TUP_WRONG_LABEL, 0);
}

/* Makes an IAM one of nature 3 with one to three digits and nothing else wrong. */
static void shorten(struct message *message)
{
    static const uint8_t digits[] = {0x21, 0x03};
    uint32_t count = 1 + draw(3);
    message->octets[7] |= 3;
    message->octets[8] = (uint8_t)((message->octets[8] & 15) | count << 4);
    memcpy(message->octets + 9, digits, sizeof digits);
    message->len = 9 + (count + 1) / 2;
    message->answer = refused_at(TUP_SHORT_NUMBER, 8);
}

/* Octets that neither end wrote, coming from this end's side. They may name any circuit; but where they can be read, they are about
   the one set aside, since nobody could tell them from an end's own. */
static struct message foreign_message(unsigned from, enum foreign kind)
{
    struct group writer = kind == WRONG_CODES ? with_wrong_codes(group[from]) : group[from];
    int number = kind == SPARE_DIGIT || kind == SHORT_NUMBER;
    uint32_t heading = number ? TUP_IAM : headings[draw(HEADINGS)], circuit = draw(MOST);
    struct message message = write_message(&writer, kind == ON_CIRCUIT_ASIDE ? aside : circuit, heading, draw(64));
    if (kind != ON_CIRCUIT_ASIDE)
        message.about = NONE;
    switch (kind) {
    case JUNK:
        fill_with_junk(&message, writer.far);
        break;
    case WRONG_CODES:
        message.answer = refused_at(TUP_WRONG_LABEL, writer.far == group[from].far ? 1 : 0);
        break;
    case TRUNCATED:
        message.len = draw((uint32_t)message.len);
        message.answer = refused_at(TUP_WRONG_LENGTH, message.len);
        break;
    case UNKNOWN_HEADING:
        message.octets[LABEL] = draw_unknown_heading();
        message.answer = refused_at(TUP_NO_SUCH_HEADING, LABEL);
        break;
    case SPARE_DIGIT:
        message.octets[LABEL + 4] = 0xAA;
        message.answer = refused_at(TUP_WRONG_ADDRESS, LABEL + 4);
        break;
    case SHORT_NUMBER:
        shorten(&message);
        break;
    default:
        break;
    }
    return message;
}

static void put_foreign(unsigned from)
{
    enum foreign kind = (enum foreign)draw(FOREIGN);
    struct message message = foreign_message(from, kind);
    put(from, &message);
    seen.foreign[kind]++;
}

/* Events. */

/* Puts a signal on its way; an ACM's octet is the detail of the command that sent it. */
static void send(unsigned end, uint32_t circuit, uint32_t heading, uint32_t detail)
{
    if (heading == TUP_NO_HEADING)
        return;
    struct message message = write_message(&group[end], circuit, heading, detail);
    if (circuit >= group[1 - end].circuits)
        message.answer = refused_at(TUP_NO_SUCH_CIRCUIT, 3);
    put(end, &message);
    calm[end][circuit] = 0;
    seen.headings[heading] += compared(circuit) != 0;
}

/* An event changes no record but its circuit's, and nothing that is not lent. */
static void expect_others_kept(unsigned end, uint32_t circuit, const uint8_t *before)
{
    size_t record = TUP_RECORD_AT(circuit), next = TUP_RECORD_AT(circuit + 1);
    if (memcmp(table[end] + TUP_COUNTER_OCTETS, before + TUP_COUNTER_OCTETS, record - TUP_COUNTER_OCTETS) != 0 ||
        memcmp(table[end] + next, before + next, sizeof table[end] - next) != 0)
        differ("the event has changed more than its circuit's record");
}

static void expect_all_kept(unsigned end, const uint8_t *before)
{
    if (memcmp(table[end], before, sizeof table[end]) != 0)
        differ("what was refused has changed the table of end %u", end);
}

/* On the circuit set aside the record may be bad, and nowhere else. But for that no signal is refused, not even 13. */
static void expect_refusal(uint32_t refusal)
{
    if (refusal == TUP_BAD_RECORD ? now.circuit != aside : now.kind == TUP_SIGNAL)
        differ("the event is refused %u", refusal);
    seen.refused++;
    seen.bad_records += refusal == TUP_BAD_RECORD;
}

static void expect_sense(void)
{
    uint32_t state = state_at(now.end, now.circuit);
    if (now.kind != TUP_SIGNAL || !compared(now.circuit))
        return;
    seen.in_seized += state == TUP_OUT_SEIZED;
    if (is_nonsense(state, now.code))
        differ("heading %02x arrives before address complete", now.code);
}

/* A restart loses the circuit's messages, unless its end is calm and its host goes by that. */
static void restarted(void)
{
    if (by_calm && calm[now.end][now.circuit])
        seen.calm_restarts += on_way[now.circuit] > 0;
    else
        lose(now.circuit);
}

/* What is sent goes behind what a restart has left on the link. */
static void taken(uint64_t answer)
{
    if (now.kind == TUP_COMMAND && now.code == TUP_RESTART)
        restarted();
    else if (now.kind == TUP_TIMER && now.waiting)
        seen.calm_repeats += on_way[now.circuit] > 0;
    send(now.end, now.circuit, tup_answer_first(answer), now.detail);
    send(now.end, now.circuit, tup_answer_second(answer), now.detail);
    if (!compared(now.circuit))
        return;
    seen.indications[tup_answer_indication(answer)]++;
    if (now.kind == TUP_TIMER)
        seen.timers[now.code]++;
}

/* One event, and what it leads to. It changes neither records nor messages of other circuits, so that afterwards only this one has
   to be looked at. */
static void event(unsigned end, uint32_t circuit, uint32_t kind, uint32_t code, uint32_t detail)
{
    const struct group *at = &group[end];
    uint8_t before[sizeof table[0]];
    memcpy(before, table[end], sizeof before);
    now.end = end, now.circuit = circuit, now.kind = kind, now.code = code, now.detail = detail;
    now.waiting = awaits(state_at(end, circuit));
    expect_sense();
    uint64_t answer = tup_step(at->own, at->far, table[end], TUP_TABLE_OCTETS(at->circuits), circuit, kind, code, detail);
    seen.events++;
    if (tup_answer_refusal(answer) == TUP_ACCEPTED) {
        expect_others_kept(end, circuit, before);
        taken(answer);
    } else {
        expect_all_kept(end, before);
        expect_refusal(tup_answer_refusal(answer));
    }
    if (on_way[circuit] > 0)
        return;
    calm[0][circuit] = calm[1][circuit] = 1;
    if (compared(circuit))
        agree(circuit);
}

/* Takes the oldest octets on their way to this end and reads them: what can be read is an event on the circuit named, and what is
   refused is dropped and changes nothing. */
static void arrive(unsigned end)
{
    const struct group *at = &group[end];
    struct message message = take(1 - end);
    uint8_t fields[TUP_MESSAGE_OCTETS], before[sizeof table[0]];
    memcpy(before, table[end], sizeof before);
    now.end = end, now.circuit = message.about, now.kind = TUP_SIGNAL, now.code = message.octets[LABEL], now.detail = 0;
    uint64_t answer = tup_read(at->own, at->far, at->circuits, message.octets, message.len, fields, sizeof fields);
    if (answer != message.answer)
        differ("octets that arrive are answered %llx and should be %llx", (unsigned long long)answer,
               (unsigned long long)message.answer);
    if (tup_read_refusal(answer) != TUP_ACCEPTED) {
        expect_all_kept(end, before);
        seen.dropped[tup_read_refusal(answer)]++;
        return;
    }
    if (tup_message_circuit(fields) != message.about)
        differ("the circuit read is %u and should be %u", tup_message_circuit(fields), message.about);
    calm[end][message.about] = 0;
    event(end, message.about, TUP_SIGNAL, fields[TUP_MESSAGE_HEADING], fields[TUP_MESSAGE_ACM]);
}

/* Tables to begin with. */

static void set_record(unsigned end, uint32_t circuit, uint32_t state, uint32_t flags)
{
    uint8_t *record = table[end] + TUP_RECORD_AT(circuit);
    record[TUP_RECORD_STATE] = (uint8_t)state;
    record[TUP_RECORD_FLAGS] = (uint8_t)flags;
}

/* The legal records, by number: eight sums of flags in each of the states 0 to 11, and the first two of these in state 12. */
static void set_legal(unsigned end, uint32_t circuit, unsigned number)
{
    static const uint8_t sums[] = {0, 2, 1, 3, 5, 7, 8, 10};
    set_record(end, circuit, number / 8, sums[number % 8]);
}

/* Any ranks, also above the counter, and a counter that this run does not fill. */
static void set_ranks(unsigned end)
{
    put_eight(table[end], draw64() >> 1);
    for (uint32_t circuit = 0; circuit < group[end].circuits; circuit++)
        put_eight(table[end] + TUP_RECORD_AT(circuit) + TUP_RECORD_RANK, draw64());
    seen.set_anew++;
}

static void set_groups(uint32_t code, uint32_t other, uint32_t circuits, uint32_t others)
{
    group[0] = (struct group){code, other, circuits};
    group[1] = (struct group){other, code, others};
}

static void clear_link(void)
{
    way[0].count = way[1].count = 0;
    memset(on_way, 0, sizeof on_way);
    for (unsigned circuit = 0; circuit <= MOST; circuit++)
        calm[0][circuit] = calm[1][circuit] = 1;
}

/* The circuit set aside has any two octets at one time, nearly always bad ones, and at another a legal record, so that more happens
   there; a circuit that the other end does not have begins with a legal one as well. */
static void set_first_record(unsigned end, uint32_t circuit, int from_any)
{
    if (circuit == aside && chance(2)) {
        uint32_t any = draw(65536);
        set_record(end, circuit, any / 256, any % 256);
    } else if (!compared(circuit) || from_any)
        set_legal(end, circuit, draw(LEGAL));
    else
        set_record(end, circuit, TUP_IDLE, 0);
}

/* Two exchanges anew and nothing on its way: their circuits are idle, or have any legal records and are restarted first. */
static void begin_episode(int from_any)
{
    uint32_t code = draw(CODES), other = (code + 1 + draw(CODES - 1)) % CODES;
    uint32_t circuits = LEAST + draw(MOST - LEAST + 1), others = LEAST + draw(MOST - LEAST + 1);
    set_groups(code, other, circuits, others);
    aside = draw(circuits < others ? circuits : others);
    by_calm = (int)draw(2);
    seen.calm_episodes += by_calm != 0;
    clear_link();
    for (unsigned end = 0; end < 2; end++) {
        pattern(table[end], sizeof table[end]);
        set_ranks(end);
        for (uint32_t circuit = 0; circuit < group[end].circuits; circuit++)
            set_first_record(end, circuit, from_any);
    }
    for (uint32_t circuit = 0; circuit < MOST; circuit++)
        to_be_restarted[circuit] = from_any && compared(circuit);
    memcpy(at_first, table, sizeof table);
    seen.from_idle += !from_any;
    seen.from_any += from_any != 0;
}

/* The run at random. */

static void give_command(unsigned end, uint32_t circuit)
{
    uint32_t command = chance(30) ? TUP_RESTART : TUP_SEIZE + draw(9);
    uint32_t detail = draw_detail(command);
    if ((command == TUP_RELEASE || command == TUP_FAIL) && !chance(3))
        command = TUP_SEIZE, detail = 0; /* or few calls would get far */
    event(end, circuit, TUP_COMMAND, command, detail);
}

/* Whether one of timers 4 to 6 may run out. By what a host can see only 4 and 5 wait, where a CLF or an RSC would go out again. */
static int may_run_out(unsigned end, uint32_t circuit, uint32_t timer)
{
    if (!by_calm)
        return on_way[circuit] == 0;
    return timer == TUP_TIMER_BLOCK_REPEAT || !awaits(state_at(end, circuit)) || calm[end][circuit];
}

static void host_event(unsigned end, uint32_t circuit)
{
    uint32_t choice = draw(16), timer = TUP_TIMER_REPEAT + draw(3);
    if (to_be_restarted[circuit]) {
        to_be_restarted[circuit] = 0;
        seen.restarted_first++;
        event(end, circuit, TUP_COMMAND, TUP_RESTART, 0);
    } else if (choice == 0 && may_run_out(end, circuit, timer))
        event(end, circuit, TUP_TIMER, timer, 0);
    else if (choice == 1 && chance(4))
        event(end, circuit, TUP_TIMER, TUP_TIMER_ADDRESS + draw(3), 0);
    else
        give_command(end, circuit);
}

/* The link is quick at one time and slow at another, so that queues of all lengths occur. */
static uint32_t pace(void)
{
    static uint32_t now_at = 20;
    if (chance(1000))
        now_at = 2 + draw(40);
    return now_at;
}

static void one_move(void)
{
    unsigned end = draw(2);
    unsigned waiting = way[1 - end].count;
    if (waiting > 0 && (draw(64) < pace() || waiting > MANY))
        arrive(end);
    else if (way[end].count > MANY)
        arrive(1 - end);
    else if (chance(20))
        put_foreign(end);
    else
        host_event(end, draw(group[end].circuits));
    if (chance(5000))
        set_ranks(draw(2));
}

static void episodes(unsigned long events)
{
    while (seen.events < events) {
        unsigned long until = seen.events + EPISODE;
        begin_episode((int)draw(2));
        while (seen.events < until)
            one_move();
    }
}

/* Every two legal records. */

static void deliver_all(void)
{
    while (way[0].count + way[1].count > 0) {
        unsigned end = draw(2);
        if (way[1 - end].count > 0)
            arrive(end);
    }
}

/* The end that has something to repeat, awaiting release-guard rather than reset; 2 if there is none. */
static unsigned repeating_end(void)
{
    static const uint32_t awaiting[] = {TUP_AWAITING_RELEASE_GUARD, TUP_AWAITING_RESET};
    for (unsigned i = 0; i < 2; i++)
        for (unsigned end = 0; end < 2; end++)
            if (state_at(end, 0) == awaiting[i])
                return end;
    return 2;
}

/* Circuit 0, controlled by end 0, with these records and nothing on its way; one end restarts it. Once all has arrived, both are
   idle, or are so after timer 4 has run out at one end. Gives whether that was needed. */
static int settle(unsigned record, unsigned other, unsigned restarting)
{
    clear_link();
    set_legal(0, 0, record);
    set_legal(1, 0, other);
    memcpy(at_first, table, sizeof table);
    event(restarting, 0, TUP_COMMAND, TUP_RESTART, 0);
    deliver_all();
    unsigned end = repeating_end();
    if (end < 2) {
        event(end, 0, TUP_TIMER, TUP_TIMER_REPEAT, 0);
        deliver_all();
    }
    if (state_at(0, 0) != TUP_IDLE || state_at(1, 0) != TUP_IDLE)
        differ("restarted by end %u, and not idle in the end", restarting);
    agree(0);
    return end < 2;
}

/* Timer 4 is needed exactly where the end that does not restart was itself awaiting an answer. */
static void every_two_records(void)
{
    unsigned long pairs = 0, at_once = 0;
    set_groups(2, 1, 1, 1);
    aside = NONE;
    for (unsigned restarting = 0; restarting < 2; restarting++)
        for (unsigned pair = 0; pair < LEGAL * LEGAL; pair++) {
            int later = 0;
            for (unsigned order = 0; order < ORDERS; order++)
                later += settle(pair / LEGAL, pair % LEGAL, restarting);
            if (later != (awaits(tup_record_state(at_first[1 - restarting], 0)) ? ORDERS : 0))
                differ("restarted by end %u, timer 4 was needed %d times out of %d", restarting, later, ORDERS);
            pairs++;
            at_once += later == 0;
        }
    covered("restarted with any two legal records, by either end, in %d orders: %lu pairs, %lu agreed at once, %lu after timer 4",
            ORDERS, pairs, at_once, pairs - at_once);
}

/* What was seen. */

static void expect_seen(unsigned long count, const char *what, unsigned number)
{
    if (count == 0)
        differ("never seen: %s %u", what, number);
}

static void quiet_moments_seen(void)
{
    for (unsigned i = 0; i < STAGES; i++) {
        unsigned outgoing = stages[i][0], incoming = stages[i][1];
        expect_seen(seen.apart[outgoing][incoming], "the controlling end outgoing in state", outgoing);
        expect_seen(seen.apart[incoming][outgoing], "the other end outgoing in state", outgoing);
        covered("quiet with state %u at the controlling end and %u at the other: %lu, the other way: %lu", outgoing, incoming,
                seen.apart[outgoing][incoming], seen.apart[incoming][outgoing]);
    }
    for (unsigned i = 0; i < 4; i++)
        expect_seen(seen.marks[i / 2][i % 2], "blocked at the ends, as bits,", i);
    covered("quiet with no block: %lu, a block at the controlling end: %lu, at the other: %lu, at both: %lu", seen.marks[0][0],
            seen.marks[1][0], seen.marks[0][1], seen.marks[1][1]);
    expect_seen(seen.guard_opposite_reset, "quiet, awaiting release-guard opposite reset", 0);
    covered("quiet, and an end awaits reset: %lu, the other one release-guard: %lu", seen.reset, seen.guard_opposite_reset);
    expect_seen(seen.amid_others, "quiet with messages of other circuits on their way", 0);
    covered("quiet with messages of other circuits on their way: %lu, with %lu of them in all, at most %lu", seen.amid_others,
            seen.others, seen.most_others);
}

static void signals_seen(void)
{
    for (unsigned i = 0; i < INDICATIONS; i++)
        expect_seen(seen.indications[i], "indication", i);
    for (unsigned i = 0; i < HEADINGS; i++)
        expect_seen(seen.headings[headings[i]], "sent, heading", headings[i]);
    for (unsigned i = TUP_TIMER_ADDRESS; i < TIMERS; i++)
        expect_seen(seen.timers[i], "ran out, timer", i);
    expect_seen(seen.in_seized, "arrived before address complete", 0);
    covered("%lu signals arrived before address complete, none of them nonsense", seen.in_seized);
    expect_seen(seen.lost, "messages lost by a restart", 0);
    expect_seen(seen.restarts_amid_others, "messages lost by a restart from among others", 0);
    covered("dual seizures yielded: %lu, messages lost by restarts: %lu, %lu times from among others, most on their way: %lu",
            seen.indications[TUP_IND_INCOMING_CALL_TRY_OWN_ELSEWHERE], seen.lost, seen.restarts_amid_others, seen.longest);
}

static void foreign_seen(void)
{
    static const uint8_t refusals[] = {TUP_NO_SUCH_CIRCUIT, TUP_WRONG_LENGTH, TUP_WRONG_LABEL, TUP_NO_SUCH_HEADING,
                                       TUP_WRONG_ADDRESS, TUP_SHORT_NUMBER};
    unsigned long dropped = 0;
    for (unsigned i = 0; i < FOREIGN; i++)
        expect_seen(seen.foreign[i], "foreign octets, kind", i);
    for (unsigned i = 0; i < sizeof refusals; i++)
        expect_seen(seen.dropped[refusals[i]], "dropped by the reader, refused", refusals[i]);
    for (unsigned i = TUP_WRONG_LENGTH; i < REFUSALS; i++)
        dropped += seen.dropped[i];
    covered("foreign octets dropped: %lu times, messages dropped as one end lacks the circuit: %lu, foreign messages for the one "
            "set aside: %lu", dropped, seen.dropped[TUP_NO_SUCH_CIRCUIT], seen.foreign[ON_CIRCUIT_ASIDE]);
}

int main(void)
{
    harness_begin("ends", describe);
    every_two_records();
    memset(&seen, 0, sizeof seen);
    episodes(long_run() ? 100000000 : 2000000);
    covered("%lu events, %lu of them refused, %lu for a bad record on the circuit set aside; %lu quiet moments, all agreed",
            seen.events, seen.refused, seen.bad_records, seen.quiet);
    covered("%lu episodes from idle, %lu from any legal records with %lu restarts; counter and ranks set by a host %lu times",
            seen.from_idle, seen.from_any, seen.restarted_first, seen.set_anew);
    covered("%lu episodes by what a host can see, with %lu restarts that lost nothing and %lu repeats amid messages on their way",
            seen.calm_episodes, seen.calm_restarts, seen.calm_repeats);
    expect_seen(seen.calm_restarts, "a restart at a calm end with messages on their way", 0);
    expect_seen(seen.calm_repeats, "timer 4 or 5 at a calm end with messages on their way", 0);
    expect_seen(seen.bad_records, "a bad record on the circuit set aside", 0);
    expect_seen(seen.from_idle, "an episode from idle", 0);
    expect_seen(seen.restarted_first, "a restart from any legal records", 0);
    quiet_moments_seen();
    signals_seen();
    foreign_seen();
    return 0;
}
