/* Circuit control of one group of both-way TUP circuits, and the reader and the writer of its messages, for a host in C.
 * docs/HOST.md shows how it is used, and docs/RULES.md has every rule. Names as text are in tup_names.h.
 *
 * What is proved. For every input, refused or not, the contracts of tup_step, tup_select, tup_read and tup_write determine the
 * answer and the later contents of all lent memory, and these are what docs/RULES.md says. The compiler, this header and the host
 * are outside the proof; the other functions of this header are tested against those four.
 *
 * What the host owes, always.
 * - Pointers and lengths are true: the octets lent are there, and may be written where the pointer is not const. With length 0
 *   the pointer may be NULL (tested, not proved).
 * - Slices lent in one call do not overlap.
 * - One call at a time on a table.
 * - Clocks, tones and the message transfer part are the host's. A timer that ran out is an event of kind TUP_TIMER.
 * - A record that is refused 12 is not repaired by any event, restart included: the host writes state TUP_AWAITING_RESET and no
 *   flags there, so that the circuit cannot be seized, and restarts it as it does after a restart of its own (below).
 * - What is sent is named by its heading alone. The octet of an ACM is the detail of the command that sent it; category,
 *   indicators and address of an IAM are the host's. It sees to it before TUP_SEIZE that tup_write will take them: a refusal comes
 *   too late when the circuit is seized, and the far end is never told.
 *
 * What it owes for the two ends to agree. On each circuit all signals arrive, each once, in the order in which they were sent.
 * The other rules speak of a quiet circuit. It is quiet at an end when that end has neither sent nor received a signal on it for
 * longer than a round trip: the longest time in which a signal crosses the link, is answered, and the answer is back, with the time
 * in both hosts' queues.
 * - TUP_TIMER_REPEAT, TUP_TIMER_MINUTE and TUP_TIMER_BLOCK_REPEAT run out only on a quiet circuit. One that is due before waits.
 * - Where TUP_TIMER_REPEAT and TUP_TIMER_MINUTE are both due, TUP_TIMER_MINUTE runs out instead of the other.
 * - TUP_RESTART is given only on a quiet circuit, or where everything on its way on that circuit, in both directions, is gone.
 * - After its own restart the host never takes up a stored table: the far end has moved on meanwhile, and a stale record that is
 *   legal cannot be told from a true one. It begins with tup_await_reset; on every circuit it drops what arrives until that is
 *   quiet, counted from the host's start, and then gives TUP_RESTART there before any other event.
 * - Wherever a signal was lost otherwise, by a link failure or by refusal 13, no record tells whether the ends still agree: one
 *   end gives TUP_RESTART on every circuit that may be concerned, once it is quiet, and blocks again what is to be blocked.
 */
#ifndef TUP_H
#define TUP_H

#include <stddef.h>
#include <stdint.h>

/* The version of this header and its archive, to compare with at compile time. The table's format changes more seldom: a host that
   reads or writes tables itself compares it with the one that it was written for. Format 1 had two octets a record and no
   counter; 2 has the counter and the release ranks. */
#define TUP_VERSION_MAJOR 4
#define TUP_VERSION_MINOR 4
#define TUP_VERSION_PATCH 0
#define TUP_VERSION (TUP_VERSION_MAJOR * 10000 + TUP_VERSION_MINOR * 100 + TUP_VERSION_PATCH)
#define TUP_TABLE_FORMAT 2

/* Casts that C++ compilers do not warn of; and enums which, from C++11 on, may hold any number that a table or a message does. */
#ifdef __cplusplus
#define TUP_CAST(type, value) (static_cast<type>(value))
#else
#define TUP_CAST(type, value) ((type)(value))
#endif
#if defined __cplusplus && __cplusplus >= 201103L
#define TUP_ENUM(name) enum name : uint32_t
#else
#define TUP_ENUM(name) enum name
#endif

#ifdef __cplusplus
extern "C" {
#endif

/* The lent table: the counter of releases, then the records; record i is circuit i, and a table of zeros is an idle group. An
   event that takes a circuit from another state to idle raises the counter by one, and the circuit's record takes it as its
   release rank; no other event changes the counter or a rank. So, from zeros, of two circuits the one of lower rank was freed
   earlier, and one of rank 0 was not freed yet. Counter and ranks are not judged: any are taken as they are lent.
   A length that is not that of a counter and 1 to 4096 whole records is refused 1. */
#define TUP_COUNTER_OCTETS 8 /* at the table's start, lowest first */
#define TUP_RECORD_OCTETS 10
#define TUP_RECORD_STATE 0
#define TUP_RECORD_FLAGS 1
#define TUP_RECORD_RANK 2 /* eight octets, lowest first */
#define TUP_CIRCUITS_MAX 4096
#define TUP_TABLE_OCTETS(circuits) (TUP_COUNTER_OCTETS + TUP_CAST(size_t, circuits) * TUP_RECORD_OCTETS)
#define TUP_RECORD_AT(circuit) (TUP_COUNTER_OCTETS + TUP_CAST(size_t, circuit) * TUP_RECORD_OCTETS)

/* What the reader puts into its output: the places of a message's fields. Fields that the heading does not have are 0. */
#define TUP_MESSAGE_CIRCUIT 0    /* two octets, lowest first */
#define TUP_MESSAGE_HEADING 2
#define TUP_MESSAGE_ACM 3        /* the octet of an ACM, 0 to 63 */
#define TUP_MESSAGE_CATEGORY 4   /* 0 to 63 */
#define TUP_MESSAGE_INDICATORS 5 /* two octets, lowest first, 0 to 2047 */
#define TUP_MESSAGE_COUNT 7      /* address signals, 1 to 15 in an IAM */
#define TUP_MESSAGE_ADDRESS 8    /* one octet a signal, 0 where unused */
#define TUP_ADDRESS_MAX 15
#define TUP_MESSAGE_OCTETS 23

/* The longest message on the link: an IAM with 15 address signals. */
#define TUP_MESSAGE_MAX 17

TUP_ENUM(tup_state) {
    TUP_IDLE = 0,
    TUP_OUT_SEIZED = 1,
    TUP_OUT_PROCEEDING = 2,
    TUP_OUT_ANSWERED = 3,
    TUP_OUT_HUNG_UP = 4,
    TUP_AWAITING_RELEASE_GUARD = 5,
    TUP_IN_SEIZED = 6,
    TUP_IN_PROCEEDING = 7,
    TUP_IN_SUBSCRIBER_FREE = 8,
    TUP_IN_ANSWERED = 9,
    TUP_IN_HUNG_UP = 10,
    TUP_IN_FAILED = 11,
    TUP_AWAITING_RESET = 12
};

TUP_ENUM(tup_flag) { TUP_OWN_BLOCK = 1, TUP_FAR_BLOCK = 2, TUP_AWAITING_BLA = 4, TUP_AWAITING_UBA = 8 };

TUP_ENUM(tup_indication) {
    TUP_IND_NOTHING = 0,
    TUP_IND_INCOMING_CALL = 1,
    TUP_IND_ADDRESS_COMPLETE = 2,
    TUP_IND_ANSWERED = 3,
    TUP_IND_HUNG_UP = 4,
    TUP_IND_CIRCUIT_FREED = 5,
    TUP_IND_TRY_ELSEWHERE = 6, /* of our own call; the circuit may still await release-guard, and is then free with indication 5 */
    TUP_IND_DISCARDED = 7, /* of the signal; not always "nothing changed": see RSC in state 5 */
    TUP_IND_ALERT_MAINTENANCE = 8,
    TUP_IND_INCOMING_CALL_TRY_OWN_ELSEWHERE = 9,
    TUP_IND_CALL_FAILED = 10
};

TUP_ENUM(tup_refusal) {
    TUP_ACCEPTED = 0,
    TUP_NO_SUCH_GROUP = 1,
    TUP_NO_SUCH_CIRCUIT = 2,
    TUP_NO_SUCH_EVENT = 3, /* of the writer: a field too large, or one that the heading does not have */
    TUP_FAR_BLOCKED = 4,
    TUP_COMMAND_NOT_ALLOWED = 5,
    TUP_TIMER_NOT_RUNNING = 6,
    TUP_WRONG_LENGTH = 7,
    TUP_WRONG_LABEL = 8,
    TUP_NO_SUCH_HEADING = 9,
    TUP_WRONG_ADDRESS = 10,
    TUP_OUTPUT_TOO_SHORT = 11,
    TUP_BAD_RECORD = 12,
    TUP_COUNTER_FULL = 13, /* the event would free the circuit, and the counter is at 2^64 - 1 */
    TUP_NO_CIRCUIT = 14,   /* of the choice: no circuit qualifies */
    TUP_SHORT_NUMBER = 17  /* of an IAM: an international number with too few signals; 15 and 16 are not in use */
};

/* Heading octets, H0 + 16 * H1 of Q.723. From SEC on they are the failures. */
TUP_ENUM(tup_heading) {
    TUP_NO_HEADING = 0, /* in an answer: nothing is sent there */
    TUP_IAM = 0x11,
    TUP_ACM = 0x14,
    TUP_ANC = 0x16,
    TUP_ANN = 0x26,
    TUP_CBK = 0x36,
    TUP_CLF = 0x46,
    TUP_RAN = 0x56,
    TUP_RLG = 0x17,
    TUP_BLO = 0x27,
    TUP_BLA = 0x37,
    TUP_UBL = 0x47,
    TUP_UBA = 0x57,
    TUP_RSC = 0x77,
    TUP_SEC = 0x15,
    TUP_CGC = 0x25,
    TUP_NNC = 0x35,
    TUP_ADI = 0x45,
    TUP_CFL = 0x55,
    TUP_SSB = 0x65,
    TUP_UNN = 0x75,
    TUP_LOS = 0x85,
    TUP_SST = 0x95
};

/* The kind of an event, and by it what its code and its detail are. */
TUP_ENUM(tup_kind) {
    TUP_SIGNAL = 1,  /* code: the heading; detail: the octet of an ACM, else 0 */
    TUP_COMMAND = 2, /* code: a tup_command; detail: as said there, else 0 */
    TUP_TIMER = 3    /* code: a tup_timer; detail: 0 */
};

TUP_ENUM(tup_command) {
    TUP_SEIZE = 1,
    TUP_RELEASE = 2,
    TUP_ADDRESS_COMPLETE = 3, /* detail 0 to 7, the bit worth 4 for subscriber free */
    TUP_ANSWER = 4,           /* detail 0 with charge, 1 without */
    TUP_CLEAR_BACK = 5,
    TUP_RE_ANSWER = 6,
    TUP_FAIL = 7, /* detail: a failure's heading */
    TUP_BLOCK = 8,
    TUP_UNBLOCK = 9,
    TUP_RESTART = 10 /* only on a quiet circuit, or where everything on its way there is gone */
};

TUP_ENUM(tup_timer) {
    TUP_TIMER_ADDRESS = 1,          /* 20 to 30 s */
    TUP_TIMER_ANSWER = 2,           /* answer or hang-up wait, the site's choice */
    TUP_TIMER_INCOMING_HANG_UP = 3, /* 20 to 40 s */
    TUP_TIMER_REPEAT = 4,           /* 4 to 15 s, and only on a quiet circuit */
    TUP_TIMER_MINUTE = 5,           /* 1 minute, and only on a quiet circuit; instead of TUP_TIMER_REPEAT if both are due */
    TUP_TIMER_BLOCK_REPEAT = 6      /* as TUP_TIMER_REPEAT */
};

/* One event on one circuit of the table. Taken, it changes that circuit's record alone, and the counter if it frees the circuit;
   refused, nothing. Order of refusals: 1, 2, 12, 3, then 5, 4 or 6, then 13. The answer is taken apart by the tup_answer_
   functions below; the rank is read in the table.
   But for 13, the answer depends on nothing in the table but that circuit's state and flags. So, where none is refused 13, events
   of different circuits may be given in any order: each gets the same answer, and the same states and flags are left. Events of one
   circuit keep their order. Ranks go by the order in which circuits are freed, and so does what tup_select chooses. */
uint64_t tup_step(uint32_t own, uint32_t far, uint8_t *table, size_t table_len, uint32_t cic, uint32_t kind, uint32_t code,
                  uint32_t detail);

/* Chooses the circuit for an outgoing call: Q.724 2.4, method 2. A circuit qualifies if it is idle and has no far block, that is,
   if TUP_SEIZE would be taken there; our own block does not bar it. Of the qualifying circuits that we control it is the one of
   the lowest rank, released longest ago; if there are none, of the others the one of the highest rank, released latest. Of equal
   ranks the lower circuit number goes first. Nothing is seized and nothing written: the choice is good until the next event on
   the table. Order of refusals: 1; 12 for a bad record anywhere in the table; 14 exactly if no circuit qualifies. The answer is
   taken apart by the tup_selected_ functions below. Of all calls this is the one whose time grows with the table. */
uint64_t tup_select(uint32_t own, uint32_t far, const uint8_t *table, size_t table_len);

/* Reads the message of len octets, from its label on, in a group of count circuits. The answer is 0 where it was read, else the
   refusal and the place in the message that it is about, taken apart by the tup_read_ functions below. Read, the first
   TUP_MESSAGE_OCTETS octets of out are its fields and the rest of out keeps its contents; refused, all of out does.
   Order of refusals: 1; 7 under six octets; 8; 9; 7 by the heading; 10 for no signals; 7 by the count; 10 by the codes; 17; 2; 11.
   17 is for an IAM whose nature of address, indicators % 4, is 3, and which has fewer than four address signals besides ST, unless
   the first of them is 11 or 12. Up to version 4.3 such an IAM was read. Up to 4.2 the answer was the refusal alone, in 32 bits. */
uint64_t tup_read(uint32_t own, uint32_t far, uint32_t count, const uint8_t *octets, size_t len, uint8_t *out, size_t out_len);

/* Writes a message. Fields that the heading does not have are 0 and the address empty. address_len is the count of address
   signals, one octet each. The circuit need not be below count, only below 4096. Octets of out beyond the message, and all of
   them on a refusal, keep their contents. Order of refusals: 1, 2, 9, 3, 10, 17, 11, where 17 is for the IAMs that tup_read refuses
   so; up to version 4.3 they were written. The answer is taken apart by the tup_written_ functions below. */
uint32_t tup_write(uint32_t own, uint32_t far, uint32_t count, uint32_t cic, uint32_t heading, uint32_t acm, uint32_t category,
                   uint32_t indicators, const uint8_t *address, size_t address_len, uint8_t *out, size_t out_len);

/* The answer of tup_step. On a refusal the indication and both headings are 0, and state and flags those of the record as it
   stands (0 for refusals 1 and 2, where there is none). */
static inline uint32_t tup_answer_refusal(uint64_t answer) { return TUP_CAST(uint32_t, answer & 255u); }
static inline uint32_t tup_answer_indication(uint64_t answer) { return TUP_CAST(uint32_t, answer >> 8 & 255u); }
static inline uint32_t tup_answer_state(uint64_t answer) { return TUP_CAST(uint32_t, answer >> 16 & 255u); }
static inline uint32_t tup_answer_flags(uint64_t answer) { return TUP_CAST(uint32_t, answer >> 24 & 255u); }
/* The headings sent, in their order; 0 for none. */
static inline uint32_t tup_answer_first(uint64_t answer) { return TUP_CAST(uint32_t, answer >> 32 & 255u); }
static inline uint32_t tup_answer_second(uint64_t answer) { return TUP_CAST(uint32_t, answer >> 40 & 255u); }

/* The answer of tup_select; circuit and count are 0 on a refusal. The count is of the records looked at: the whole table, unless a
   qualifying circuit of our own has rank 0. Then the first such circuit is the chosen one, and the count its number plus one. The
   search for bad records comes before, is always of the whole table, and is not counted. */
static inline uint32_t tup_selected_refusal(uint64_t answer) { return TUP_CAST(uint32_t, answer & 65535u); }
static inline uint32_t tup_selected_circuit(uint64_t answer) { return TUP_CAST(uint32_t, answer >> 16 & 65535u); }
static inline uint32_t tup_selected_looked(uint64_t answer) { return TUP_CAST(uint32_t, answer >> 32 & 65535u); }

/* The answer of tup_read; both are 0 where the message was read. The place is the octet that is wrong, counted from 0:
   - 8: 0 if DPC is wrong, else 1, where OPC begins; 9: 5, the heading; 2: 3, where the circuit begins;
   - 10: 8, the count, where it is 0; else the octet of the first address signal that is a spare code, or an ST before the last;
   - 17: 8, the count;
   - 7: no octet but the length that arrived, len itself, or 2^56 - 1 where it is more than that;
   - 1 and 11: 0, since the message is not at fault. */
static inline uint32_t tup_read_refusal(uint64_t answer) { return TUP_CAST(uint32_t, answer & 255u); }
static inline uint64_t tup_read_place(uint64_t answer) { return answer >> 8; }

/* The answer of tup_write; the length is 0 on a refusal. */
static inline uint32_t tup_written_refusal(uint32_t answer) { return answer & 255u; }
static inline uint32_t tup_written_length(uint32_t answer) { return answer >> 8 & 255u; }

/* Two of the fields that tup_read put into its output; the others are single octets at the places above. */
static inline uint32_t tup_message_circuit(const uint8_t *out)
{
    return TUP_CAST(uint32_t, out[TUP_MESSAGE_CIRCUIT]) | TUP_CAST(uint32_t, out[TUP_MESSAGE_CIRCUIT + 1]) << 8;
}
static inline uint32_t tup_message_indicators(const uint8_t *out)
{
    return TUP_CAST(uint32_t, out[TUP_MESSAGE_INDICATORS]) | TUP_CAST(uint32_t, out[TUP_MESSAGE_INDICATORS + 1]) << 8;
}

/* A circuit's record in a table that has the circuit. */
static inline uint32_t tup_record_state(const uint8_t *table, uint32_t circuit)
{
    return table[TUP_RECORD_AT(circuit) + TUP_RECORD_STATE];
}
static inline uint32_t tup_record_flags(const uint8_t *table, uint32_t circuit)
{
    return table[TUP_RECORD_AT(circuit) + TUP_RECORD_FLAGS];
}

/* Eight octets of a table, lowest first. */
static inline uint64_t tup_eight_octets(const uint8_t *octets)
{
    uint64_t number = 0;
    int i;
    for (i = 7; i >= 0; i--)
        number = number << 8 | octets[i];
    return number;
}
static inline uint64_t tup_counter(const uint8_t *table) { return tup_eight_octets(table); }
static inline uint64_t tup_record_rank(const uint8_t *table, uint32_t circuit)
{
    return tup_eight_octets(table + TUP_RECORD_AT(circuit) + TUP_RECORD_RANK);
}

/* The same fields as enums, so that a compiler's -Wswitch tells of a case that was forgotten. */
static inline enum tup_refusal tup_refusal_of_answer(uint64_t answer)
{
    return TUP_CAST(enum tup_refusal, tup_answer_refusal(answer));
}
static inline enum tup_indication tup_indication_of_answer(uint64_t answer)
{
    return TUP_CAST(enum tup_indication, tup_answer_indication(answer));
}
/* Beside refusal 12 this is a bad record's state, and may be none of the enum's. */
static inline enum tup_state tup_state_of_answer(uint64_t answer)
{
    return TUP_CAST(enum tup_state, tup_answer_state(answer));
}
static inline enum tup_heading tup_first_of_answer(uint64_t answer)
{
    return TUP_CAST(enum tup_heading, tup_answer_first(answer));
}
static inline enum tup_heading tup_second_of_answer(uint64_t answer)
{
    return TUP_CAST(enum tup_heading, tup_answer_second(answer));
}
static inline enum tup_refusal tup_refusal_of_selected(uint64_t answer)
{
    return TUP_CAST(enum tup_refusal, tup_selected_refusal(answer));
}
static inline enum tup_refusal tup_refusal_of_written(uint32_t answer)
{
    return TUP_CAST(enum tup_refusal, tup_written_refusal(answer));
}
static inline enum tup_refusal tup_refusal_of_read(uint64_t answer)
{
    return TUP_CAST(enum tup_refusal, tup_read_refusal(answer));
}
/* The heading that tup_read put into its output. */
static inline enum tup_heading tup_heading_of_message(const uint8_t *out)
{
    return TUP_CAST(enum tup_heading, out[TUP_MESSAGE_HEADING]);
}
/* Of a record that is not bad. */
static inline enum tup_state tup_state_of_record(const uint8_t *table, uint32_t circuit)
{
    return TUP_CAST(enum tup_state, tup_record_state(table, circuit));
}

/* Sets of timers: a bit for each, worth 1 << timer. */
static inline uint32_t tup_timer_bit(uint32_t timer) { return timer < 32 ? TUP_CAST(uint32_t, 1) << timer : 0; }

/* Which timers run while a circuit has this state and these flags: exactly those that tup_step would not refuse 6. After each event
   that was taken, a host starts those of them that were not running, stops all others, and lets the rest run on. */
static inline uint32_t tup_timers(uint32_t state, uint32_t flags)
{
    static const uint8_t by_state[] = {
        0,                                               /* idle */
        1 << TUP_TIMER_ADDRESS,                          /* outgoing seized */
        1 << TUP_TIMER_ANSWER,                           /* proceeding */
        0,                                               /* answered */
        1 << TUP_TIMER_ANSWER,                           /* hung up */
        1 << TUP_TIMER_REPEAT | 1 << TUP_TIMER_MINUTE,   /* awaiting release-guard */
        0, 0, 0, 0,                                      /* incoming seized, proceeding, subscriber free, answered */
        1 << TUP_TIMER_INCOMING_HANG_UP,                 /* hung up */
        1 << TUP_TIMER_REPEAT | 1 << TUP_TIMER_MINUTE,   /* failed */
        1 << TUP_TIMER_REPEAT | 1 << TUP_TIMER_MINUTE    /* awaiting reset */
    };
    uint32_t timers = state < sizeof by_state ? by_state[state] : 0u;
    if ((flags & (TUP_AWAITING_BLA | TUP_AWAITING_UBA)) != 0)
        timers |= tup_timer_bit(TUP_TIMER_BLOCK_REPEAT);
    return timers;
}

/* Of timers that are due on a circuit, those that may run out now: 4, 5 and 6 only if it is quiet there, and 4 not beside 5. The
   others stay due. The host gives them one after the other, and asks anew after each: what that one sent ended the quiet. */
static inline uint32_t tup_timers_now(uint32_t due, int quiet)
{
    uint32_t repeat = tup_timer_bit(TUP_TIMER_REPEAT), minute = tup_timer_bit(TUP_TIMER_MINUTE);
    if (!quiet)
        return due & ~(repeat | minute | tup_timer_bit(TUP_TIMER_BLOCK_REPEAT));
    return (due & minute) != 0 ? due & ~repeat : due;
}

/* Whether the end with code `own` controls the circuit: at a dual seizure there it goes on and the other end gives way. The end
   with the higher code controls the even circuits, the other one the odd ones. */
static inline int tup_controls(uint32_t own, uint32_t far, uint32_t circuit) { return (own > far) == (circuit % 2 == 0); }

/* How many circuits a table of this length has; 0 for a length that is refused 1. */
static inline uint32_t tup_circuits(size_t table_len)
{
    size_t octets = table_len < TUP_COUNTER_OCTETS ? 0 : table_len - TUP_COUNTER_OCTETS;
    if (octets % TUP_RECORD_OCTETS != 0 || octets / TUP_RECORD_OCTETS > TUP_CIRCUITS_MAX)
        return 0;
    return TUP_CAST(uint32_t, octets / TUP_RECORD_OCTETS);
}

/* Whether a circuit's record, in a table that has the circuit, is one that events refuse 12: a state above 12; flags above 15, 4
   without 1, or 8 with 1; in state 12 any flag but 2. */
static inline int tup_record_bad(const uint8_t *table, uint32_t circuit)
{
    uint32_t state = tup_record_state(table, circuit), flags = tup_record_flags(table, circuit);
    int own_block = (flags & TUP_OWN_BLOCK) != 0;
    if (state > TUP_AWAITING_RESET || flags > 15)
        return 1;
    if (state == TUP_AWAITING_RESET)
        return (flags & ~TUP_CAST(uint32_t, TUP_FAR_BLOCK)) != 0;
    return own_block ? (flags & TUP_AWAITING_UBA) != 0 : (flags & TUP_AWAITING_BLA) != 0;
}

/* The first circuit from `from` on whose record is bad; tup_circuits(table_len) if there is none. */
static inline uint32_t tup_bad_record(const uint8_t *table, size_t table_len, uint32_t from)
{
    uint32_t circuits = tup_circuits(table_len), circuit = from;
    while (circuit < circuits && !tup_record_bad(table, circuit))
        circuit++;
    return circuit < circuits ? circuit : circuits;
}

/* Writes the table with which a host comes up: counter and ranks 0, and every circuit awaiting reset, so that none can be chosen or
   seized before TUP_RESTART was given there and the far end has answered. */
static inline void tup_await_reset(uint8_t *table, size_t table_len)
{
    uint32_t circuits = tup_circuits(table_len), circuit;
    size_t i;
    for (i = 0; i < table_len; i++)
        table[i] = 0;
    for (circuit = 0; circuit < circuits; circuit++)
        table[TUP_RECORD_AT(circuit) + TUP_RECORD_STATE] = TUP_AWAITING_RESET;
}

#ifdef __cplusplus
}
#endif

#endif
