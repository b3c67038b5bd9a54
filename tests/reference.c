/* The rules once more, written from the project's documents 01 and 02 alone: events on a record, release ranks and the choice of a
   circuit, messages on the link, the replay of a trace, the reading of a file of messages. docs/RULES.md has the same rules in
   words and tables. */
#include "reference.h"

#include <stdlib.h>
#include <string.h>

enum { POINT_CODES = 16384, CIRCUITS = 4096 };

enum { IDLE, SEIZED, PROCEEDING, ANSWERED, HUNG_UP, AWAITING_GUARD, IN_SEIZED, IN_PROCEEDING, IN_FREE, IN_ANSWERED, IN_HUNG_UP,
       IN_FAILED, AWAITING_RESET };

enum { OWN = 1, FAR = 2, AWAITING_BLA = 4, AWAITING_UBA = 8 };

enum { IAM = 0x11, ACM = 0x14, ANC = 0x16, ANN = 0x26, CBK = 0x36, CLF = 0x46, RAN = 0x56, RLG = 0x17, BLO = 0x27, BLA = 0x37,
       UBL = 0x47, UBA = 0x57, RSC = 0x77 };

enum { SEC = 0x15, CGC = 0x25, NNC = 0x35, ADI = 0x45, CFL = 0x55, SSB = 0x65, UNN = 0x75, LOS = 0x85, SST = 0x95 };

/* The packed answer of a step, from its lowest octet: refusal, indication, state, flags, first and second heading. */
typedef uint64_t answer;

/* Above those six octets, and never given out: the row takes the circuit from another state to idle. */
#define FREES ((answer)1 << 48)

static answer goes(unsigned state, unsigned flags, unsigned indication, unsigned first, unsigned second)
{
    return (answer)(indication << 8 | state << 16 | flags << 24) | (answer)(first | second << 8) << 32;
}

static answer refused(unsigned number, unsigned state, unsigned flags)
{
    return number | goes(state, flags, 0, 0, 0);
}

static answer discarded(unsigned state, unsigned flags)
{
    return goes(state, flags, 7, 0, 0);
}

static int group_good(uint32_t own, uint32_t far, size_t count)
{
    return own < POINT_CODES && far < POINT_CODES && own != far && count >= 1 && count <= CIRCUITS;
}

/* The flags allowed, a bit for each number that they may make: 4 needs 1, 8 needs 1 absent; in state 12 only 2 may be set. As bits
   they are tested at once, which tells where a whole table is judged. */
enum { ALLOWED = 1 << 0 | 1 << 1 | 1 << 2 | 1 << 3 | 1 << 5 | 1 << 7 | 1 << 8 | 1 << 10, ALLOWED_IN_12 = 1 << 0 | 1 << 2 };

static int record_good(unsigned state, unsigned flags)
{
    return state <= AWAITING_RESET && flags <= 15 && ((state == AWAITING_RESET ? ALLOWED_IN_12 : ALLOWED) >> flags & 1);
}

static int is_failure(uint32_t heading)
{
    switch (heading) {
    case SEC: case CGC: case NNC: case ADI: case CFL: case SSB: case UNN: case LOS: case SST:
        return 1;
    default:
        return 0;
    }
}

static int is_heading(uint32_t heading)
{
    switch (heading) {
    case IAM: case ACM: case ANC: case ANN: case CBK: case CLF: case RAN: case RLG:
    case BLO: case BLA: case UBL: case UBA: case RSC:
        return 1;
    default:
        return is_failure(heading);
    }
}

/* Signals that arrive. */

static answer on_iam(unsigned state, unsigned flags, int controls)
{
    if (state == IDLE && (flags & OWN))
        return goes(IDLE, flags | AWAITING_BLA, 7, BLO, 0);
    if (state == IDLE)
        return goes(IN_SEIZED, flags, 1, 0, 0);
    if (state == SEIZED && !controls)
        return goes(IN_SEIZED, flags, 9, 0, 0);
    if (state == AWAITING_GUARD && !controls)
        return goes(IN_SEIZED, flags, 1, 0, 0);
    return discarded(state, flags);
}

static answer on_clf(unsigned state, unsigned flags, int controls)
{
    if (state == IDLE)
        return goes(IDLE, flags, 0, RLG, 0);
    if (state == SEIZED && !controls)
        return FREES | goes(IDLE, flags, 6, RLG, 0);
    if (state >= IN_SEIZED || (state == AWAITING_GUARD && !controls))
        return FREES | goes(IDLE, flags, 5, RLG, 0);
    return discarded(state, flags);
}

/* A signal behind the BLO that a reset with own block sends first. */
static answer reset_goes(unsigned state, unsigned flags, unsigned indication, unsigned heading)
{
    if (flags & OWN)
        return goes(state, flags | AWAITING_BLA, indication, BLO, heading);
    return goes(state, flags, indication, heading, 0);
}

static answer on_rsc(unsigned state, unsigned flags)
{
    flags &= ~(unsigned)FAR;
    switch (state) {
    case IDLE:
        return reset_goes(IDLE, flags, 0, RLG);
    case SEIZED:
        return reset_goes(AWAITING_GUARD, flags, 6, CLF);
    case PROCEEDING: case ANSWERED: case HUNG_UP:
        return reset_goes(AWAITING_GUARD, flags, 10, CLF);
    case AWAITING_GUARD:
        return reset_goes(AWAITING_GUARD, flags, 7, 0);
    case AWAITING_RESET:
        return reset_goes(AWAITING_RESET, flags, 0, RLG);
    default:
        return FREES | reset_goes(IDLE, flags, 5, RLG);
    }
}

static answer on_blo(unsigned state, unsigned flags)
{
    if (state == SEIZED)
        return goes(AWAITING_GUARD, flags | FAR, 6, BLA, CLF);
    return goes(state, flags | FAR, 0, BLA, 0);
}

static answer on_acknowledgement(unsigned state, unsigned flags, unsigned awaited)
{
    return flags & awaited ? goes(state, flags & ~awaited, 0, 0, 0) : discarded(state, flags);
}

/* An answer, clear-back, re-answer or release-guard signal that has no place: before address complete it clears our call. */
static answer out_of_place(unsigned state, unsigned flags)
{
    return state == SEIZED ? goes(AWAITING_GUARD, flags, 6, CLF, 0) : discarded(state, flags);
}

static answer on_rlg(unsigned state, unsigned flags)
{
    if (state == AWAITING_GUARD || state == AWAITING_RESET)
        return FREES | goes(IDLE, flags, 5, 0, 0);
    return out_of_place(state, flags);
}

static answer on_signal(uint32_t heading, uint32_t detail, unsigned state, unsigned flags, int controls)
{
    if (detail != 0 && (heading != ACM || detail > 255))
        return refused(3, state, flags);
    switch (heading) {
    case IAM:
        return on_iam(state, flags, controls);
    case ACM:
        return state == SEIZED ? goes(PROCEEDING, flags, 2, 0, 0) : discarded(state, flags);
    case ANC: case ANN:
        return state == PROCEEDING ? goes(ANSWERED, flags, 3, 0, 0) : out_of_place(state, flags);
    case CBK:
        return state == ANSWERED ? goes(HUNG_UP, flags, 4, 0, 0) : out_of_place(state, flags);
    case RAN:
        return state == HUNG_UP ? goes(ANSWERED, flags, 3, 0, 0) : out_of_place(state, flags);
    case CLF:
        return on_clf(state, flags, controls);
    case RLG:
        return on_rlg(state, flags);
    case RSC:
        return on_rsc(state, flags);
    case BLO:
        return on_blo(state, flags);
    case UBL:
        return goes(state, flags & ~(unsigned)FAR, 0, UBA, 0);
    case BLA:
        return on_acknowledgement(state, flags, AWAITING_BLA);
    case UBA:
        return on_acknowledgement(state, flags, AWAITING_UBA);
    default:
        break;
    }
    if (!is_failure(heading))
        return refused(3, state, flags);
    return state >= SEIZED && state <= HUNG_UP ? goes(AWAITING_GUARD, flags, 10, CLF, 0) : discarded(state, flags);
}

/* Commands and timers. */

static int command_listed(uint32_t command, uint32_t detail)
{
    switch (command) {
    case 3:
        return detail <= 7;
    case 4:
        return detail <= 1;
    case 7:
        return is_failure(detail);
    default:
        return command >= 1 && command <= 10 && detail == 0;
    }
}

/* What most commands do: where allowed, one signal is sent and the flags stay. */
static answer if_allowed(int allowed, unsigned heading, unsigned next, unsigned state, unsigned flags)
{
    return allowed ? goes(next, flags, 0, heading, 0) : refused(5, state, flags);
}

static answer on_seize(unsigned state, unsigned flags)
{
    if (state == IDLE && (flags & FAR))
        return refused(4, state, flags);
    return if_allowed(state == IDLE, IAM, SEIZED, state, flags);
}

static int fail_allowed(unsigned state, uint32_t failure)
{
    return state == IN_SEIZED || (state == IN_PROCEEDING && (failure == CFL || failure == NNC || failure == CGC));
}

static answer on_block(unsigned state, unsigned flags)
{
    if ((flags & OWN) || state == AWAITING_RESET)
        return refused(5, state, flags);
    return goes(state, (flags | OWN | AWAITING_BLA) & ~(unsigned)AWAITING_UBA, 0, BLO, 0);
}

static answer on_unblock(unsigned state, unsigned flags)
{
    if (!(flags & OWN))
        return refused(5, state, flags);
    return goes(state, (flags | AWAITING_UBA) & ~(unsigned)(OWN | AWAITING_BLA), 0, UBL, 0);
}

static answer on_command(uint32_t command, uint32_t detail, unsigned state, unsigned flags)
{
    if (!command_listed(command, detail))
        return refused(3, state, flags);
    switch (command) {
    case 1:
        return on_seize(state, flags);
    case 2:
        return if_allowed(state >= SEIZED && state <= HUNG_UP, CLF, AWAITING_GUARD, state, flags);
    case 3:
        return if_allowed(state == IN_SEIZED, ACM, detail & 4 ? IN_FREE : IN_PROCEEDING, state, flags);
    case 4:
        return if_allowed(state == IN_PROCEEDING || state == IN_FREE, detail ? ANN : ANC, IN_ANSWERED, state, flags);
    case 5:
        return if_allowed(state == IN_ANSWERED, CBK, IN_HUNG_UP, state, flags);
    case 6:
        return if_allowed(state == IN_HUNG_UP, RAN, IN_ANSWERED, state, flags);
    case 7:
        return if_allowed(fail_allowed(state, detail), detail, IN_FAILED, state, flags);
    case 8:
        return on_block(state, flags);
    case 9:
        return on_unblock(state, flags);
    default:
        return goes(AWAITING_RESET, 0, 0, RSC, 0);
    }
}

static answer on_repeat(unsigned state, unsigned flags)
{
    switch (state) {
    case AWAITING_GUARD:
        return goes(state, flags, 0, CLF, 0);
    case IN_FAILED:
        return goes(state, flags, 0, CFL, 0);
    case AWAITING_RESET:
        return goes(state, flags, 0, RSC, 0);
    default:
        return refused(6, state, flags);
    }
}

static answer on_minute(unsigned state, unsigned flags)
{
    if (state == AWAITING_GUARD || state == IN_FAILED)
        return goes(AWAITING_RESET, 0, 8, RSC, 0);
    return state == AWAITING_RESET ? goes(state, flags, 8, RSC, 0) : refused(6, state, flags);
}

static answer on_block_repeat(unsigned state, unsigned flags)
{
    if (flags & AWAITING_BLA)
        return goes(state, flags, 0, BLO, 0);
    return flags & AWAITING_UBA ? goes(state, flags, 0, UBL, 0) : refused(6, state, flags);
}

static answer on_timer(uint32_t timer, uint32_t detail, unsigned state, unsigned flags)
{
    if (timer < 1 || timer > 6 || detail != 0)
        return refused(3, state, flags);
    switch (timer) {
    case 1:
        return state == SEIZED ? goes(AWAITING_GUARD, flags, 10, CLF, 0) : refused(6, state, flags);
    case 2:
        return state == PROCEEDING || state == HUNG_UP ? goes(AWAITING_GUARD, flags, 10, CLF, 0) : refused(6, state, flags);
    case 3:
        return state == IN_HUNG_UP ? goes(IN_FAILED, flags, 0, CFL, 0) : refused(6, state, flags);
    case 4:
        return on_repeat(state, flags);
    case 5:
        return on_minute(state, flags);
    default:
        return on_block_repeat(state, flags);
    }
}

static answer on_event(uint32_t kind, uint32_t code, uint32_t detail, unsigned state, unsigned flags, int controls)
{
    if (!record_good(state, flags))
        return refused(12, state, flags);
    switch (kind) {
    case 1:
        return on_signal(code, detail, state, flags, controls);
    case 2:
        return on_command(code, detail, state, flags);
    case 3:
        return on_timer(code, detail, state, flags);
    default:
        return refused(3, state, flags);
    }
}

/* Release ranks. */

static uint32_t two(const uint8_t *octets)
{
    return (uint32_t)octets[0] | (uint32_t)octets[1] << 8;
}

static uint64_t eight(const uint8_t *octets)
{
    uint64_t low = two(octets) | two(octets + 2) << 16, high = two(octets + 4) | two(octets + 6) << 16;
    return low | high << 32;
}

static void put_eight(uint8_t *octets, uint64_t number)
{
    octets[0] = (uint8_t)number, octets[1] = (uint8_t)(number >> 8);
    octets[2] = (uint8_t)(number >> 16), octets[3] = (uint8_t)(number >> 24);
    octets[4] = (uint8_t)(number >> 32), octets[5] = (uint8_t)(number >> 40);
    octets[6] = (uint8_t)(number >> 48), octets[7] = (uint8_t)(number >> 56);
}

/* The next number into the counter and into the record; 0 where there is none. */
static int give_rank(uint8_t *counter, uint8_t *record)
{
    uint64_t next = eight(counter) + 1;
    if (next == 0)
        return 0;
    put_eight(counter, next);
    put_eight(record + 2, next);
    return 1;
}

/* How many circuits a table of this length has: 0 for a length of no table. */
static size_t circuits_of(size_t table_len)
{
    if (table_len < REF_COUNTER_OCTETS || (table_len - REF_COUNTER_OCTETS) % REF_RECORD_OCTETS != 0)
        return 0;
    return (table_len - REF_COUNTER_OCTETS) / REF_RECORD_OCTETS;
}

uint64_t ref_step(uint32_t own, uint32_t far, uint8_t *table, size_t table_len, uint32_t cic, uint32_t kind, uint32_t code,
                  uint32_t detail)
{
    size_t count = circuits_of(table_len);
    if (!group_good(own, far, count))
        return 1;
    if (cic >= count)
        return 2;
    uint8_t *record = table + REF_COUNTER_OCTETS + (size_t)cic * REF_RECORD_OCTETS;
    int controls = (own > far) == (cic % 2 == 0);
    answer given = on_event(kind, code, detail, record[0], record[1], controls);
    if ((given & FREES) && !give_rank(table, record))
        return refused(13, record[0], record[1]);
    record[0] = (uint8_t)(given >> 16);
    record[1] = (uint8_t)(given >> 24);
    return given & ~FREES;
}

/* The choice of a circuit. */

static int all_good(const uint8_t *records, size_t count)
{
    for (size_t i = 0; i < count; i++)
        if (!record_good(records[i * REF_RECORD_OCTETS], records[i * REF_RECORD_OCTETS + 1]))
            return 0;
    return 1;
}

static int qualifies(const uint8_t *record)
{
    return record[0] == IDLE && !(record[1] & FAR);
}

/* Every second circuit from the first on is one end's. The qualifying one of lowest rank, `count` for none; a rank of 0, below
   which there is none, ends the search. */
static size_t longest_free(const uint8_t *records, size_t count, size_t first)
{
    size_t chosen = count;
    uint64_t lowest = UINT64_MAX;
    for (size_t i = first; i < count && lowest > 0; i += 2) {
        const uint8_t *record = records + i * REF_RECORD_OCTETS;
        if (!qualifies(record))
            continue;
        uint64_t rank = eight(record + 2);
        if (chosen == count || rank < lowest)
            chosen = i, lowest = rank;
    }
    return chosen;
}

static size_t latest_freed(const uint8_t *records, size_t count, size_t first)
{
    size_t chosen = count;
    uint64_t highest = 0;
    for (size_t i = first; i < count; i += 2) {
        const uint8_t *record = records + i * REF_RECORD_OCTETS;
        if (!qualifies(record))
            continue;
        uint64_t rank = eight(record + 2);
        if (chosen == count || rank > highest)
            chosen = i, highest = rank;
    }
    return chosen;
}

static uint64_t selected(size_t circuit, size_t looked)
{
    return (uint64_t)circuit << 16 | (uint64_t)looked << 32;
}

uint64_t ref_select(uint32_t own, uint32_t far, const uint8_t *table, size_t table_len)
{
    size_t count = circuits_of(table_len);
    if (!group_good(own, far, count))
        return 1;
    const uint8_t *records = table + REF_COUNTER_OCTETS;
    if (!all_good(records, count))
        return 12;
    size_t first_of_ours = own > far ? 0 : 1;
    size_t ours = longest_free(records, count, first_of_ours);
    if (ours < count)
        return selected(ours, eight(records + ours * REF_RECORD_OCTETS + 2) == 0 ? ours + 1 : count);
    size_t theirs = latest_freed(records, count, 1 - first_of_ours);
    return theirs < count ? selected(theirs, count) : 14;
}

/* Messages on the link. */

enum { LABEL = 5, CIRCUIT = 3, HEADING = 5, FIXED = 6, INDICATORS = 7, COUNT = 8, IAM_FIXED = 9, SIGNALS_MAX = 15, ST = 15 };

static size_t iam_length(size_t count)
{
    return IAM_FIXED + (count + 1) / 2;
}

static unsigned nibble(const uint8_t *octets, size_t i)
{
    unsigned octet = octets[IAM_FIXED + i / 2];
    return i % 2 == 0 ? octet & 15 : octet >> 4;
}

static int code_good(unsigned code, int last)
{
    return code <= 9 || code == 11 || code == 12 || (code == ST && last);
}

/* Whether a number has its country code, by the nature of address in the two lowest indicators. */
static int international(uint32_t indicators)
{
    return (indicators & 3) == 3;
}

/* Whether such a number is too short for an IAM, by its first signal, its last one and how many there are. Its codes are good, so
   that only the last signal can be ST. Calls to an operator begin with 11 or 12 and may have any length. */
static int too_short(unsigned first, unsigned last, size_t count)
{
    return first != 11 && first != 12 && count - (last == ST) < 4;
}

/* A message refused: the number in the lowest octet, and in the seven above it which octet of the message was wrong. */
static uint64_t wrong_at(unsigned octet, unsigned number)
{
    return number | (uint64_t)octet << 8;
}

/* With a wrong length no octet is to blame. The length is told instead, as far as seven octets hold it. */
static uint64_t wrong_length(uint64_t len)
{
    return len >> 56 == 0 ? 7 | len << 8 : ~(uint64_t)255 | 7;
}

/* Which end is wrong; 0 where both are right. A label with two wrong ends is told by the first of them. */
static uint64_t label_refusal(uint64_t label, uint32_t own, uint32_t far)
{
    if (label % POINT_CODES != own)
        return wrong_at(0, 8);
    return (label >> 14) % POINT_CODES == far ? 0 : wrong_at(1, 8);
}

/* The refusal of an IAM by what stands behind its heading; 0 for none. */
static uint64_t iam_refusal(const uint8_t *octets, size_t len)
{
    if (len < IAM_FIXED)
        return wrong_length(len);
    unsigned count = octets[COUNT] >> 4;
    if (count == 0)
        return wrong_at(COUNT, 10);
    if (len != iam_length(count))
        return wrong_length(len);
    for (unsigned i = 0; i < count; i++)
        if (!code_good(nibble(octets, i), i + 1 == count))
            return wrong_at(IAM_FIXED + i / 2, 10);
    if (international(octets[INDICATORS]) && too_short(nibble(octets, 0), nibble(octets, count - 1), count))
        return wrong_at(COUNT, 17);
    return 0;
}

static uint64_t body_refusal(const uint8_t *octets, size_t len)
{
    if (octets[HEADING] == IAM)
        return iam_refusal(octets, len);
    return len == (octets[HEADING] == ACM ? FIXED + 1 : FIXED) ? 0 : wrong_length(len);
}

static void put_fields(const uint8_t *octets, uint32_t cic, uint8_t *out)
{
    memset(out, 0, REF_MESSAGE_OCTETS);
    out[0] = (uint8_t)cic;
    out[1] = (uint8_t)(cic >> 8);
    out[2] = octets[HEADING];
    if (octets[HEADING] == ACM)
        out[3] = octets[6] & 0x3F;
    if (octets[HEADING] != IAM)
        return;
    out[4] = octets[6] & 0x3F;
    out[5] = octets[INDICATORS];
    out[6] = octets[COUNT] & 0x07;
    out[7] = octets[COUNT] >> 4;
    for (size_t i = 0; i < out[7]; i++)
        out[8 + i] = (uint8_t)nibble(octets, i);
}

uint64_t ref_read(uint32_t own, uint32_t far, uint32_t count, const uint8_t *octets, size_t len, uint8_t *out, size_t out_len)
{
    if (!group_good(own, far, count))
        return 1;
    if (len < FIXED)
        return wrong_length(len);
    uint64_t label = 0, refusal;
    for (int i = LABEL - 1; i >= 0; i--)
        label = label << 8 | octets[i];
    if ((refusal = label_refusal(label, own, far)) != 0)
        return refusal;
    if (!is_heading(octets[HEADING]))
        return wrong_at(HEADING, 9);
    if ((refusal = body_refusal(octets, len)) != 0)
        return refusal;
    uint32_t cic = (uint32_t)(label >> 28);
    if (cic >= count)
        return wrong_at(CIRCUIT, 2);
    if (out_len < REF_MESSAGE_OCTETS)
        return 11;
    put_fields(octets, cic, out);
    return 0;
}

/* A field that the heading does not have is one of no width: it holds 0 only. */
static int fields_fit(uint32_t heading, uint32_t acm, uint32_t category, uint32_t indicators, const uint8_t *address,
                      size_t address_len)
{
    if (acm > (heading == ACM ? 63u : 0u))
        return 0;
    if (heading != IAM)
        return category == 0 && indicators == 0 && address_len == 0;
    if (category > 63 || indicators > 2047)
        return 0;
    for (size_t i = 0; i < address_len; i++)
        if (address[i] > 15)
            return 0;
    return 1;
}

static int address_good(const uint8_t *address, size_t address_len)
{
    if (address_len < 1 || address_len > SIGNALS_MAX)
        return 0;
    for (size_t i = 0; i < address_len; i++)
        if (!code_good(address[i], i + 1 == address_len))
            return 0;
    return 1;
}

static void put_iam(uint32_t category, uint32_t indicators, const uint8_t *address, size_t address_len, uint8_t *out)
{
    out[6] = (uint8_t)category;
    out[INDICATORS] = (uint8_t)indicators;
    out[COUNT] = (uint8_t)(indicators >> 8 | address_len << 4);
    for (size_t i = 0; i < address_len; i += 2) {
        unsigned later = i + 1 < address_len ? address[i + 1] : 0;
        out[IAM_FIXED + i / 2] = (uint8_t)(address[i] | later << 4);
    }
}

uint32_t ref_write(uint32_t own, uint32_t far, uint32_t count, uint32_t cic, uint32_t heading, uint32_t acm, uint32_t category,
                   uint32_t indicators, const uint8_t *address, size_t address_len, uint8_t *out, size_t out_len)
{
    if (!group_good(own, far, count))
        return 1;
    if (cic >= CIRCUITS)
        return 2;
    if (!is_heading(heading))
        return 9;
    if (!fields_fit(heading, acm, category, indicators, address, address_len))
        return 3;
    if (heading == IAM && !address_good(address, address_len))
        return 10;
    if (heading == IAM && international(indicators) && too_short(address[0], address[address_len - 1], address_len))
        return 17;
    size_t length = heading == IAM ? iam_length(address_len) : heading == ACM ? FIXED + 1 : FIXED;
    if (out_len < length)
        return 11;
    uint64_t label = (uint64_t)far | (uint64_t)own << 14 | (uint64_t)cic << 28;
    for (int i = 0; i < LABEL; i++)
        out[i] = (uint8_t)(label >> 8 * i);
    out[HEADING] = (uint8_t)heading;
    if (heading == ACM)
        out[6] = (uint8_t)acm;
    if (heading == IAM)
        put_iam(category, indicators, address, address_len, out);
    return (uint32_t)length << 8;
}

/* The trace and its replay. */

enum { GROUP_OCTETS = 7 };

/* Octets of a record of this kind, its kind included; 0 where no event has it. */
static size_t event_octets(unsigned kind)
{
    return kind == 1 || kind == 2 ? 5 : kind == 3 ? 4 : 0;
}

/* A number and the character behind it. */
static char *put_number(char *at, uint64_t number, char behind)
{
    char digits[20];
    size_t count = 0;
    do {
        digits[count++] = (char)('0' + number % 10);
        number /= 10;
    } while (number != 0);
    while (count > 0)
        *at++ = digits[--count];
    *at++ = behind;
    return at;
}

static char *put_heading(char *at, unsigned heading)
{
    *at++ = "0123456789abcdef"[heading >> 4];
    *at++ = "0123456789abcdef"[heading & 15];
    return at;
}

static void put_line(uint64_t ordinal, uint32_t cic, answer given, FILE *out)
{
    char line[64], *at = put_number(line, ordinal, ' ');
    at = put_number(at, cic, ' ');
    at = put_number(at, given & 255, ' ');
    if ((given & 255) == 2) {
        memcpy(at, "- - ", 4);
        at += 4;
    } else {
        at = put_number(at, given >> 16 & 255, ' ');
        at = put_number(at, given >> 24 & 255, ' ');
    }
    at = put_number(at, given >> 8 & 255, ' ');
    unsigned first = given >> 32 & 255, second = given >> 40 & 255;
    if (first == 0)
        *at++ = '-';
    else
        at = put_heading(at, first);
    if (second != 0) {
        *at++ = ',';
        at = put_heading(at, second);
    }
    *at++ = '\n';
    fwrite(line, 1, (size_t)(at - line), out);
}

static void replay_events(uint32_t own, uint32_t far, uint32_t count, const uint8_t *events, size_t len, FILE *out)
{
    uint8_t table[REF_COUNTER_OCTETS + CIRCUITS * REF_RECORD_OCTETS] = {0};
    size_t table_len = REF_COUNTER_OCTETS + (size_t)count * REF_RECORD_OCTETS, size;
    uint64_t ordinal = 1;
    for (; len > 0; ordinal++, events += size, len -= size) {
        size = event_octets(events[0]);
        if (size == 0 || len < size) {
            fprintf(out, "cut %llu\n", (unsigned long long)ordinal);
            return;
        }
        uint32_t cic = two(events + 1), detail = events[0] == 3 ? 0 : events[4];
        answer given = ref_step(own, far, table, table_len, cic, events[0], events[3], detail);
        put_line(ordinal, cic, given, out);
    }
    fprintf(out, "end %llu\n", (unsigned long long)(ordinal - 1));
}

/* The line of the group that a file begins with; 0 where it begins with no good one. */
static int put_group(const uint8_t *file, size_t len, FILE *out)
{
    if (len < GROUP_OCTETS || file[0] != 0 || !group_good(two(file + 1), two(file + 3), two(file + 5))) {
        fputs("bad group\n", out);
        return 0;
    }
    fprintf(out, "own %u far %u circuits %u\n", two(file + 1), two(file + 3), two(file + 5));
    return 1;
}

void ref_replay(const uint8_t *trace, size_t len, FILE *out)
{
    if (put_group(trace, len, out))
        replay_events(two(trace + 1), two(trace + 3), two(trace + 5), trace + GROUP_OCTETS, len - GROUP_OCTETS, out);
}

/* A file of messages. */

static char *put_message_fields(char *at, const uint8_t *fields)
{
    if (fields[2] == ACM)
        return put_number(at, fields[3], '\n');
    if (fields[2] == IAM) {
        at = put_number(at, fields[4], ',');
        at = put_number(at, two(fields + 5), ',');
        for (unsigned i = 0; i < fields[7]; i++)
            *at++ = "0123456789abcdef"[fields[8 + i]];
    } else
        *at++ = '-';
    *at++ = '\n';
    return at;
}

static void put_message(uint64_t ordinal, uint64_t answer, const uint8_t *fields, FILE *out)
{
    char line[96], *at = put_number(line, ordinal, ' ');
    at = put_number(at, answer & 255, ' ');
    at = put_number(at, answer >> 8, ' ');
    if (answer != 0) {
        memcpy(at, "- - -\n", 6);
        at += 6;
    } else {
        at = put_heading(put_number(at, two(fields), ' '), fields[2]);
        *at++ = ' ';
        at = put_message_fields(at, fields);
    }
    fwrite(line, 1, (size_t)(at - line), out);
}

void ref_messages(const uint8_t *file, size_t len, FILE *out)
{
    if (!put_group(file, len, out))
        return;
    uint64_t ordinal = 1;
    size_t at = GROUP_OCTETS;
    for (; at < len && len - at > file[at]; at += 1 + (size_t)file[at], ordinal++) {
        uint8_t fields[REF_MESSAGE_OCTETS];
        uint64_t answer = ref_read(two(file + 1), two(file + 3), two(file + 5), file + at + 1, file[at], fields, sizeof fields);
        put_message(ordinal, answer, fields, out);
    }
    if (at < len)
        fprintf(out, "cut %llu\n", (unsigned long long)ordinal);
    else
        fprintf(out, "end %llu\n", (unsigned long long)(ordinal - 1));
}

int ref_main(void (*print)(const uint8_t *file, size_t len, FILE *out))
{
    size_t len = 0, room = 1 << 20;
    uint8_t *file = malloc(room);
    while (file != NULL) {
        size_t got = fread(file + len, 1, room - len, stdin);
        if (got == 0)
            break;
        len += got;
        if (len == room)
            file = realloc(file, room *= 2);
    }
    if (file == NULL)
        return 1;
    print(file, len, stdout);
    free(file);
    return fflush(stdout) == 0 ? 0 : 1;
}
