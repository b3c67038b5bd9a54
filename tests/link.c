/* tup_read and tup_write against the reference: every heading, length and count; every code in every place; every small address
   with every nature; every field beyond its width; every octet of every format with every other value; random and damaged
   messages; and both round trips. The answer is compared whole, of a refused message its place too. Messages and addresses are lent
   read-only, every slice lies at the edge of an unreadable stretch, and every octet of an output and of what lies beside it is
   compared. */
#include "harness.h"
#include "reference.h"
#include "tup.h"

#include <stdio.h>
#include <string.h>

enum { LENGTHS = 21, OUTPUT = 64 };

struct message {
    uint32_t own, far, count, cic, heading, acm, category, indicators;
    uint8_t address[LENGTHS];
    size_t address_len;
};

static struct message now;
static uint8_t octets_now[LENGTHS];
static size_t len_now, out_len_now;
static int reading;
static struct room input, output;
static unsigned long long reads, writes, read_well, written_well;
static unsigned long long seen[256][LENGTHS]; /* how often a refusal was given with a place */
static unsigned long long unwritten[256];     /* how often the writer gave a refusal, 0 included */

static void print_octets(const char *name, const uint8_t *octets, size_t len)
{
    printf(" %s", name);
    for (size_t i = 0; i < len; i++)
        printf(" %02x", octets[i]);
    printf("\n");
}

static void describe(void)
{
    printf("  %s: own %u far %u count %u, output of %zu octets\n", reading ? "read" : "write", now.own, now.far, now.count,
           out_len_now);
    if (reading) {
        print_octets(" message", octets_now, len_now);
        return;
    }
    printf("  circuit %u heading %02x acm %u category %u indicators %u\n", now.cic, now.heading, now.acm, now.category,
           now.indicators);
    print_octets(" address", now.address, now.address_len);
}

/* The output lent to the archive, inside a stretch of OUTPUT octets at an end of its room, and the reference's beside it. */
struct outputs {
    uint8_t *lent, *stretch, *twin, model[OUTPUT];
};

static void lend_output(struct outputs *outputs, enum place place, size_t out_len)
{
    outputs->stretch = output.open + room_at(place, OUTPUT);
    outputs->lent = output.open + room_at(place, out_len);
    outputs->twin = outputs->model + (outputs->lent - outputs->stretch);
    pattern(outputs->stretch, OUTPUT);
    pattern(outputs->model, OUTPUT);
}

static void compare_output(const struct outputs *outputs, uint64_t got, uint64_t want)
{
    if (got != want)
        differ("the answer is %llx and should be %llx", (unsigned long long)got, (unsigned long long)want);
    for (int i = 0; i < OUTPUT; i++)
        if (outputs->stretch[i] != outputs->model[i])
            differ("octet %ld of the output is %02x and should be %02x", i - (long)(outputs->lent - outputs->stretch),
                   outputs->stretch[i], outputs->model[i]);
}

static const uint8_t *lend_input(enum place place, const uint8_t *octets, size_t len)
{
    if (len > 0)
        memcpy(input.open + room_at(place, len), octets, len);
    return input.shut + room_at(place, len);
}

static void note_place(uint64_t answer)
{
    if (tup_read_place(answer) >= LENGTHS)
        differ("the place is %llu, in a message of at most %d octets", (unsigned long long)tup_read_place(answer), LENGTHS - 1);
    seen[tup_read_refusal(answer)][tup_read_place(answer)]++;
}

/* Reads at both ends of a room; the fields read are left in `fields`, which may be NULL. Gives the answer. */
static uint64_t compare_read(const uint8_t *octets, size_t len, size_t out_len, uint8_t *fields)
{
    uint64_t want = 0;
    reading = 1, len_now = len, out_len_now = out_len;
    memcpy(octets_now, octets, len);
    for (enum place place = AT_START; place < PLACES; place++) {
        struct outputs outputs;
        lend_output(&outputs, place, out_len);
        const uint8_t *message = lend_input(place, octets, len);
        want = ref_read(now.own, now.far, now.count, message, len, outputs.twin, out_len);
        compare_output(&outputs, tup_read(now.own, now.far, now.count, message, len, outputs.lent, out_len), want);
        if (fields && want == 0)
            memcpy(fields, outputs.lent, TUP_MESSAGE_OCTETS);
        reads++;
        read_well += want == 0;
    }
    note_place(want);
    return want;
}

static uint32_t compare_write(const struct message *m, size_t out_len, uint8_t *octets)
{
    uint32_t want = 0;
    reading = 0, out_len_now = out_len, now = *m;
    for (enum place place = AT_START; place < PLACES; place++) {
        struct outputs outputs;
        lend_output(&outputs, place, out_len);
        const uint8_t *address = lend_input(place, m->address, m->address_len);
        want = ref_write(m->own, m->far, m->count, m->cic, m->heading, m->acm, m->category, m->indicators, address, m->address_len,
                         outputs.twin, out_len);
        uint32_t got = tup_write(m->own, m->far, m->count, m->cic, m->heading, m->acm, m->category, m->indicators, address,
                                 m->address_len, outputs.lent, out_len);
        compare_output(&outputs, got, want);
        if (octets && tup_written_refusal(got) == 0)
            memcpy(octets, outputs.lent, tup_written_length(got));
        writes++;
        written_well += tup_written_refusal(got) == 0;
    }
    unwritten[tup_written_refusal(want)]++;
    return want;
}

static void group(uint32_t own, uint32_t far, uint32_t count)
{
    now.own = own, now.far = far, now.count = count;
}

static void put_label(uint8_t *octets, uint32_t dpc, uint32_t opc, uint32_t cic)
{
    uint64_t label = dpc | (uint64_t)opc << 14 | (uint64_t)cic << 28;
    for (int i = 0; i < 5; i++)
        octets[i] = (uint8_t)(label >> 8 * i);
}

/* An address of this length, and indicators that go with it. */
static void draw_number(struct message *m, size_t len)
{
    m->address_len = len;
    draw_address(m->address, len);
    m->indicators = draw_indicators(m->address, len);
}

/* A message that can be written, in a group that has the circuit. */
static struct message draw_message(uint32_t heading)
{
    struct message m = {.own = draw(16384), .far = draw(16384), .count = 1 + draw(4096), .heading = heading};
    if (m.own == m.far)
        m.far ^= 1;
    m.cic = draw(m.count);
    if (heading == TUP_ACM)
        m.acm = draw(64);
    if (heading == TUP_IAM) {
        m.category = draw(64);
        draw_number(&m, 1 + draw(15));
    }
    return m;
}

/* Every heading, length and count of address signals, with the rest of the octets and of the group drawn. */
static void read_every_shape(void)
{
    static const size_t out_lens[] = {0, 22, 23, 24, 23, 23, 23, 40};
    for (uint32_t shape = 0; shape < 256 * LENGTHS * 16 * 8; shape++) {
        uint8_t octets[LENGTHS];
        for (int i = 0; i < LENGTHS; i++)
            octets[i] = chance(4) ? (uint8_t)draw(256) : (uint8_t)(draw_signal() | draw_signal() << 4);
        uint32_t cic = draw(8);
        group(1 + draw(2), 3 + draw(2), 1 + draw(8));
        put_label(octets, chance(6) ? draw(16384) : now.own, chance(6) ? draw(16384) : now.far, cic);
        octets[5] = (uint8_t)(shape / (LENGTHS * 16 * 8));
        octets[8] = (uint8_t)((shape % 16) << 4 | draw(16));
        compare_read(octets, shape / (16 * 8) % LENGTHS, out_lens[shape / 16 % 8], NULL);
    }
}

/* Every code in every place of every count of address signals, the filler of an odd count included, with every nature. */
static void read_every_code(void)
{
    group(1, 2, 4);
    for (unsigned count = 1; count <= 15; count++)
        for (unsigned place = 0; place < count + count % 2; place++)
            for (unsigned code = 0; code < 16 * 4; code++) {
                uint8_t octets[LENGTHS] = {0};
                put_label(octets, 1, 2, 3);
                octets[5] = TUP_IAM, octets[7] = (uint8_t)(code / 16), octets[8] = (uint8_t)(count << 4);
                for (unsigned i = 0; i < (count + 1) / 2; i++)
                    octets[9 + i] = 0x21;
                uint8_t *octet = octets + 9 + place / 2;
                *octet = (uint8_t)(place % 2 ? (*octet & 15) | code % 16 << 4 : (*octet & 240) | code % 16);
                compare_read(octets, 9 + (count + 1) / 2, TUP_MESSAGE_OCTETS, NULL);
            }
}

/* Every count of circuits, with the circuits on both sides of its end. */
static void read_every_circuit(void)
{
    for (uint32_t count = 0; count <= 4098; count++)
        for (uint32_t back = 0; back < 3; back++) {
            uint8_t octets[LENGTHS] = {0};
            group(16383, 16382, count);
            put_label(octets, 16383, 16382, (count + 1 - back) & 4095);
            octets[5] = TUP_CLF;
            compare_read(octets, 6, TUP_MESSAGE_OCTETS, NULL);
        }
}

/* Point codes and counts at their bounds and equal ones, for the reader and for the writer. */
static void every_group(void)
{
    static const uint32_t codes[] = {0, 1, 2, 16382, 16383, 16384, 16385, 65535, 65536, 65537};
    static const uint32_t counts[] = {0, 1, 4095, 4096, 4097, 65537};
    enum { CODES = sizeof codes / sizeof *codes, COUNTS = sizeof counts / sizeof *counts };
    for (unsigned i = 0; i < CODES * CODES * COUNTS; i++) {
        struct message m = {.own = codes[i % CODES], .far = codes[i / CODES % CODES], .heading = TUP_CLF};
        m.count = counts[i / CODES / CODES];
        uint8_t octets[LENGTHS] = {0};
        compare_write(&m, TUP_MESSAGE_MAX, NULL);
        put_label(octets, m.own % 16384, m.far % 16384, 0);
        octets[5] = TUP_CLF;
        compare_read(octets, 6, TUP_MESSAGE_OCTETS, NULL);
    }
}

static void read_wide_numbers(void)
{
    for (unsigned i = 0; i < WIDE * WIDE * WIDE; i++) {
        uint8_t octets[LENGTHS] = {0};
        group(widened(1, i % WIDE), widened(2, i / WIDE % WIDE), widened(4, i / WIDE / WIDE));
        put_label(octets, 1, 2, 3);
        octets[5] = TUP_CLF;
        compare_read(octets, 6, TUP_MESSAGE_OCTETS, NULL);
    }
}

/* Octets written by the reference, then damaged in up to three places and in their length. */
static void read_damaged(uint32_t times)
{
    for (uint32_t i = 0; i < times; i++) {
        struct message m = draw_message(headings[chance(2) ? 0 : draw(HEADINGS)]);
        uint8_t octets[LENGTHS] = {0};
        size_t len = ref_write(m.own, m.far, m.count, m.cic, m.heading, m.acm, m.category, m.indicators, m.address, m.address_len,
                               octets, sizeof octets) >> 8;
        for (uint32_t damage = draw(4); damage > 0; damage--)
            octets[chance(3) ? draw(LENGTHS) : 5 + draw(12)] ^= (uint8_t)(1u << draw(8));
        if (chance(4))
            len = draw(LENGTHS);
        group(m.far, m.own, chance(8) ? draw(4100) : m.count);
        compare_read(octets, len, TUP_MESSAGE_OCTETS + draw(3) - (chance(16) ? 1 : 0), NULL);
    }
}

/* Messages in good order on circuit 3 of four, one for each format: a plain one, an ACM, and IAMs with 1 to 15 address signals, as
   digits to the end and with ST as the last. The nature of address is 3 where there are signals enough, else 2, which one bit makes
   3. Gives the length; what lies behind it in `octets` are digits too, so that of a message read too long it is the length alone
   that is wrong. */
enum { FORMATS = 2 + 2 * TUP_ADDRESS_MAX };
static size_t good_message(unsigned format, uint8_t *octets)
{
    struct message m = {.own = 2, .far = 1, .count = 4, .cic = 3};
    m.heading = format == 0 ? TUP_CLF : format == 1 ? TUP_ACM : TUP_IAM;
    if (m.heading == TUP_ACM)
        m.acm = 5;
    if (m.heading == TUP_IAM) {
        m.category = 10;
        m.address_len = format / 2;
        for (size_t i = 0; i < m.address_len; i++)
            m.address[i] = (uint8_t)(1 + i % 9);
        if (format % 2)
            m.address[m.address_len - 1] = 15;
        m.indicators = address_short(m.address, m.address_len) ? 0x202 : 0x203;
    }
    memset(octets, 0x21, LENGTHS);
    return ref_write(m.own, m.far, m.count, m.cic, m.heading, m.acm, m.category, m.indicators, m.address, m.address_len, octets,
                     LENGTHS) >> 8;
}

/* Every other value of every octet of every format; also into an output one octet short, which only a good message is told of. */
static void read_each_octet_damaged(void)
{
    group(1, 2, 4);
    for (unsigned format = 0; format < FORMATS; format++) {
        uint8_t octets[LENGTHS];
        size_t len = good_message(format, octets);
        if (compare_read(octets, len, TUP_MESSAGE_OCTETS, NULL) != 0)
            differ("a good message is refused");
        if (compare_read(octets, len, TUP_MESSAGE_OCTETS - 1, NULL) != TUP_OUTPUT_TOO_SHORT)
            differ("an output too short is not refused 11 with place 0");
        for (size_t at = 0; at < len; at++)
            for (unsigned change = 1; change < 256; change++) {
                octets[at] ^= (uint8_t)change;
                compare_read(octets, len, TUP_MESSAGE_OCTETS, NULL);
                compare_read(octets, len, TUP_MESSAGE_OCTETS - 1, NULL);
                octets[at] ^= (uint8_t)change;
            }
    }
}

/* Every format cut or drawn out to every length, with all octets as they should be and with any one bit turned. */
static void read_each_length(void)
{
    group(1, 2, 4);
    for (unsigned format = 0; format < FORMATS; format++)
        for (size_t len = 0; len < LENGTHS; len++) {
            uint8_t octets[LENGTHS];
            size_t right = good_message(format, octets);
            uint64_t want = len == right ? 0 : TUP_WRONG_LENGTH | (uint64_t)len << 8;
            if (compare_read(octets, len, TUP_MESSAGE_OCTETS, NULL) != want)
                differ("of %zu octets where %zu are right not the length is told", len, right);
            for (size_t bit = 0; bit < 8 * len; bit++) {
                octets[bit / 8] ^= (uint8_t)(1u << bit % 8);
                compare_read(octets, len, TUP_MESSAGE_OCTETS, NULL);
                octets[bit / 8] ^= (uint8_t)(1u << bit % 8);
            }
        }
}

/* Which places a refusal can have, in messages of up to 20 octets. */
static int place_there_is(uint32_t refusal, uint32_t place)
{
    switch (refusal) {
    case TUP_ACCEPTED: case TUP_NO_SUCH_GROUP: case TUP_OUTPUT_TOO_SHORT:
        return place == 0;
    case TUP_NO_SUCH_CIRCUIT:
        return place == 3;
    case TUP_WRONG_LENGTH:
        return 1;
    case TUP_WRONG_LABEL:
        return place <= 1;
    case TUP_NO_SUCH_HEADING:
        return place == 5;
    case TUP_WRONG_ADDRESS:
        return place >= 8 && place <= 16;
    case TUP_SHORT_NUMBER:
        return place == 8;
    default:
        return 0;
    }
}

/* All of these have been given, and no others; so have the refusals of the writer. */
static void every_refusal_seen(void)
{
    static const uint8_t of_writer[] = {TUP_ACCEPTED, TUP_NO_SUCH_GROUP, TUP_NO_SUCH_CIRCUIT, TUP_NO_SUCH_EVENT,
                                        TUP_NO_SUCH_HEADING, TUP_WRONG_ADDRESS, TUP_SHORT_NUMBER, TUP_OUTPUT_TOO_SHORT};
    for (uint32_t refusal = 0; refusal < 256; refusal++) {
        for (uint32_t place = 0; place < LENGTHS; place++)
            if ((seen[refusal][place] > 0) != place_there_is(refusal, place))
                differ("refusal %u with place %u was given %llu times", refusal, place, seen[refusal][place]);
        if ((unwritten[refusal] > 0) != (memchr(of_writer, (int)refusal, sizeof of_writer) != NULL))
            differ("the writer gave refusal %u %llu times", refusal, unwritten[refusal]);
    }
}

/* The octets of an IAM, be its address good or not. */
static size_t put_iam(uint8_t *octets, const struct message *m)
{
    put_label(octets, m->far, m->own, m->cic);
    octets[5] = TUP_IAM, octets[6] = (uint8_t)m->category, octets[7] = (uint8_t)m->indicators;
    octets[8] = (uint8_t)(m->indicators >> 8 | m->address_len << 4);
    for (size_t i = 0; i < m->address_len; i += 2)
        octets[9 + i / 2] = (uint8_t)(m->address[i] | (i + 1 < m->address_len ? m->address[i + 1] : 0) << 4);
    return 9 + (m->address_len + 1) / 2;
}

/* An IAM in good order but for its address, written, and its octets read: one end sends what the other takes, and nothing else.
   Then the same with too little room, which comes last of all, and in a group without the circuit. */
static void number_both_ways(const struct message *m)
{
    uint8_t octets[LENGTHS] = {0};
    size_t len = put_iam(octets, m);
    int is_short = m->indicators % 4 == 3 && address_short(m->address, m->address_len);
    uint32_t written = tup_written_refusal(compare_write(m, TUP_MESSAGE_MAX, NULL));
    compare_write(m, draw((uint32_t)len), NULL);
    group(m->far, m->own, m->count);
    uint32_t read = tup_read_refusal(compare_read(octets, len, TUP_MESSAGE_OCTETS, NULL));
    if (read != written)
        differ("the writer's refusal is %u, and the reader's %u", written, read);
    if (read != TUP_WRONG_ADDRESS && read != (is_short ? TUP_SHORT_NUMBER : TUP_ACCEPTED))
        differ("a number that is %sshort is refused %u", is_short ? "" : "not ", read);
    compare_read(octets, len, draw(TUP_MESSAGE_OCTETS), NULL);
    group(m->far, m->own, m->cic);
    compare_read(octets, len, TUP_MESSAGE_OCTETS, NULL);
}

/* Every address of one to five signals, of the codes that are told apart and two digits, with every nature; the other indicators
   are drawn. Then every value of the indicators, with addresses on both sides of the bound. */
static void every_small_number(void)
{
    static const uint8_t codes[] = {0, 9, 10, 11, 12, 15};
    static const size_t lengths[] = {1, 3, 4, 5};
    struct message m = {.own = 2, .far = 1, .count = 4, .cic = 3, .heading = TUP_IAM, .category = 10};
    unsigned addresses = 1;
    for (m.address_len = 1; m.address_len <= 5; m.address_len++) {
        addresses *= sizeof codes;
        for (unsigned i = 0; i < 4 * addresses; i++) {
            unsigned rest = i / 4;
            m.indicators = i % 4 + 4 * draw(512);
            for (size_t k = 0; k < m.address_len; k++, rest /= (unsigned)sizeof codes)
                m.address[k] = codes[rest % sizeof codes];
            number_both_ways(&m);
        }
    }
    for (unsigned i = 0; i < 4 * 2048; i++) {
        m.indicators = i / 4, m.address_len = lengths[i % 4];
        draw_address(m.address, m.address_len);
        number_both_ways(&m);
    }
}

/* IAMs of any indicators to any address, most of them with few signals, and some of these spare or an ST. */
static void numbers_at_random(uint32_t times)
{
    for (uint32_t i = 0; i < times; i++) {
        struct message m = draw_message(TUP_IAM);
        m.indicators = draw(2048);
        m.address_len = 1 + draw(chance(4) ? 15 : 5);
        draw_address(m.address, m.address_len);
        if (chance(8))
            m.address[draw((uint32_t)m.address_len)] = (uint8_t)draw(16);
        number_both_ways(&m);
    }
}

/* Every heading and length of address, the other fields drawn near their bounds. */
static void write_every_shape(void)
{
    static const uint32_t near[] = {0, 0, 0, 0, 1, 62, 63, 64, 255, 256, 2047, 2048, 4095, 4096, 65535, 65536};
    enum { NEAR = sizeof near / sizeof *near };
    for (uint32_t shape = 0; shape < 260 * LENGTHS * 64; shape++) {
        struct message m = draw_message(TUP_CLF);
        m.heading = shape / (LENGTHS * 64);
        if (chance(2))
            m.acm = near[draw(NEAR)];
        if (chance(2))
            m.category = near[draw(NEAR)];
        if (chance(2))
            m.indicators = near[draw(NEAR)];
        if (chance(2))
            m.cic = near[draw(NEAR)];
        m.address_len = shape / 64 % LENGTHS;
        draw_address(m.address, m.address_len);
        compare_write(&m, chance(4) ? draw(LENGTHS) : TUP_MESSAGE_MAX, NULL);
    }
}

/* Every value of an octet in every place of every length of address, with every nature. */
static void write_every_code(void)
{
    for (size_t len = 1; len < LENGTHS; len++)
        for (size_t place = 0; place < len; place++)
            for (unsigned code = 0; code < 256 * 4; code++) {
                struct message m = {.own = 2, .far = 1, .count = 4, .cic = 3, .heading = TUP_IAM, .address_len = len};
                m.indicators = code / 256;
                memset(m.address, 1, len);
                m.address[place] = (uint8_t)code;
                compare_write(&m, TUP_MESSAGE_MAX, NULL);
            }
}

/* Every field at every value up to beyond the widest one's bound, for the headings that have fields and one that has none. */
static void write_every_value(void)
{
    for (uint32_t value = 0; value <= 4200; value++)
        for (unsigned which = 0; which < 5 * 3; which++) {
            struct message m = draw_message(which / 5 == 0 ? TUP_IAM : which / 5 == 1 ? TUP_ACM : TUP_CLF);
            uint32_t *fields[] = {&m.cic, &m.acm, &m.category, &m.indicators, &m.count};
            *fields[which % 5] = value;
            compare_write(&m, TUP_MESSAGE_MAX, NULL);
        }
}

static void write_wide_numbers(void)
{
    for (unsigned i = 0; i < 8 * WIDE * 8 * WIDE * HEADINGS; i++) {
        struct message m = draw_message(headings[i % HEADINGS]);
        uint32_t *fields[] = {&m.own, &m.far, &m.count, &m.cic, &m.heading, &m.acm, &m.category, &m.indicators};
        uint32_t *one = fields[i / HEADINGS % 8], *other = fields[i / HEADINGS / 8 % 8];
        *one = widened(*one, i / HEADINGS / 64 % WIDE);
        *other = widened(*other, i / HEADINGS / 64 / WIDE);
        compare_write(&m, TUP_MESSAGE_MAX, NULL);
    }
}

/* Every length of output for every length of message. */
static void write_every_output(void)
{
    for (unsigned heading = 0; heading < HEADINGS; heading++)
        for (size_t count = 1; count <= 15; count++)
            for (size_t out_len = 0; out_len < OUTPUT; out_len++) {
                struct message m = draw_message(headings[heading]);
                if (m.heading == TUP_IAM)
                    draw_number(&m, count);
                compare_write(&m, out_len, NULL);
            }
}

/* What was written, read at the end addressed, is the message. */
static void round_trip(const struct message *m)
{
    uint8_t octets[TUP_MESSAGE_MAX], fields[TUP_MESSAGE_OCTETS], want[TUP_MESSAGE_OCTETS] = {0};
    uint32_t written = compare_write(m, TUP_MESSAGE_MAX, octets);
    if (tup_written_refusal(written) != 0)
        differ("a good message is refused %u", tup_written_refusal(written));
    group(m->far, m->own, m->count);
    if (compare_read(octets, tup_written_length(written), TUP_MESSAGE_OCTETS, fields) != 0)
        differ("what was written is not read");
    want[TUP_MESSAGE_CIRCUIT] = (uint8_t)m->cic, want[TUP_MESSAGE_CIRCUIT + 1] = (uint8_t)(m->cic >> 8);
    want[TUP_MESSAGE_HEADING] = (uint8_t)m->heading, want[TUP_MESSAGE_ACM] = (uint8_t)m->acm;
    want[TUP_MESSAGE_CATEGORY] = (uint8_t)m->category;
    want[TUP_MESSAGE_INDICATORS] = (uint8_t)m->indicators, want[TUP_MESSAGE_INDICATORS + 1] = (uint8_t)(m->indicators >> 8);
    want[TUP_MESSAGE_COUNT] = (uint8_t)m->address_len;
    memcpy(want + TUP_MESSAGE_ADDRESS, m->address, m->address_len);
    if (memcmp(fields, want, sizeof want) != 0)
        differ("reading what was written gives other fields");
    if (tup_message_circuit(fields) != m->cic || tup_message_indicators(fields) != m->indicators)
        differ("the header's accessors give other fields");
}

/* Sets spare bits and filler of a message at random, and gives the octets that reading and writing it must lead to. */
static size_t draw_octets(const struct message *m, uint8_t *octets, uint8_t *cleared)
{
    size_t len = ref_write(m->own, m->far, m->count, m->cic, m->heading, m->acm, m->category, m->indicators, m->address,
                           m->address_len, cleared, TUP_MESSAGE_MAX) >> 8;
    memcpy(octets, cleared, len);
    if (m->heading == TUP_ACM || m->heading == TUP_IAM)
        octets[6] |= (uint8_t)(draw(4) << 6);
    if (m->heading == TUP_IAM) {
        octets[8] |= (uint8_t)(draw(2) << 3);
        if (m->address_len % 2)
            octets[len - 1] |= (uint8_t)(draw(16) << 4);
    }
    return len;
}

/* What was read, written in the sender's group, is the octets with spare bits and filler cleared. */
static void trip_round(const struct message *sent)
{
    uint8_t octets[TUP_MESSAGE_MAX], cleared[TUP_MESSAGE_MAX], again[TUP_MESSAGE_MAX], fields[TUP_MESSAGE_OCTETS];
    size_t len = draw_octets(sent, octets, cleared);
    group(sent->far, sent->own, sent->count);
    if (compare_read(octets, len, TUP_MESSAGE_OCTETS, fields) != 0)
        differ("a good message is not read");
    struct message m = {.own = sent->own, .far = sent->far, .count = sent->count, .cic = tup_message_circuit(fields),
                        .heading = fields[TUP_MESSAGE_HEADING], .acm = fields[TUP_MESSAGE_ACM],
                        .category = fields[TUP_MESSAGE_CATEGORY], .indicators = tup_message_indicators(fields),
                        .address_len = fields[TUP_MESSAGE_COUNT]};
    memcpy(m.address, fields + TUP_MESSAGE_ADDRESS, TUP_ADDRESS_MAX);
    uint32_t written = compare_write(&m, TUP_MESSAGE_MAX, again);
    if (tup_written_refusal(written) != 0 || tup_written_length(written) != len || memcmp(again, cleared, len) != 0)
        differ("writing what was read gives other octets");
}

static void round_trips(uint32_t times)
{
    for (uint32_t i = 0; i < times; i++) {
        struct message m = draw_message(headings[chance(2) ? 0 : draw(HEADINGS)]);
        if (i % 2)
            round_trip(&m);
        else
            trip_round(&m);
    }
}

/* Slices of no octets: the pointer is not looked at. */
static void no_octets(void)
{
    uint8_t octets[TUP_MESSAGE_MAX];
    if (tup_read(1, 2, 4, NULL, 0, NULL, 0) != TUP_WRONG_LENGTH)
        differ("an empty message is not refused 7");
    if (tup_write(2, 1, 4, 3, TUP_CLF, 0, 0, 0, NULL, 0, octets, sizeof octets) != 6u << 8)
        differ("a message without an address is not written");
    if (tup_write(2, 1, 4, 3, TUP_CLF, 0, 0, 0, NULL, 0, NULL, 0) != TUP_OUTPUT_TOO_SHORT)
        differ("an empty output is not refused 11");
}

/* Lengths whose lowest 32 bits would do, of a message, and would not, of an output. */
static void vast_lengths(void)
{
    uint8_t *vast = vast_make(), octets[6], out[TUP_MESSAGE_OCTETS];
    put_label(octets, 1, 2, 3);
    octets[5] = TUP_CLF;
    if (tup_read(1, 2, 4, octets, sizeof octets, vast, VAST + 1) != 0)
        differ("an output of more than 4 GiB is not taken for a message read");
    if (tup_write(2, 1, 4, 3, TUP_CLF, 0, 0, 0, NULL, 0, vast, VAST + 1) != 6u << 8)
        differ("an output of more than 4 GiB is not taken for a message");
    if (tup_read(1, 2, 4, vast, VAST + 6, out, sizeof out) != (TUP_WRONG_LENGTH | (uint64_t)(VAST + 6) << 8))
        differ("a message of more than 4 GiB is not refused 7 with its length");
}

/* Lengths that no memory has. The reader looks at the first nine octets at most before it refuses them, so they may be lent. */
static void lengths_beyond_places(void)
{
    static const uint64_t most = (UINT64_C(1) << 56) - 1;
    static const uint64_t lengths[] = {most - 1, most, most + 1, most + 6, 2 * most, UINT64_MAX / 2};
    static const uint8_t headings_told[] = {TUP_CLF, TUP_ACM, TUP_IAM};
    uint8_t octets[9] = {0}, out[TUP_MESSAGE_OCTETS];
    put_label(octets, 1, 2, 3);
    octets[8] = 0xF0;
    for (unsigned i = 0; i < sizeof lengths / sizeof *lengths; i++)
        for (unsigned k = 0; k < sizeof headings_told; k++) {
            uint64_t told = lengths[i] < most ? lengths[i] : most;
            octets[5] = headings_told[k];
            if (ref_read(1, 2, 4, octets, lengths[i], out, sizeof out) != (TUP_WRONG_LENGTH | told << 8))
                differ("the reference does not tell a length of %llx", (unsigned long long)lengths[i]);
            if (tup_read(1, 2, 4, octets, lengths[i], out, sizeof out) != (TUP_WRONG_LENGTH | told << 8))
                differ("a length of %llx is not told", (unsigned long long)lengths[i]);
        }
}

int main(int argc, char **argv)
{
    int all = argc > 1 && strcmp(argv[1], "all") == 0;
    uint32_t times = all ? 10000000 : 500000;
    harness_begin("link", describe);
    input = room_make();
    output = room_make();
    read_every_shape();
    read_every_code();
    read_every_circuit();
    read_each_octet_damaged();
    read_each_length();
    read_wide_numbers();
    every_group();
    write_every_shape();
    write_every_code();
    write_every_value();
    write_wide_numbers();
    write_every_output();
    every_small_number();
    no_octets();
    vast_lengths();
    lengths_beyond_places();
    read_damaged(times);
    numbers_at_random(times / 4);
    round_trips(times);
    every_refusal_seen();
    covered("%llu reads, %llu of them taken; %llu writes, %llu of them taken", reads, read_well, writes, written_well);
    covered("short numbers: %llu were not read, %llu not written", seen[TUP_SHORT_NUMBER][8], unwritten[TUP_SHORT_NUMBER]);
    return 0;
}
