/* Writes files of messages into a directory, and beside each the text that reading it must print, by the reference: long random
   ones, one cut at every place, every length of a message, and groups good and bad. The runner feeds them to the program
   `tup-messages` and compares. */
#include "harness.h"
#include "reference.h"
#include "saved.h"
#include "tup.h"

#include <stdlib.h>
#include <string.h>

enum { LENGTH_MAX = 255, REFUSALS = TUP_SHORT_NUMBER + 1 };

struct group {
    uint32_t own, far, count;
};

static unsigned long seen[REFUSALS][LENGTH_MAX + 1], headings_read[256];

/* A message that this group can read, unless its circuit is beyond the group; its length. */
static size_t draw_good(const struct group *to, uint8_t *octets)
{
    uint8_t address[TUP_ADDRESS_MAX];
    uint32_t heading = headings[chance(2) ? draw(2) : draw(HEADINGS)], cic = chance(20) ? draw(4096) : draw(to->count);
    int iam = heading == TUP_IAM;
    size_t address_len = iam ? 1 + draw(TUP_ADDRESS_MAX) : 0;
    draw_address(address, address_len);
    return ref_write(to->far, to->own, to->count, cic, heading, heading == TUP_ACM ? draw(64) : 0, iam ? draw(64) : 0,
                     iam ? draw_indicators(address, address_len) : 0, address, address_len, octets, LENGTH_MAX) >> 8;
}

/* Damages a message in place and gives its new length. What lies behind it in `octets` was drawn before. */
static size_t damaged(uint8_t *octets, size_t len)
{
    switch (draw(6)) {
    case 0: /* up to three bits, anywhere */
        for (uint32_t bits = 1 + draw(3); bits > 0; bits--)
            octets[draw((uint32_t)len)] ^= (uint8_t)(1u << draw(8));
        return len;
    case 1: /* an octet behind the label: the heading, the count, address signals */
        octets[5 + draw((uint32_t)len - 5)] = (uint8_t)draw(256);
        return len;
    case 2: /* a few octets more or less */
        return len - 3 + draw(7);
    case 3: /* any length */
        return draw(LENGTH_MAX + 1);
    case 4: /* the nature of address, 3 then, for which the number may be too short; where there is none, the heading */
        octets[len > 7 ? 7 : 5] |= 3;
        return len;
    default: /* other octets altogether */
        for (size_t i = 0; i < len; i++)
            octets[i] = (uint8_t)draw(256);
        return len;
    }
}

static size_t draw_octets(const struct group *to, uint8_t *octets)
{
    for (size_t i = 0; i < LENGTH_MAX; i++)
        octets[i] = (uint8_t)draw(256);
    size_t len = draw_good(to, octets);
    return chance(2) ? len : damaged(octets, len);
}

static size_t put_message(uint8_t *at, const uint8_t *octets, size_t len)
{
    at[0] = (uint8_t)len;
    memcpy(at + 1, octets, len);
    return 1 + len;
}

static void note(const struct group *to, const uint8_t *octets, size_t len)
{
    uint8_t fields[TUP_MESSAGE_OCTETS];
    uint64_t answer = ref_read(to->own, to->far, to->count, octets, len, fields, sizeof fields);
    seen[tup_read_refusal(answer)][tup_read_place(answer)]++;
    if (answer == 0)
        headings_read[fields[TUP_MESSAGE_HEADING]]++;
}

/* A file of this many messages, with some octets behind them. */
static void save_random(size_t messages, struct group to, const char *tail, size_t tail_len)
{
    uint8_t *file = malloc(7 + (1 + LENGTH_MAX) * messages + tail_len), octets[LENGTH_MAX];
    if (file == NULL)
        differ("no memory for a file");
    size_t len = put_group(file, to.own, to.far, to.count);
    for (; messages > 0; messages--) {
        size_t octets_len = draw_octets(&to, octets);
        note(&to, octets, octets_len);
        len += put_message(file + len, octets, octets_len);
    }
    memcpy(file + len, tail, tail_len);
    save(file, len + tail_len);
    free(file);
}

/* Every length of a message that begins like a CLF, an ACM, an IAM with no signals and with one to fifteen, and like none. */
static void save_lengths(void)
{
    static uint8_t file[7 + 20 * (1 + LENGTH_MAX) * (1 + LENGTH_MAX)];
    static const struct group to = {1, 2, 4};
    size_t len = put_group(file, to.own, to.far, to.count);
    for (unsigned start = 0; start < 20; start++)
        for (size_t octets_len = 0; octets_len <= LENGTH_MAX; octets_len++) {
            uint8_t octets[LENGTH_MAX] = {0x01, 0x80, 0x00, 0x30, 0x00, TUP_IAM, 0x0a, 0x02};
            memset(octets + 9, 0x21, sizeof octets - 9);
            octets[8] = (uint8_t)(start << 4);
            if (start > 15)
                octets[5] = start == 16 ? TUP_CLF : start == 17 ? TUP_ACM : start == 18 ? 0 : TUP_SST;
            note(&to, octets, octets_len);
            len += put_message(file + len, octets, octets_len);
        }
    save(file, len);
}

/* One message of each kind, one of no octets and one that is too long, cut behind every octet. */
static void save_cuts(void)
{
    static const uint8_t clf[] = {0x01, 0x80, 0x00, 0x30, 0x00, 0x46}, acm[] = {0x01, 0x80, 0x00, 0x20, 0x00, 0x14, 0x05},
                         even[] = {0x01, 0x80, 0x00, 0x30, 0x00, 0x11, 0x0a, 0x02, 0x20, 0xf1},
                         odd[] = {0x01, 0x80, 0x00, 0x10, 0x00, 0x11, 0x0a, 0x02, 0x30, 0x21, 0x0f}, too_long[20] = {0};
    uint8_t file[128];
    size_t len = put_group(file, 1, 2, 4);
    len += put_message(file + len, clf, sizeof clf);
    len += put_message(file + len, acm, sizeof acm);
    len += put_message(file + len, clf, 0);
    len += put_message(file + len, even, sizeof even);
    len += put_message(file + len, too_long, sizeof too_long);
    len += put_message(file + len, odd, sizeof odd);
    for (size_t cut = 0; cut <= len; cut++)
        save(file, cut);
}

/* Behind each group a message on its last circuit and one beyond it, if the codes and the circuits fit a label. */
static void save_groups(void)
{
    uint8_t file[64], octets[TUP_MESSAGE_MAX];
    for (unsigned i = 0; i < GROUPS; i++) {
        size_t len = put_group(file, groups[i][0], groups[i][1], groups[i][2]);
        save(file, len);
        for (uint32_t beyond = 0; beyond < 2; beyond++) {
            uint32_t cic = (groups[i][2] + beyond - 1) % 4096;
            size_t written = ref_write(groups[i][1] % 16384, groups[i][0] % 16384, 1, cic, TUP_CLF, 0, 0, 0, NULL, 0, octets,
                                       sizeof octets) >> 8;
            len += put_message(file + len, octets, written);
        }
        save(file, len);
    }
    save_no_groups();
}

static void save_all(void)
{
    size_t messages = long_run() ? 1000000 : 70000; /* ordinals beyond 16 bits in either */
    save_cuts();
    save_groups();
    save_lengths();
    save_random(messages, (struct group){1, 2, 4}, "", 0);
    save_random(messages, (struct group){16383, 0, 4096}, "\6", 1);
    save_random(messages / 4, (struct group){0, 16383, 1}, "\0\0\0", 3);
    save_random(messages / 4, (struct group){8191, 8192, 30}, "\377\1\2\3", 4);
    save_random(messages / 4, (struct group){300, 7, 1000}, "\1", 1);
}

/* Every refusal with every place that it can have, the lengths up to the most, and every heading. */
static void expect_all_seen(void)
{
    for (unsigned len = 0; len <= LENGTH_MAX; len++)
        if (seen[TUP_WRONG_LENGTH][len] == 0)
            differ("no message is refused for its length of %u", len);
    for (unsigned octet = 8; octet <= 16; octet++)
        if (seen[TUP_WRONG_ADDRESS][octet] == 0)
            differ("no message is refused 10 at octet %u", octet);
    if (seen[TUP_WRONG_LABEL][0] == 0 || seen[TUP_WRONG_LABEL][1] == 0 || seen[TUP_NO_SUCH_HEADING][5] == 0 ||
        seen[TUP_SHORT_NUMBER][8] == 0 || seen[TUP_NO_SUCH_CIRCUIT][3] == 0)
        differ("no message is refused for its label, its heading, a short number or its circuit");
    for (unsigned i = 0; i < HEADINGS; i++)
        if (headings_read[headings[i]] == 0)
            differ("no message with heading %02x is read", headings[i]);
}

int main(int argc, char **argv)
{
    harness_begin("lists", NULL);
    if (argc != 2)
        differ("usage: lists DIRECTORY");
    save_into(argv[1], "list", ref_messages);
    save_all();
    expect_all_seen();
    unsigned long all = 0;
    for (unsigned i = 0; i < REFUSALS * (LENGTH_MAX + 1); i++)
        all += seen[i / (LENGTH_MAX + 1)][i % (LENGTH_MAX + 1)];
    covered("%u files, %lu messages drawn for them, %lu of those read and %lu refused for a short number", saved(), all,
            seen[TUP_ACCEPTED][0], seen[TUP_SHORT_NUMBER][8]);
    return 0;
}
