/* The archive against the reference, in one run: nanoseconds an event in groups of 1 and of 4096 circuits (the same events on the
   first circuit of either, then calls on all circuits at once, then calls that are set up and at once released, so that every
   second event frees a circuit), a choice of a circuit in groups of 4096 and of 30, a message read and a message written. Both work
   on the same inputs, drawn beforehand from a fixed seed; each figure is the best of several rounds, taken in turns after a
   warm-up, so that neither side has the quieter moments. */
#define _POSIX_C_SOURCE 199309L
#include "events.h"
#include "harness.h"
#include "reference.h"
#include "tup.h"

#include <stdio.h>
#include <string.h>
#include <time.h>

/* A choice goes through a whole table, so fewer of them make a round. They go over several tables in turn, lest the processor
   learn a single one by heart. */
enum { ITEMS = 1 << 18, CHOICES = 1 << 8, CHOICES_OF_FEW = 1 << 14, TABLES = 16, FEW = 30, ROUNDS = 15 };

typedef uint64_t (*selector)(uint32_t, uint32_t, const uint8_t *, size_t);
typedef uint64_t (*reader)(uint32_t, uint32_t, uint32_t, const uint8_t *, size_t, uint8_t *, size_t);
typedef uint32_t (*writer)(uint32_t, uint32_t, uint32_t, uint32_t, uint32_t, uint32_t, uint32_t, uint32_t, const uint8_t *, size_t,
                           uint8_t *, size_t);

static struct event events[ITEMS];

static struct message {
    uint32_t cic, heading, acm, category, indicators;
    uint8_t address[TUP_ADDRESS_MAX], octets[TUP_MESSAGE_MAX];
    size_t address_len, len;
} messages[ITEMS];

static uint8_t tables[TABLES][TUP_TABLE_OCTETS(TUP_CIRCUITS_MAX)];

/* Sums of all answers, and of counters and ranks, printed in the end, so that no call can be left out. */
static uint64_t sums[2];

static double now(void)
{
    struct timespec t;
    clock_gettime(CLOCK_MONOTONIC, &t);
    return (double)t.tv_sec * 1e9 + (double)t.tv_nsec;
}

static void draw_messages(void)
{
    for (size_t i = 0; i < ITEMS; i++) {
        struct message m = {.cic = draw(4096), .heading = headings[chance(3) ? 0 : draw(HEADINGS)]};
        if (m.heading == TUP_ACM)
            m.acm = draw(64);
        if (m.heading == TUP_IAM) {
            m.category = draw(64), m.indicators = draw(2048);
            m.address_len = 4 + draw(12); /* enough for every nature of address */
            for (size_t k = 0; k < m.address_len; k++)
                m.address[k] = (uint8_t)draw(10);
        }
        m.len = ref_write(2, 1, 4096, m.cic, m.heading, m.acm, m.category, m.indicators, m.address, m.address_len, m.octets,
                          sizeof m.octets) >> 8;
        messages[i] = m;
    }
}

/* Tables in which so many of a hundred circuits are idle, of the even ones, which own code 2 controls, and of the odd ones. The
   ranks are drawn from 1 on, or all 0. One circuit in twenty has marks. */
static void draw_tables(uint32_t even_idle, uint32_t odd_idle, int freed)
{
    static const uint8_t marks[] = {0, 1, 2, 3, 5, 7, 8, 10};
    for (size_t i = 0; i < TABLES; i++)
        for (uint32_t cic = 0; cic < TUP_CIRCUITS_MAX; cic++) {
            uint8_t *record = tables[i] + TUP_RECORD_AT(cic);
            int idle = draw(100) < (cic % 2 == 0 ? even_idle : odd_idle);
            record[TUP_RECORD_STATE] = (uint8_t)(idle ? TUP_IDLE : 1 + draw(11));
            record[TUP_RECORD_FLAGS] = chance(20) ? marks[draw(sizeof marks)] : 0;
            put_eight(record + TUP_RECORD_RANK, freed ? 1 + draw(100000) : 0);
        }
}

static uint64_t run_selects(int archive, size_t items, size_t table_len)
{
    selector select = archive ? tup_select : ref_select;
    uint64_t sum = 0;
    for (size_t i = 0; i < items; i++)
        sum += select(2, 1, tables[i % TABLES], table_len);
    return sum;
}

static uint64_t run_steps(int archive, size_t items, size_t table_len)
{
    static uint8_t table[TUP_TABLE_OCTETS(TUP_CIRCUITS_MAX)];
    memset(table, 0, sizeof table);
    uint64_t sum = step_all(archive ? tup_step : ref_step, table, table_len, events, items);
    return sum + tup_counter(table) + tup_record_rank(table, 0);
}

static uint64_t run_reads(int archive, size_t items, size_t unused)
{
    reader read = archive ? tup_read : ref_read;
    uint64_t sum = unused;
    uint8_t out[TUP_MESSAGE_OCTETS] = {0};
    for (size_t i = 0; i < items; i++)
        sum += read(1, 2, 4096, messages[i].octets, messages[i].len, out, sizeof out) + out[i % sizeof out];
    return sum;
}

static uint64_t run_writes(int archive, size_t items, size_t unused)
{
    writer write = archive ? tup_write : ref_write;
    uint64_t sum = unused;
    uint8_t out[TUP_MESSAGE_MAX] = {0};
    for (size_t i = 0; i < items; i++) {
        const struct message *m = messages + i;
        sum += write(2, 1, 4096, m->cic, m->heading, m->acm, m->category, m->indicators, m->address, m->address_len, out,
                     sizeof out);
        sum += out[i % sizeof out];
    }
    return sum;
}

static void measure(const char *name, uint64_t (*work)(int, size_t, size_t), size_t items, size_t parameter)
{
    double best[2] = {1e18, 1e18};
    for (int round = -2; round < ROUNDS; round++)
        for (int archive = 0; archive < 2; archive++) {
            double began = now();
            sums[archive] += work(archive, items, parameter);
            double took = (now() - began) / (double)items;
            if (round >= 0 && took < best[archive])
                best[archive] = took;
        }
    printf("%-32s %10.2f %10.2f %8.2f\n", name, best[1], best[0], best[1] / best[0]);
}

static void measure_choices(void)
{
    draw_tables(100, 100, 1);
    measure("choice of 4096, all idle", run_selects, CHOICES, TUP_TABLE_OCTETS(TUP_CIRCUITS_MAX));
    draw_tables(100, 100, 0);
    measure("choice of 4096, none used yet", run_selects, CHOICES, TUP_TABLE_OCTETS(TUP_CIRCUITS_MAX));
    draw_tables(0, 100, 1);
    measure("choice of 4096, ours all busy", run_selects, CHOICES, TUP_TABLE_OCTETS(TUP_CIRCUITS_MAX));
    draw_tables(5, 5, 1);
    measure("choice of 4096, mostly busy", run_selects, CHOICES, TUP_TABLE_OCTETS(TUP_CIRCUITS_MAX));
    draw_tables(50, 50, 1);
    measure("choice of 30, half busy", run_selects, CHOICES_OF_FEW, TUP_TABLE_OCTETS(FEW));
}

int main(void)
{
    printf("%-32s %10s %10s %8s\n", "ns, best of 15 rounds", "archive", "reference", "ratio");
    draw_events(events, ITEMS, 1);
    measure("event, group of 1", run_steps, ITEMS, TUP_TABLE_OCTETS(1));
    measure("event, group of 4096, one busy", run_steps, ITEMS, TUP_TABLE_OCTETS(TUP_CIRCUITS_MAX));
    draw_events(events, ITEMS, TUP_CIRCUITS_MAX);
    measure("event, group of 4096, all busy", run_steps, ITEMS, TUP_TABLE_OCTETS(TUP_CIRCUITS_MAX));
    draw_releases(events, ITEMS, 1);
    measure("set up, released, group of 1", run_steps, ITEMS, TUP_TABLE_OCTETS(1));
    draw_releases(events, ITEMS, TUP_CIRCUITS_MAX);
    measure("set up, released, group of 4096", run_steps, ITEMS, TUP_TABLE_OCTETS(TUP_CIRCUITS_MAX));
    measure_choices();
    draw_messages();
    measure("message read", run_reads, ITEMS, 0);
    measure("message written", run_writes, ITEMS, 0);
    printf("sums of all that was answered: %016llx %016llx\n", (unsigned long long)sums[1], (unsigned long long)sums[0]);
    return sums[0] == sums[1] ? 0 : 1;
}
