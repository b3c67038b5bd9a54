/* The shared parts of the test programs. */
#define _GNU_SOURCE
#include "harness.h"
#include "tup.h"

#include <signal.h>
#include <stdarg.h>
#include <stdio.h>
#include <stdlib.h>
#include <string.h>
#include <sys/mman.h>
#include <unistd.h>

const uint8_t headings[HEADINGS] = {0x11, 0x14, 0x16, 0x26, 0x36, 0x46, 0x56, 0x17, 0x27, 0x37, 0x47,
                                    0x57, 0x77, 0x15, 0x25, 0x35, 0x45, 0x55, 0x65, 0x75, 0x85, 0x95};

const struct particulars listed[LISTED] = {
    {1, 0x11, 0},    {1, 0x14, 0},    {1, 0x16, 0},    {1, 0x26, 0},    {1, 0x36, 0},    {1, 0x46, 0},    {1, 0x56, 0},
    {1, 0x17, 0},    {1, 0x27, 0},    {1, 0x37, 0},    {1, 0x47, 0},    {1, 0x57, 0},    {1, 0x77, 0},    {1, 0x15, 0},
    {1, 0x25, 0},    {1, 0x35, 0},    {1, 0x45, 0},    {1, 0x55, 0},    {1, 0x65, 0},    {1, 0x75, 0},    {1, 0x85, 0},
    {1, 0x95, 0},    {2, 1, 0},       {2, 2, 0},       {2, 3, 0},       {2, 3, 1},       {2, 3, 2},       {2, 3, 3},
    {2, 3, 4},       {2, 3, 5},       {2, 3, 6},       {2, 3, 7},       {2, 4, 0},       {2, 4, 1},       {2, 5, 0},
    {2, 6, 0},       {2, 7, 0x15},    {2, 7, 0x25},    {2, 7, 0x35},    {2, 7, 0x45},    {2, 7, 0x55},    {2, 7, 0x65},
    {2, 7, 0x75},    {2, 7, 0x85},    {2, 7, 0x95},    {2, 8, 0},       {2, 9, 0},       {2, 10, 0},      {3, 1, 0},
    {3, 2, 0},       {3, 3, 0},       {3, 4, 0},       {3, 5, 0},       {3, 6, 0},
};

const uint64_t edges[EDGES] = {0, 1, 255, 256, 0xFFFFFFFF, 0x0102030405060708, UINT64_MAX - 1, UINT64_MAX};

static const char *program = "test";
static void (*describe_call)(void);
static uint64_t seed = 20240229;
static uint64_t given;

static void fail(void)
{
    if (describe_call)
        describe_call();
    fflush(stdout);
    _exit(1);
}

/* Printing from here is safe enough: the fault is in the function under test, which prints nothing. */
static void touched(int signal_number)
{
    printf("%s: signal %d, memory that was not lent was touched\n", program, signal_number);
    fail();
}

/* The seed that the environment gives, or the usual one. */
static void take_seed(void)
{
    const char *text = getenv("SEED");
    char *end = NULL;
    if (text != NULL && *text != '\0') {
        seed = strtoull(text, &end, 10);
        if (*end != '\0')
            differ("SEED=%s is no number", text);
    }
    given = seed;
}

void harness_begin(const char *name, void (*describe)(void))
{
    program = name;
    take_seed();
    covered("seed %llu", (unsigned long long)seed);
    describe_call = describe;
    signal(SIGSEGV, touched);
    signal(SIGBUS, touched);
}

/* A line of the program's own. */
static void say(const char *format, va_list arguments)
{
    printf("%s: ", program);
    vprintf(format, arguments);
    printf("\n");
}

void differ(const char *format, ...)
{
    va_list arguments;
    va_start(arguments, format);
    say(format, arguments);
    va_end(arguments);
    fail();
}

void covered(const char *format, ...)
{
    va_list arguments;
    va_start(arguments, format);
    say(format, arguments);
    va_end(arguments);
}

uint64_t seed_given(void)
{
    return given;
}

void draw_from(uint64_t from)
{
    seed = from;
}

/* Steele, Lea and Flood's SplitMix. */
uint64_t draw64(void)
{
    uint64_t z = seed += 0x9E3779B97F4A7C15u;
    z = (z ^ z >> 30) * 0xBF58476D1CE4E5B9u;
    z = (z ^ z >> 27) * 0x94D049BB133111EBu;
    return z ^ z >> 31;
}

uint32_t draw(uint32_t below)
{
    return (uint32_t)((draw64() >> 32) * below >> 32);
}

int chance(uint32_t in)
{
    return draw(in) == 0;
}

size_t octets_in(const char *text, uint8_t *octets)
{
    size_t len = 0;
    unsigned octet;
    for (; sscanf(text, "%2x", &octet) == 1; text += 2)
        octets[len++] = (uint8_t)octet;
    return len;
}

struct particulars draw_next(unsigned state)
{
    static const struct particulars next[][2] = {
        {{2, 1, 0}, {1, 0x11, 0}}, {{1, 0x14, 0}, {2, 2, 0}}, {{1, 0x16, 0}, {2, 2, 0}}, {{1, 0x36, 0}, {2, 2, 0}},
        {{1, 0x56, 0}, {2, 2, 0}}, {{1, 0x17, 0}, {3, 4, 0}}, {{2, 3, 5}, {1, 0x46, 0}}, {{2, 4, 0}, {1, 0x46, 0}},
        {{2, 4, 1}, {1, 0x46, 0}}, {{2, 5, 0}, {1, 0x46, 0}}, {{2, 6, 0}, {1, 0x46, 0}}, {{3, 4, 0}, {1, 0x46, 0}},
        {{1, 0x17, 0}, {3, 4, 0}}};
    return chance(3) ? listed[draw(LISTED)] : next[state][draw(2)];
}

uint32_t draw_detail(uint32_t command)
{
    switch (command) {
    case 3:
        return draw(8);
    case 4:
        return draw(2);
    case 7:
        return headings[FAILURES_FROM + draw(HEADINGS - FAILURES_FROM)];
    default:
        return 0;
    }
}

uint8_t draw_signal(void)
{
    static const uint8_t signals[] = {0, 1, 2, 3, 4, 5, 6, 7, 8, 9, 11, 12};
    return signals[draw(sizeof signals)];
}

void draw_address(uint8_t *address, size_t len)
{
    for (size_t i = 0; i < len; i++)
        address[i] = draw_signal();
    if (len > 0 && chance(3))
        address[len - 1] = 15;
}

int address_short(const uint8_t *address, size_t len)
{
    size_t besides_st = 0;
    for (size_t i = 0; i < len; i++)
        besides_st += address[i] != 15;
    return besides_st < 4 && (len == 0 || (address[0] != 11 && address[0] != 12));
}

uint32_t draw_indicators(const uint8_t *address, size_t len)
{
    uint32_t nature = draw(address_short(address, len) ? 3 : 4);
    return nature + 4 * draw(512);
}

const uint8_t stages[STAGES][2] = {{0, 0}, {1, 6}, {2, 7}, {2, 8}, {3, 9}, {4, 10}};

int stages_agree(uint32_t state, uint32_t other)
{
    for (int i = 0; i < STAGES; i++)
        if ((stages[i][0] == state && stages[i][1] == other) || (stages[i][0] == other && stages[i][1] == state))
            return 1;
    return 0;
}

int is_nonsense(uint32_t state, uint32_t heading)
{
    static const uint8_t later[] = {0x16, 0x26, 0x36, 0x56, 0x17}; /* ANC, ANN, CBK, RAN, RLG */
    return state == 1 && memchr(later, (int)heading, sizeof later) != NULL;
}

static uint8_t *room_view(FILE *file, int protection)
{
    uint8_t *around = mmap(NULL, 3 * (size_t)ROOM, PROT_NONE, MAP_PRIVATE | MAP_ANONYMOUS, -1, 0);
    if (around == MAP_FAILED)
        differ("no memory for a room");
    if (mmap(around + ROOM, ROOM, protection, MAP_SHARED | MAP_FIXED, fileno(file), 0) == MAP_FAILED)
        differ("no memory for a view of a room");
    return around + ROOM;
}

struct room room_make(void)
{
    FILE *file = tmpfile();
    if (file == NULL || ftruncate(fileno(file), ROOM) != 0)
        differ("no file for a room");
    struct room room = {room_view(file, PROT_READ | PROT_WRITE), room_view(file, PROT_READ)};
    pattern(room.open, ROOM);
    return room;
}

size_t room_at(enum place place, size_t len)
{
    return place == AT_START ? 0 : ROOM - len;
}

uint8_t *vast_make(void)
{
    void *at = mmap(NULL, VAST + ROOM, PROT_READ | PROT_WRITE, MAP_PRIVATE | MAP_ANONYMOUS | MAP_NORESERVE, -1, 0);
    if (at == MAP_FAILED)
        differ("no addresses for lengths beyond 32 bits");
    return at;
}

void pattern(uint8_t *at, size_t len)
{
    for (size_t i = 0; i < len; i++)
        at[i] = (uint8_t)(0xA5 ^ i * 7);
}

int detail_telling(unsigned detail)
{
    if (detail < 16 || detail == 64 || detail == 128 || detail == 255)
        return 1;
    for (int i = 0; i < HEADINGS; i++)
        if (headings[i] == detail)
            return 1;
    return 0;
}

void put_eight(uint8_t *at, uint64_t number)
{
    for (int i = 0; i < 8; i++)
        at[i] = (uint8_t)(number >> 8 * i);
}

void put_record(uint8_t *table, uint32_t cic, uint32_t state, uint32_t flags, uint64_t rank)
{
    uint8_t *record = table + TUP_RECORD_AT(cic);
    record[TUP_RECORD_STATE] = (uint8_t)state;
    record[TUP_RECORD_FLAGS] = (uint8_t)flags;
    put_eight(record + TUP_RECORD_RANK, rank);
}

uint32_t widened(uint32_t number, unsigned which)
{
    static const uint32_t above[WIDE] = {0, 0x100, 0x10000, 0x1000000, 0x80000000u, 0xFFFF0000u};
    return number | above[which];
}

int long_run(void)
{
    const char *value = getenv("LONG");
    return value != NULL && strcmp(value, "1") == 0;
}
