/* What the test programs share: a way to fail that says what differed, numbers drawn from a seed that is printed, and memory
   with an unreadable stretch on either side, so that a step beyond what was lent ends the program. */
#ifndef HARNESS_H
#define HARNESS_H

#include <stddef.h>
#include <stdint.h>

/* The 22 headings of docs/RULES.md, the failures last. */
enum { HEADINGS = 22, FAILURES_FROM = 13 };
extern const uint8_t headings[HEADINGS];

/* The events of docs/RULES.md by kind, code and detail; an ACM's octet, which changes nothing, is 0. */
enum { LISTED = 54 };
extern const struct particulars {
    uint8_t kind, code, detail;
} listed[LISTED];

/* Whether some rule tells this detail from others, or it is a neighbour of one that is told apart. */
int detail_telling(unsigned detail);

/* An event for a circuit in this state: mostly the next step of a call, outgoing or incoming; else any listed one. */
struct particulars draw_next(unsigned state);

/* Names the program and the function that prints the call under way; failing prints it, touching unlent memory too. Prints the seed
   of what is drawn: SEED in the environment, or a fixed one. */
void harness_begin(const char *name, void (*describe)(void));
/* Prints what differed and the call under way, and ends the program. */
void differ(const char *format, ...);
/* Prints a line of what was covered. */
void covered(const char *format, ...);

/* What is drawn follows from the seed; a part that is to draw the same in every run sets one of its own. */
uint64_t seed_given(void);
void draw_from(uint64_t from);
uint64_t draw64(void);
uint32_t draw(uint32_t below);
int chance(uint32_t in);

/* The octets that a text has, two hexadecimal digits each, and how many they are. */
size_t octets_in(const char *text, uint8_t *octets);

/* A detail that the command may have. */
uint32_t draw_detail(uint32_t command);

/* An address signal that is neither spare nor ST; so many of them, with ST as the last now and then; and indicators with which an
   IAM to such an address can be sent: of every nature of address, but of nature 3 only where the number is not short. */
uint8_t draw_signal(void);
void draw_address(uint8_t *address, size_t len);
uint32_t draw_indicators(const uint8_t *address, size_t len);

/* Whether an address is short where its nature is 3: counted out here, so that the tests need not ask the reference. */
int address_short(const uint8_t *address, size_t len);

/* Demand 3's pairs of states, the outgoing end's first; and whether the states of two ends are one of them, either way round. */
enum { STAGES = 6 };
extern const uint8_t stages[STAGES][2];
int stages_agree(uint32_t state, uint32_t other);

/* Whether a signal makes no sense in this state, since address complete has not come: two ends of ours never send it there. */
int is_nonsense(uint32_t state, uint32_t heading);

/* A stretch of octets seen twice: `open` may be written, `shut` only read. Both lie between unreadable stretches. */
enum { ROOM = 65536 };
struct room {
    uint8_t *open;
    const uint8_t *shut;
};
struct room room_make(void);

/* Where a slice of this length begins that ends at the end of a room, or starts at its start. */
enum place { AT_START, AT_END, PLACES };
size_t room_at(enum place place, size_t len);

/* Fills memory with octets that depend on the place only, so that two stretches filled alike stay equal unless written. */
void pattern(uint8_t *at, size_t len);

/* A number in eight octets, lowest first, as a table holds its counter and its ranks. */
void put_eight(uint8_t *at, uint64_t number);

/* A circuit's record in a table, legal or not. */
void put_record(uint8_t *table, uint32_t cic, uint32_t state, uint32_t flags, uint64_t rank);

/* Counters and ranks at the edges of an octet, of 32 bits and of 64; the last is full. A host may lend any rank beside any
   counter. */
enum { EDGES = 8 };
extern const uint64_t edges[EDGES];

/* Memory of a length beyond 32 bits, of which no octet is touched yet */
#define VAST ((size_t)1 << 32)
uint8_t *vast_make(void);

/* Numbers that a narrower parameter would take for another one: each of the given ones, and it with higher bits set. */
enum { WIDE = 6 };
uint32_t widened(uint32_t number, unsigned which);

/* True where the environment asks for the long run. */
int long_run(void);

#endif
