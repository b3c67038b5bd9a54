/* One exchange of a small host: all that a host does around tup.h for its group of circuits. It lends the table, sends what a step
   names and takes what arrives, runs the timers on a wheel of seconds, and restarts circuits when that is safe. It keeps the rules
   of docs/HOST.md, "Timers, and quiet circuits", "Restarts" and "Before a circuit is seized"; what is on the link, and what is
   printed, is for its user to say. */
#ifndef EXCHANGE_H
#define EXCHANGE_H

#include "tup.h"

enum {
    CIRCUITS = 4,
    RESTART_WAIT = 7, /* on the wheel beside timers 1 to 6: a restart that waits until its circuit is quiet */
    TIMERS = 8,
    SLOTS = 64 /* no timer is longer than the wheel */
};

/* What an IAM says of its call, which is the host's to fill in. */
struct call {
    uint32_t category, indicators;
    uint8_t address[TUP_ADDRESS_MAX];
    size_t address_len;
};

struct exchange {
    const char *name;
    uint32_t own, far;
    unsigned round_trip; /* seconds in which a signal crosses, is answered and the answer is back, at the longest */

    /* Called with what is to go on the link; after each event with what was answered; and with a message that cannot be read and
       what tup_read answered, for the log. */
    void (*send)(struct exchange *x, uint32_t circuit, const uint8_t *octets, size_t len);
    void (*tell)(struct exchange *x, uint32_t circuit, uint32_t kind, uint32_t code, uint64_t answer);
    void (*refuse)(struct exchange *x, const uint8_t *octets, size_t len, uint64_t answer);
    /* Which of the timers that are due may run out: tup_timers_now. A pointer so that the tests can show what happens without. */
    uint32_t (*may_run_out)(uint32_t due, int quiet);

    uint8_t table[TUP_TABLE_OCTETS(CIRCUITS)];
    uint8_t iam[CIRCUITS][TUP_MESSAGE_MAX]; /* written before the circuit is seized, and sent when it is */
    size_t iam_len[CIRCUITS];
    unsigned seconds;
    unsigned last_signal[CIRCUITS];  /* when one was last sent or received on the circuit */
    int shut[CIRCUITS];              /* since the host came up, or found its record bad, the circuit was not restarted yet */
    int to_be_blocked[CIRCUITS];     /* the site wants it blocked: a restart forgets our block, the host does not */
    unsigned slot[CIRCUITS][TIMERS]; /* where on the wheel each timer is, SLOTS for nowhere */
    uint8_t wheel[SLOTS][CIRCUITS];  /* for each second and circuit the timers that are due, as bits */
};

/* The host comes up, for the first time or again: every circuit is restarted once it is quiet, and shut until then. */
void exchange_start(struct exchange *x);

/* Seizes a circuit for a call of our own. Its IAM is written first, since no circuit may be seized for one that cannot be sent:
   where tup_write refuses it, a short number with 17, nothing happens. Answers that refusal, or else the seizure's. */
uint32_t exchange_seize(struct exchange *x, uint32_t circuit, const struct call *call);

/* Any other command of call control or of maintenance. Answers as tup_step does; TUP_SEIZE, for which there is no IAM here, is
   refused 3. */
uint64_t exchange_command(struct exchange *x, uint32_t circuit, uint32_t command, uint32_t detail);

/* Octets that came from the link. Answers whether they were a signal and its circuit took it: on one that is shut it is dropped. */
int exchange_receive(struct exchange *x, const uint8_t *octets, size_t len);

/* The site blocks a circuit, or ends the block, whatever state it is in. */
void exchange_block(struct exchange *x, uint32_t circuit, int blocked);

/* A reset by maintenance: at once if the circuit is quiet, else when it is. */
void exchange_restart(struct exchange *x, uint32_t circuit);

/* The link has been out of order and is back, or signals were lost in another way: no record tells whether the far end agrees. */
void exchange_link_back(struct exchange *x);

/* A second has gone by. */
void exchange_tick(struct exchange *x);

/* Whether nothing was sent or received on the circuit for longer than a round trip. */
int exchange_quiet(const struct exchange *x, uint32_t circuit);

#endif
