/* Writes a long file of messages to standard output, as the far end sends them in calls and maintenance, for the benchmark of the
   list: every message can be read. */
#include "harness.h"
#include "reference.h"
#include "tup.h"

#include <stdio.h>
#include <stdlib.h>

enum { CIRCUITS = 4096 };

/* The signals of a call that is answered and cleared, and of a block and its end. */
static const uint8_t sent[] = {TUP_IAM, TUP_ACM, TUP_ANC, TUP_CBK, TUP_RAN, TUP_CLF, TUP_RLG, TUP_BLO, TUP_UBL};

int main(int argc, char **argv)
{
    unsigned messages = argc > 1 ? (unsigned)atoi(argv[1]) : 1000;
    static const uint8_t digits[] = {5, 5, 5, 0, 1, 2, 3, 15};
    printf("%c%c%c%c%c%c%c", 0, 1, 0, 2, 0, CIRCUITS & 255, CIRCUITS >> 8);
    for (unsigned i = 0; i < messages; i++) {
        uint32_t heading = sent[i % sizeof sent];
        int iam = heading == TUP_IAM;
        uint32_t nature = 2 + i / (unsigned)sizeof sent % 2; /* national and international numbers in turn */
        uint8_t octets[32];
        size_t length = ref_write(2, 1, CIRCUITS, draw(CIRCUITS), heading, heading == TUP_ACM ? 5 : 0, iam ? 10 : 0,
                                  iam ? nature : 0, digits, iam ? sizeof digits : 0, octets, sizeof octets) >> 8;
        putchar((int)length);
        fwrite(octets, 1, length, stdout);
    }
    return 0;
}
