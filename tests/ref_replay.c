/* The reference's replay as a program: a trace on standard input, its text on standard output. */
#include "reference.h"

int main(void)
{
    return ref_main(ref_replay);
}
