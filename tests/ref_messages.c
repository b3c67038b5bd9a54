/* The reference's reading of a file of messages as a program: the file on standard input, a line a message on standard output. */
#include "reference.h"

int main(void)
{
    return ref_main(ref_messages);
}
