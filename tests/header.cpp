// The header from C++: it compiles alone, and the archive links by the names that it gives. What is answered is cases.c's matter.
#include "tup_names.h"

int main()
{
    uint8_t table[TUP_TABLE_OCTETS(2)] = {};
    uint8_t octets[TUP_MESSAGE_MAX], fields[TUP_MESSAGE_OCTETS];
    uint64_t chosen = tup_select(1, 2, table, sizeof table);
    uint64_t answer = tup_step(2, 1, table, sizeof table, 1, TUP_COMMAND, TUP_SEIZE, 0);
    const uint8_t address[] = {1, 2, 3};
    uint32_t written = tup_write(2, 1, 2, 1, tup_answer_first(answer), 0, 10, 2, address, sizeof address, octets, sizeof octets);
    uint64_t read = tup_read(1, 2, 2, octets, tup_written_length(written), fields, sizeof fields);
    uint64_t unread = tup_read(1, 2, 1, octets, tup_written_length(written), fields, sizeof fields);
    tup_step(2, 1, table, sizeof table, 0, TUP_SIGNAL, TUP_IAM, 0);
    tup_step(2, 1, table, sizeof table, 0, TUP_SIGNAL, TUP_CLF, 0);
    if (tup_counter(table) != 1 || tup_record_rank(table, 0) != 1 || tup_record_rank(table, 1) != 0)
        return 1;
    if (tup_selected_refusal(chosen) != TUP_ACCEPTED || tup_selected_circuit(chosen) != 1 || tup_selected_looked(chosen) != 2)
        return 1;
    // -Wswitch tells of a case that is missing here
    switch (tup_refusal_of_selected(chosen)) {
    case TUP_ACCEPTED: break;
    case TUP_NO_SUCH_GROUP: case TUP_NO_SUCH_CIRCUIT: case TUP_NO_SUCH_EVENT: case TUP_FAR_BLOCKED: case TUP_COMMAND_NOT_ALLOWED:
    case TUP_TIMER_NOT_RUNNING: case TUP_WRONG_LENGTH: case TUP_WRONG_LABEL: case TUP_NO_SUCH_HEADING: case TUP_WRONG_ADDRESS:
    case TUP_OUTPUT_TOO_SHORT: case TUP_BAD_RECORD: case TUP_COUNTER_FULL: case TUP_NO_CIRCUIT: case TUP_SHORT_NUMBER: return 1;
    }
    if (tup_refusal_of_read(read) != TUP_ACCEPTED || tup_refusal_of_read(unread) != TUP_NO_SUCH_CIRCUIT ||
        tup_read_refusal(unread) != TUP_NO_SUCH_CIRCUIT || tup_read_place(unread) != 3)
        return 1;
    if (!tup_controls(2, 1, 0) || tup_timers(TUP_OUT_SEIZED, 0) != tup_timer_bit(TUP_TIMER_ADDRESS) ||
        tup_state_name(TUP_IDLE)[0] != 'i')
        return 1;
    return tup_record_state(table, 1) == TUP_OUT_SEIZED && fields[TUP_MESSAGE_COUNT] == 3 ? 0 : 1;
}
