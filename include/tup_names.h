/* Names as text for the numbers of tup.h, as docs/RULES.md has them: states, flags, indications, refusals, headings, kinds,
   commands and timers. A number that has no name is "?". */
#ifndef TUP_NAMES_H
#define TUP_NAMES_H

#include "tup.h"

#ifdef __cplusplus
extern "C" {
#endif

static inline const char *tup_state_name(uint32_t state)
{
    switch (state) {
    case TUP_IDLE: return "idle";
    case TUP_OUT_SEIZED: return "outgoing seized";
    case TUP_OUT_PROCEEDING: return "outgoing proceeding";
    case TUP_OUT_ANSWERED: return "outgoing answered";
    case TUP_OUT_HUNG_UP: return "outgoing hung up";
    case TUP_AWAITING_RELEASE_GUARD: return "awaiting release-guard";
    case TUP_IN_SEIZED: return "incoming seized";
    case TUP_IN_PROCEEDING: return "incoming proceeding";
    case TUP_IN_SUBSCRIBER_FREE: return "incoming subscriber free";
    case TUP_IN_ANSWERED: return "incoming answered";
    case TUP_IN_HUNG_UP: return "incoming hung up";
    case TUP_IN_FAILED: return "incoming failed";
    case TUP_AWAITING_RESET: return "awaiting reset";
    default: return "?";
    }
}

/* One flag; of a record's flags ask for each that is set. */
static inline const char *tup_flag_name(uint32_t flag)
{
    switch (flag) {
    case TUP_OWN_BLOCK: return "own block";
    case TUP_FAR_BLOCK: return "far block";
    case TUP_AWAITING_BLA: return "awaiting BLA";
    case TUP_AWAITING_UBA: return "awaiting UBA";
    default: return "?";
    }
}

static inline const char *tup_indication_name(uint32_t indication)
{
    switch (indication) {
    case TUP_IND_NOTHING: return "nothing";
    case TUP_IND_INCOMING_CALL: return "incoming call";
    case TUP_IND_ADDRESS_COMPLETE: return "address complete";
    case TUP_IND_ANSWERED: return "answered";
    case TUP_IND_HUNG_UP: return "hung up";
    case TUP_IND_CIRCUIT_FREED: return "circuit freed";
    case TUP_IND_TRY_ELSEWHERE: return "try elsewhere";
    case TUP_IND_DISCARDED: return "discarded";
    case TUP_IND_ALERT_MAINTENANCE: return "alert maintenance";
    case TUP_IND_INCOMING_CALL_TRY_OWN_ELSEWHERE: return "incoming call and try elsewhere";
    case TUP_IND_CALL_FAILED: return "call failed";
    default: return "?";
    }
}

static inline const char *tup_refusal_name(uint32_t refusal)
{
    switch (refusal) {
    case TUP_ACCEPTED: return "accepted";
    case TUP_NO_SUCH_GROUP: return "no such group";
    case TUP_NO_SUCH_CIRCUIT: return "no such circuit";
    case TUP_NO_SUCH_EVENT: return "no such event";
    case TUP_FAR_BLOCKED: return "far blocked";
    case TUP_COMMAND_NOT_ALLOWED: return "command not allowed";
    case TUP_TIMER_NOT_RUNNING: return "timer not running";
    case TUP_WRONG_LENGTH: return "wrong length";
    case TUP_WRONG_LABEL: return "wrong label";
    case TUP_NO_SUCH_HEADING: return "no such heading";
    case TUP_WRONG_ADDRESS: return "wrong address";
    case TUP_OUTPUT_TOO_SHORT: return "output too short";
    case TUP_BAD_RECORD: return "bad record";
    case TUP_COUNTER_FULL: return "counter full";
    case TUP_NO_CIRCUIT: return "no circuit";
    case TUP_SHORT_NUMBER: return "short number";
    default: return "?";
    }
}

static inline const char *tup_heading_name(uint32_t heading)
{
    switch (heading) {
    case TUP_IAM: return "IAM";
    case TUP_ACM: return "ACM";
    case TUP_ANC: return "ANC";
    case TUP_ANN: return "ANN";
    case TUP_CBK: return "CBK";
    case TUP_CLF: return "CLF";
    case TUP_RAN: return "RAN";
    case TUP_RLG: return "RLG";
    case TUP_BLO: return "BLO";
    case TUP_BLA: return "BLA";
    case TUP_UBL: return "UBL";
    case TUP_UBA: return "UBA";
    case TUP_RSC: return "RSC";
    case TUP_SEC: return "SEC";
    case TUP_CGC: return "CGC";
    case TUP_NNC: return "NNC";
    case TUP_ADI: return "ADI";
    case TUP_CFL: return "CFL";
    case TUP_SSB: return "SSB";
    case TUP_UNN: return "UNN";
    case TUP_LOS: return "LOS";
    case TUP_SST: return "SST";
    default: return "?";
    }
}

static inline const char *tup_kind_name(uint32_t kind)
{
    switch (kind) {
    case TUP_SIGNAL: return "signal";
    case TUP_COMMAND: return "command";
    case TUP_TIMER: return "timer";
    default: return "?";
    }
}

static inline const char *tup_command_name(uint32_t command)
{
    switch (command) {
    case TUP_SEIZE: return "seize";
    case TUP_RELEASE: return "release";
    case TUP_ADDRESS_COMPLETE: return "address complete";
    case TUP_ANSWER: return "answer";
    case TUP_CLEAR_BACK: return "clear back";
    case TUP_RE_ANSWER: return "re-answer";
    case TUP_FAIL: return "fail";
    case TUP_BLOCK: return "block";
    case TUP_UNBLOCK: return "unblock";
    case TUP_RESTART: return "restart";
    default: return "?";
    }
}

static inline const char *tup_timer_name(uint32_t timer)
{
    switch (timer) {
    case TUP_TIMER_ADDRESS: return "address wait";
    case TUP_TIMER_ANSWER: return "answer wait";
    case TUP_TIMER_INCOMING_HANG_UP: return "incoming hang-up";
    case TUP_TIMER_REPEAT: return "repeat";
    case TUP_TIMER_MINUTE: return "one minute";
    case TUP_TIMER_BLOCK_REPEAT: return "block repeat";
    default: return "?";
    }
}

#ifdef __cplusplus
}
#endif

#endif
