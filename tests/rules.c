/* docs/RULES.md against the archive. The page's tables come in the plain form that tools/rules prints, in the file named as the
   argument. Every legal record, both roles, every listed event: the answer and the table must be what the rows say, and where no
   row applies, what the page says of that. No two rows may apply to one case, and each row must apply in each of its states. The
   legal flags, the listed events, the names and the examples of messages refused are compared as well. */
#include "harness.h"
#include "tup.h"
#include "tup_names.h"

#include <stdio.h>
#include <stdlib.h>
#include <string.h>

enum { OCTET = 256, ROWS_MAX = 200, WORD = 128, KINDS = 4 };
enum { CONTROLLING = 1, NOT_CONTROLLING = 2 };
enum { SAME = OCTET, DETAIL = OCTET }; /* a new state, and a heading sent, that are none of the octets */

/* A row as printed, how often it applied in each of its states, and how often it said what would not have held without it. */
static struct row {
    unsigned line, kind, roles, needed, barred, sent[2], set, cleared, next, indication;
    uint8_t codes[OCTET], details[OCTET], states[OCTET];
    unsigned long applied[OCTET], told;
} rows[ROWS_MAX];
static unsigned rows_read;

static uint8_t legal[OCTET][OCTET];          /* by state and flags */
static uint8_t on_page[KINDS][OCTET][OCTET]; /* the events that the rows list, by kind, code and detail */

/* The sorts of names, in the words of the plain form. */
static const struct sort {
    const char *word;
    const char *(*name)(uint32_t);
} sorts[] = {
    {"state", tup_state_name},     {"flag", tup_flag_name},       {"indication", tup_indication_name},
    {"refusal", tup_refusal_name}, {"heading", tup_heading_name}, {"command", tup_command_name},
    {"timer", tup_timer_name},
};
enum { SORTS = sizeof sorts / sizeof *sorts };
static char names[SORTS][OCTET][WORD];

/* The case under way, of kind 0 where there is none, and the row under way. */
static struct call {
    uint32_t cic, kind, code, detail;
    unsigned state, flags;
    uint64_t counter, rank;
    const struct row *row;
} now;
static unsigned long calls;
static unsigned messages, shown[OCTET]; /* on the page, and how many of them with each refusal */

static void describe(void)
{
    if (now.kind != 0)
        printf("  state %u flags %u, %s; kind %u code 0x%02x detail 0x%02x; counter %llx\n", now.state, now.flags,
               now.cic == 0 ? "controlling" : "not controlling", now.kind, now.code, now.detail, (unsigned long long)now.counter);
    if (now.row != NULL)
        printf("  by the row in line %u of the page\n", now.row->line);
}

/* The plain form. */

static unsigned octet_of(const char *text)
{
    char *end;
    unsigned long number = strtoul(text, &end, 0);
    if (end == text || *end != '\0' || number >= OCTET)
        differ("the plain form has \"%s\" in the place of an octet", text);
    return (unsigned)number;
}

/* A list joined by commas; "-" stands for all. */
static void mark_listed(char *text, uint8_t *marks)
{
    if (strcmp(text, "-") == 0)
        memset(marks, 1, OCTET);
    else
        for (char *part = strtok(text, ","); part != NULL; part = strtok(NULL, ","))
            marks[octet_of(part)] = 1;
}

static unsigned kind_of(const char *word)
{
    for (unsigned kind = 1; kind < KINDS; kind++)
        if (strcmp(word, tup_kind_name(kind)) == 0)
            return kind;
    differ("no kind of event is called \"%s\"", word);
    return 0;
}

static void read_sent(char *text, unsigned *sent)
{
    unsigned count = 0;
    if (strcmp(text, "-") == 0)
        return;
    for (char *part = strtok(text, ","); part != NULL; part = strtok(NULL, ",")) {
        if (count == 2)
            differ("a row sends more than two signals");
        sent[count++] = strcmp(part, "detail") == 0 ? (unsigned)DETAIL : octet_of(part);
    }
}

static void read_row(const char *line)
{
    char kind[WORD], codes[WORD], details[WORD], states[WORD], roles[WORD], sent[WORD], next[WORD];
    struct row *row = rows + rows_read++;
    if (rows_read > ROWS_MAX)
        differ("more rows than there is room for");
    now.row = row;
    if (sscanf(line, "row %u %127s %127s %127s %127s %127s %u %u %127s %u %u %127s %u", &row->line, kind, codes, details, states,
               roles, &row->needed, &row->barred, sent, &row->set, &row->cleared, next, &row->indication) != 13)
        differ("no row in the plain form: %s", line);
    row->kind = kind_of(kind);
    row->roles = (strchr(roles, 'c') ? CONTROLLING : 0u) | (strchr(roles, 'n') ? NOT_CONTROLLING : 0u);
    row->next = strcmp(next, "same") == 0 ? (unsigned)SAME : octet_of(next);
    mark_listed(codes, row->codes);
    mark_listed(details, row->details);
    mark_listed(states, row->states);
    read_sent(sent, row->sent);
    now.row = NULL;
}

static void read_legal(const char *line)
{
    char flags[WORD], states[WORD];
    uint8_t those_flags[OCTET] = {0}, those_states[OCTET] = {0};
    if (sscanf(line, "legal %127s %127s", flags, states) != 2)
        differ("no legal flags in the plain form: %s", line);
    mark_listed(flags, those_flags);
    mark_listed(states, those_states);
    for (unsigned i = 0; i < OCTET * OCTET; i++)
        if (those_states[i / OCTET] && those_flags[i % OCTET])
            legal[i / OCTET][i % OCTET] = 1;
}

static void read_failures(const char *line)
{
    char codes[WORD];
    uint8_t failures[OCTET] = {0};
    unsigned count = 0;
    if (sscanf(line, "failures %127s", codes) != 1)
        differ("no failures in the plain form: %s", line);
    mark_listed(codes, failures);
    for (unsigned i = 0; i < OCTET; i++)
        count += failures[i];
    for (unsigned i = FAILURES_FROM; i < HEADINGS; i++)
        if (!failures[headings[i]] || count != HEADINGS - FAILURES_FROM)
            differ("the failures on the page are not the ones that the tests know");
}

static void read_name(const char *line)
{
    char word[WORD], number[WORD], name[WORD];
    unsigned i = 0;
    if (sscanf(line, "name %127s %127s %127[^\n]", word, number, name) != 3)
        differ("no name in the plain form: %s", line);
    while (i < SORTS && strcmp(word, sorts[i].word) != 0)
        i++;
    if (i == SORTS || names[i][octet_of(number)][0] != '\0')
        differ("a name of no sort, or a second one for its number: %s", line);
    strcpy(names[i][octet_of(number)], name);
}

/* A message that the page shows is read as the page says, at the exchange with code 1 from the one with code 2. */
static void read_message(const char *line)
{
    char text[WORD];
    uint8_t octets[WORD], fields[TUP_MESSAGE_OCTETS];
    unsigned at, circuits, refusal, place;
    if (sscanf(line, "read %u %127s %u %u %u", &at, text, &circuits, &refusal, &place) != 5)
        differ("no message in the plain form: %s", line);
    uint64_t got = tup_read(1, 2, circuits, octets, octets_in(text, octets), fields, sizeof fields);
    if (tup_read_refusal(got) != refusal || tup_read_place(got) != place)
        differ("the message in line %u of the page has refusal %u and place %llu", at, tup_read_refusal(got),
               (unsigned long long)tup_read_place(got));
    messages++;
    shown[tup_read_refusal(got)]++;
}

static void read_page(const char *path)
{
    char line[1024];
    FILE *file = fopen(path, "r");
    if (file == NULL)
        differ("cannot read %s", path);
    while (fgets(line, sizeof line, file) != NULL) {
        if (strncmp(line, "row ", 4) == 0)
            read_row(line);
        else if (strncmp(line, "legal ", 6) == 0)
            read_legal(line);
        else if (strncmp(line, "failures ", 9) == 0)
            read_failures(line);
        else if (strncmp(line, "read ", 5) == 0)
            read_message(line);
        else
            read_name(line);
    }
    fclose(file);
}

/* What the page says of one case. */

struct says {
    unsigned refusal, state, flags, indication, sent[2];
};

static int applies(const struct row *row)
{
    return row->kind == now.kind && row->codes[now.code] && row->details[now.detail] && row->states[now.state] &&
           (row->roles & (now.cic == 0 ? CONTROLLING : NOT_CONTROLLING)) && (now.flags & row->needed) == row->needed &&
           !(now.flags & row->barred);
}

static struct row *row_of_case(void)
{
    struct row *found = NULL;
    for (struct row *row = rows; row < rows + rows_read; row++) {
        if (!applies(row))
            continue;
        now.row = row;
        if (found != NULL)
            differ("the row in line %u applies as well", found->line);
        found = row;
    }
    return found;
}

/* A signal is discarded; a command is refused 5, or 4 for seize in idle with far block; a timer is refused 6. */
static struct says by_no_row(void)
{
    struct says says = {0, now.state, now.flags, 0, {0, 0}};
    if (now.kind == TUP_SIGNAL)
        says.indication = TUP_IND_DISCARDED;
    else if (now.kind == TUP_TIMER)
        says.refusal = TUP_TIMER_NOT_RUNNING;
    else if (now.code == TUP_SEIZE && now.state == TUP_IDLE && (now.flags & TUP_FAR_BLOCK))
        says.refusal = TUP_FAR_BLOCKED;
    else
        says.refusal = TUP_COMMAND_NOT_ALLOWED;
    return says;
}

static struct says by_row(struct row *row)
{
    struct says without = by_no_row();
    struct says says = {0, row->next, (now.flags & ~row->cleared) | row->set, row->indication, {0, 0}};
    if (row->next == SAME)
        says.state = now.state;
    for (int i = 0; i < 2; i++)
        says.sent[i] = row->sent[i] == DETAIL ? now.detail : row->sent[i];
    row->applied[now.state]++;
    row->told += memcmp(&says, &without, sizeof says) != 0;
    return says;
}

/* What the page says beside its rows of an event that frees a circuit: the counter rises, and the record takes it; or 13. */
static struct says with_rank(struct says says)
{
    struct says full = {TUP_COUNTER_FULL, now.state, now.flags, 0, {0, 0}};
    if (says.refusal != 0 || now.state == TUP_IDLE || says.state != TUP_IDLE)
        return says;
    if (now.counter == UINT64_MAX)
        return full;
    now.rank = ++now.counter;
    return says;
}

static void compare(const char *what, uint64_t got, uint64_t want)
{
    if (got != want)
        differ("%s: 0x%llx, and by the page 0x%llx%s", what, (unsigned long long)got, (unsigned long long)want,
               now.row == NULL ? ", where no row applies" : "");
}

static void one_case(void)
{
    uint8_t table[TUP_TABLE_OCTETS(2)] = {0};
    put_eight(table, now.counter);
    put_record(table, now.cic, now.state, now.flags, now.rank);
    now.row = NULL;
    struct row *row = row_of_case();
    struct says says = with_rank(row != NULL ? by_row(row) : by_no_row());
    uint64_t got = tup_step(2, 1, table, sizeof table, now.cic, now.kind, now.code, now.detail);
    calls++;
    compare("refusal", tup_answer_refusal(got), says.refusal);
    compare("state", tup_answer_state(got), says.state);
    compare("flags", tup_answer_flags(got), says.flags);
    compare("indication", tup_answer_indication(got), says.indication);
    compare("first heading", tup_answer_first(got), says.sent[0]);
    compare("second heading", tup_answer_second(got), says.sent[1]);
    compare("state in the table", tup_record_state(table, now.cic), says.state);
    compare("flags in the table", tup_record_flags(table, now.cic), says.flags);
    compare("counter", tup_counter(table), now.counter);
    compare("rank", tup_record_rank(table, now.cic), now.rank);
}

static void every_listed(uint64_t counter)
{
    for (unsigned i = 0; i < 2 * LISTED; i++) {
        const struct particulars *event = listed + i / 2;
        now.cic = i % 2, now.kind = event->kind, now.code = event->code, now.detail = event->detail;
        now.counter = counter, now.rank = 3;
        one_case();
    }
}

static void every_record(void)
{
    for (unsigned i = 0; i < OCTET * OCTET; i++) {
        now.state = i / OCTET, now.flags = i % OCTET;
        if (!legal[now.state][now.flags])
            continue;
        every_listed(7);
        every_listed(UINT64_MAX);
    }
    now.kind = 0, now.row = NULL;
}

static void every_row_applied(void)
{
    for (const struct row *row = rows; row < rows + rows_read; row++) {
        for (unsigned state = 0; state < OCTET; state++)
            if (row->states[state] && row->applied[state] == 0)
                differ("the row in line %u of the page applies to no record in state %u", row->line, state);
        if (row->told == 0)
            differ("the row in line %u of the page says nothing that would not hold without it", row->line);
    }
}

/* Refusal 12 is for the records that are not legal. */
static void every_legal(void)
{
    for (unsigned i = 0; i < OCTET * OCTET; i++) {
        uint8_t table[TUP_TABLE_OCTETS(1)] = {0};
        put_record(table, 0, i / OCTET, i % OCTET, 0);
        uint64_t got = tup_step(2, 1, table, sizeof table, 0, TUP_TIMER, TUP_TIMER_ADDRESS, 0);
        if ((tup_answer_refusal(got) == TUP_BAD_RECORD) == legal[i / OCTET][i % OCTET])
            differ("state %u with flags %u: the page and the archive do not agree that it is legal", i / OCTET, i % OCTET);
    }
}

/* The events of the rows: a signal's and a timer's detail is 0, and an ACM's any octet. */
static void mark_events(void)
{
    for (const struct row *row = rows; row < rows + rows_read; row++)
        for (unsigned i = 0; i < OCTET * OCTET; i++) {
            unsigned code = i / OCTET, detail = i % OCTET;
            int fits = detail == 0 || row->kind == TUP_COMMAND || (row->kind == TUP_SIGNAL && code == TUP_ACM);
            if (fits && row->codes[code] && row->details[detail])
                on_page[row->kind][code][detail] = 1;
        }
}

/* Refusal 3 is for the others, and the ones that are tried above are all of them but for an ACM's octets. */
static void every_event(void)
{
    unsigned count = 0;
    mark_events();
    for (unsigned i = OCTET * OCTET; i < KINDS * OCTET * OCTET; i++) {
        uint8_t table[TUP_TABLE_OCTETS(1)] = {0};
        unsigned kind = i / OCTET / OCTET, code = i / OCTET % OCTET, detail = i % OCTET;
        uint64_t got = tup_step(2, 1, table, sizeof table, 0, kind, code, detail);
        if ((tup_answer_refusal(got) == TUP_NO_SUCH_EVENT) == on_page[kind][code][detail])
            differ("kind %u code %u detail %u: the page and the archive do not agree that it is listed", kind, code, detail);
        count += on_page[kind][code][detail];
    }
    if (count != LISTED + OCTET - 1)
        differ("the page lists %u events and the tests know %u", count - (OCTET - 1), LISTED);
}

static void every_name(void)
{
    for (unsigned i = 0; i < SORTS * OCTET; i++) {
        const char *page = names[i / OCTET][i % OCTET], *header = sorts[i / OCTET].name(i % OCTET);
        if (strcmp(*page != '\0' ? page : "?", header) != 0)
            differ("%s %u is \"%s\" on the page and \"%s\" in tup_names.h", sorts[i / OCTET].word, i % OCTET, page, header);
    }
}

/* Every refusal that a message can have has an example on the page; 11 is about the output. */
static void every_refusal_shown(void)
{
    static const uint8_t refusals[] = {TUP_ACCEPTED, TUP_NO_SUCH_GROUP, TUP_NO_SUCH_CIRCUIT, TUP_WRONG_LENGTH, TUP_WRONG_LABEL,
                                       TUP_NO_SUCH_HEADING, TUP_WRONG_ADDRESS, TUP_SHORT_NUMBER};
    for (unsigned i = 0; i < sizeof refusals; i++)
        if (shown[refusals[i]] == 0)
            differ("the page shows no message with refusal %u", refusals[i]);
}

int main(int argc, char **argv)
{
    harness_begin("rules", describe);
    if (argc != 2)
        differ("usage: rules FILE, what tools/rules printed");
    read_page(argv[1]);
    every_record();
    every_row_applied();
    covered("%lu events by %u rows of the page", calls, rows_read);
    every_legal();
    every_event();
    every_name();
    every_refusal_shown();
    covered("the page's legal flags, events and names as well, and %u messages", messages);
    return 0;
}
