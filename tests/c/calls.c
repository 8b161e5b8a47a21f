/* Calls each function of the library from C, on the specification's job and on refused ones. Prints 'N passed, M failed'. */
#include "ropeclover.h"

#include <stdio.h>
#include <string.h>

static int passed, failed;

static void same(const char *what, uint64_t found, uint64_t expected)
{
    if (found == expected) {
        passed++;
        return;
    }
    failed++;
    printf("%s: found %llu, expected %llu\n", what, (unsigned long long)found, (unsigned long long)expected);
}

static const uint8_t job[] = {
    'S', 0, 0, 0, 'U', 0, 32, 0, 'P', 0, 1, 1, 'P', 1, 0, 1, 'U', 1, 33, 0, 'I', 0, 0, 0, 'F', 2, 0, 0, 'T', 0, 32, 1, 'T', 1, 33, 2,
    'T', 2, 32, 1,
};

static uint8_t table[ROPECLOVER_TABLE_BYTES];
static uint32_t reasons[ROPECLOVER_REASONS];

/* Whether a transition of a variable has this reason and this turn. */
static void learned(const char *what, const uint8_t transition[3], uint64_t reason, uint64_t turn)
{
    uint32_t entry = reasons[transition[0] * 1024 + transition[1] * 32 + transition[2]];
    same(what, ROPECLOVER_REASON(entry), reason);
    same(what, ROPECLOVER_TURN(entry), turn);
}

/* The transitions of variables at the end of the job, each with its reason and the step that adds it: after step n of a start n are done. Ranks:
 * 0 -> 1 1 is 0, 0 -> 32 is 1, 1 -> 0 1 is 2, 1 -> 33 is 3. */
static void has_turns(const char *what)
{
    static const struct {
        uint8_t transition[3];
        uint64_t reason, turn;
    } entries[] = {
        {{0, 0, 1}, 1 + 32, 1},         /* step 1 takes (0, 32, 1) */
        {{1, 1, 2}, 1 + 32 * 3, 3},     /* 2 takes (0, 0, 1), to which nothing adjoins yet, and 3 takes (1, 33, 2) */
        {{0, 1, 2}, 1 + 32 * 2 + 1, 4}, /* 4 takes (1, 1, 2), behind (0, 0, 1) */
        {{2, 0, 1}, 1 + 32, 6},         /* 5 takes (0, 1, 2), to which nothing adjoins yet, and 6 takes (2, 32, 1) */
        {{2, 1, 2}, 1 + 32 * 2 + 1, 7}, /* 7 takes (2, 0, 1), before (1, 1, 2) */
        {{0, 0, 2}, 1 + 2, 8},          /* 8 takes (2, 1, 2), behind (0, 1, 2), (1, 1, 2) and itself */
        {{1, 0, 2}, 1 + 2, 8},
        {{2, 0, 2}, 1 + 2, 8},
    };
    size_t count = sizeof entries / sizeof entries[0], written = 0;
    for (size_t i = 0; i < count; i++) {
        learned(what, entries[i].transition, entries[i].reason, entries[i].turn);
    }
    for (size_t i = 0; i < ROPECLOVER_REASONS; i++) {
        written += reasons[i] != 0;
    }
    same(what, written, count);
}

/* The macros take apart whatever 32 bits there are. */
static void takes_entries_apart(void)
{
    same("no reason", ROPECLOVER_REASON(0), 0);
    same("no turn", ROPECLOVER_TURN(0), 0);
    same("the largest reason", ROPECLOVER_REASON(UINT32_MAX), 65535);
    same("the largest turn", ROPECLOVER_TURN(UINT32_MAX), 65535);
    same("a reason of a sum", ROPECLOVER_REASON(65536u * 7 + 33), 33);
    same("a turn of a sum", ROPECLOVER_TURN(65536u * 7 + 33), 7);
}

/* The version is one in all its spellings, and every refusal has words of its own. */
static void says_versions_and_refusals(void)
{
    char spelled[32];
    snprintf(spelled, sizeof spelled, "%d.%d.%d", ROPECLOVER_VERSION_MAJOR, ROPECLOVER_VERSION_MINOR, ROPECLOVER_VERSION_PATCH);
    same("the version's parts", strcmp(spelled, ropeclover_version()), 0);
    same("the version", strcmp(ROPECLOVER_VERSION, ropeclover_version()), 0);
    for (uint64_t number = 0; number <= 18; number++) {
        same("a known refusal", strcmp(ropeclover_refusal_text(number), ropeclover_refusal_text(99)) != 0, 1);
        for (uint64_t other = 0; other < number; other++) {
            same("two refusals", strcmp(ropeclover_refusal_text(number), ropeclover_refusal_text(other)) != 0, 1);
        }
    }
    same("an unknown refusal", ropeclover_refusal_text(19) == ropeclover_refusal_text(UINT64_MAX), 1);
}

/* The places of an answer have names, which say what the functions' comments say. */
static void names_answers(void)
{
    uint64_t answer[ROPECLOVER_ANSWER_NUMBERS];
    ropeclover_start(job, sizeof job, table, sizeof table, reasons, ROPECLOVER_REASONS, answer);
    same("states by name", answer[ROPECLOVER_NUMBER_OF_STATES], 3);
    ropeclover_advance(job, sizeof job, table, sizeof table, reasons, ROPECLOVER_REASONS, ROPECLOVER_STEPS, answer);
    same("finished by name", answer[ROPECLOVER_IS_FINISHED], 1);
    same("steps by name", answer[ROPECLOVER_STEPS_MADE], 11);
    same("meetings by name", answer[ROPECLOVER_MEETINGS], 8);
    ropeclover_show(job, sizeof job - 4, answer);
    same("nothing shown by name", answer[ROPECLOVER_SHOWN_LENGTH], 0);
    ropeclover_start(job, sizeof job - 1, table, sizeof table, reasons, ROPECLOVER_REASONS, answer);
    same("a refusal by name", answer[ROPECLOVER_NUMBER], ROPECLOVER_PARTIAL_RECORD);
    same("its place by name", answer[ROPECLOVER_PLACE], 9);
}

static void saturates(void)
{
    uint64_t answer[5];
    ropeclover_start(job, sizeof job, table, sizeof table, reasons, ROPECLOVER_REASONS, answer);
    same("start refused", answer[0], 0);
    same("states", answer[2], 3);
    ropeclover_advance(job, sizeof job, table, sizeof table, reasons, ROPECLOVER_REASONS, 5, answer);
    same("steps", answer[3], 5);
    same("finished", answer[2], 0);
    uint64_t meetings = answer[4];
    ropeclover_advance(job, sizeof job, table, sizeof table, reasons, ROPECLOVER_REASONS, UINT64_MAX, answer);
    same("steps to the end", answer[3], 6);
    same("finished at the end", answer[2], 1);
    same("meetings in all", meetings + answer[4], 8);
    has_turns("turns");
    const uint8_t form[] = {0};
    ropeclover_ask(job, sizeof job, table, sizeof table, form, 1, answer);
    same("accepted", answer[2], 1);
}

/* S -> a | A A with A given and A -> empty, of rank 2: what a start writes has turn 0, whatever stood there. */
static void starts_at_turn_0(void)
{
    static const uint8_t begun[] = {
        'S', 0, 0, 0, 'U', 0, 32, 0, 'P', 0, 1, 1, 'E', 1, 0, 0, 'I', 0, 0, 0, 'T', 0, 1, 1,
    };
    uint64_t answer[3];
    memset(reasons, 0xff, sizeof reasons);
    ropeclover_start(begun, sizeof begun, table, sizeof table, reasons, ROPECLOVER_REASONS, answer);
    same("turn 0: states", answer[2], 2);
    learned("turn 0: given", (const uint8_t[]){0, 1, 1}, 65535, 0);
    learned("turn 0: by A -> empty", (const uint8_t[]){1, 1, 1}, 1 + 32 * 2, 0);
    learned("turn 0: not there", (const uint8_t[]){0, 0, 1}, 0, 0);
}

/* All places are done but a pending one and an absent one, which comes in at the largest turn; then all are. */
static void has_a_largest_turn(void)
{
    uint64_t answer[5];
    memset(table, ROPECLOVER_DONE, sizeof table);
    memset(reasons, 0x5a, sizeof reasons);
    /* (0, 32, 1) leads to (0, 0, 1) by 0 -> 32, of rank 1. */
    table[32 * 32 + 1] = ROPECLOVER_PENDING;
    table[1] = ROPECLOVER_ABSENT;
    for (uint64_t steps = 1; steps <= 2; steps++) {
        ropeclover_advance(job, sizeof job, table, sizeof table, reasons, ROPECLOVER_REASONS, 1, answer);
        same("largest turn: finished", answer[2], steps == 2);
        learned("largest turn", (const uint8_t[]){0, 0, 1}, 1 + 32, 65535);
    }
}

enum { DONE = ROPECLOVER_HALF_BYTES, PAST = 16 };

/* A bit table and what stands past it. */
static uint8_t bits[ROPECLOVER_BIT_TABLE_BYTES + PAST];

/* A byte of a bit table: the pending half first, then the done half. */
struct byte {
    size_t at;
    uint8_t byte;
};

/* Whether the bit table has these bytes, all others of its halves are 0, and what stands past it is 7. */
static void has_bits(const char *what, const struct byte *expected, size_t length)
{
    static uint8_t whole[sizeof bits];
    memset(whole, 0, ROPECLOVER_BIT_TABLE_BYTES);
    memset(whole + ROPECLOVER_BIT_TABLE_BYTES, 7, PAST);
    for (size_t i = 0; i < length; i++) {
        whole[expected[i].at] = expected[i].byte;
    }
    same(what, (uint64_t)memcmp(bits, whole, sizeof bits), 0);
}

/* Whether an answer begins with these numbers. */
static void answers(const char *what, const uint64_t *answer, const uint64_t *expected, size_t length)
{
    for (size_t i = 0; i < length; i++) {
        same(what, answer[i], expected[i]);
    }
}

/* The same job on a bit table. The place of (0, 32, 1) is 1025 = 8 * 128 + 1, of (1, 33, 2) 3106 = 8 * 388 + 2, of (2, 32, 1) 5121 = 8 * 640 + 1. */
static void saturates_bits(void)
{
    static const struct byte begun[] = {{128, 0x02}, {388, 0x04}, {640, 0x02}};
    /* (0, 32, 1) is done, and (0, 0, 1), of place 1, is pending. */
    static const struct byte after_one[] = {{0, 0x02}, {388, 0x04}, {640, 0x02}, {DONE + 128, 0x02}};
    static const struct byte finished[] = {
        {DONE + 0, 0x06},   /* (0, 0, 1) and (0, 0, 2) */
        {DONE + 4, 0x04},   /* (0, 1, 2) */
        {DONE + 128, 0x02},
        {DONE + 256, 0x04}, /* (1, 0, 2) */
        {DONE + 260, 0x04}, /* (1, 1, 2) */
        {DONE + 388, 0x04},
        {DONE + 512, 0x06}, /* (2, 0, 1) and (2, 0, 2) */
        {DONE + 516, 0x04}, /* (2, 1, 2) */
        {DONE + 640, 0x02},
    };
    static const uint8_t form[] = {0};
    uint64_t answer[5];
    memset(bits, 7, sizeof bits);
    memset(reasons, 7, sizeof reasons);
    ropeclover_start_bits(job, sizeof job, bits, sizeof bits, reasons, ROPECLOVER_REASONS, answer);
    answers("bits: start", answer, (const uint64_t[]){0, 0, 3}, 3);
    has_bits("bits: begun", begun, sizeof begun / sizeof begun[0]);
    same("bits: no reason yet", reasons[1], 0);
    ropeclover_done_count(bits, sizeof bits, answer);
    answers("bits: none done", answer, (const uint64_t[]){0, 0, 0}, 3);
    ropeclover_advance_bits(job, sizeof job, bits, sizeof bits, reasons, ROPECLOVER_REASONS, 1, answer);
    answers("bits: one step", answer, (const uint64_t[]){0, 0, 0, 1, 0}, 5);
    has_bits("bits: after one step", after_one, sizeof after_one / sizeof after_one[0]);
    /* By 0 -> 32, of rank 1, when one transition is done. */
    learned("bits: a reason", (const uint8_t[]){0, 0, 1}, 1 + 32, 1);
    ropeclover_ask_bits(job, sizeof job, bits, sizeof bits, form, 1, answer);
    answers("bits: not accepted yet", answer, (const uint64_t[]){0, 0, 0}, 3);
    ropeclover_advance_bits(job, sizeof job, bits, sizeof bits, reasons, ROPECLOVER_REASONS, UINT64_MAX, answer);
    answers("bits: to the end", answer, (const uint64_t[]){0, 0, 1, 10, 8}, 5);
    has_bits("bits: finished", finished, sizeof finished / sizeof finished[0]);
    has_turns("bits: turns");
    ropeclover_ask_bits(job, sizeof job, bits, sizeof bits, form, 1, answer);
    answers("bits: accepted", answer, (const uint64_t[]){0, 0, 1}, 3);
    ropeclover_done_count(bits, sizeof bits, answer);
    answers("bits: eleven done", answer, (const uint64_t[]){0, 0, 11}, 3);
}

/* A place with both bits is done: no step takes it, and the table is finished. */
static void keeps_both_bits(void)
{
    static const struct byte both[] = {{128, 0x02}, {DONE + 128, 0x02}};
    static const uint8_t form[] = {32};
    uint64_t answer[5];
    memset(bits, 0, ROPECLOVER_BIT_TABLE_BYTES);
    bits[128] = bits[DONE + 128] = 0x02;
    ropeclover_advance_bits(job, sizeof job, bits, sizeof bits, reasons, ROPECLOVER_REASONS, UINT64_MAX, answer);
    answers("both bits: nothing to do", answer, (const uint64_t[]){0, 0, 1, 0, 0}, 5);
    has_bits("both bits: kept", both, 2);
    ropeclover_done_count(bits, sizeof bits, answer);
    answers("both bits: counted once", answer, (const uint64_t[]){0, 0, 1}, 3);
    /* (0, 32, 1) leads to 1, and 2 is final. */
    ropeclover_ask_bits(job, sizeof job, bits, sizeof bits, form, 1, answer);
    answers("both bits: not accepted", answer, (const uint64_t[]){0, 0, 0}, 3);
}

/* Start and advance refused, for the fault that comes first: the answer is whole, and all that is lent stays. */
static void refuses_bits(void)
{
    static const struct {
        size_t bits, reasons, job;
        uint64_t number, place;
    } cases[] = {
        {0, 0, 3, ROPECLOVER_SHORT_BUFFER, 1},
        {ROPECLOVER_HALF_BYTES, ROPECLOVER_REASONS, sizeof job, ROPECLOVER_SHORT_BUFFER, 1},
        {ROPECLOVER_BIT_TABLE_BYTES - 1, ROPECLOVER_REASONS, sizeof job, ROPECLOVER_SHORT_BUFFER, 1},
        {ROPECLOVER_BIT_TABLE_BYTES, ROPECLOVER_REASONS - 1, 39, ROPECLOVER_SHORT_BUFFER, 2},
        {ROPECLOVER_BIT_TABLE_BYTES, ROPECLOVER_REASONS, 39, ROPECLOVER_PARTIAL_RECORD, 9},
        {ROPECLOVER_BIT_TABLE_BYTES, ROPECLOVER_REASONS, 20, ROPECLOVER_NO_INITIAL, 5},
    };
    static uint8_t bits_before[sizeof bits];
    static uint32_t reasons_before[ROPECLOVER_REASONS];
    memset(bits, 0x5a, sizeof bits);
    memset(reasons, 0x5a, sizeof reasons);
    memcpy(bits_before, bits, sizeof bits);
    memcpy(reasons_before, reasons, sizeof reasons);
    for (size_t i = 0; i < sizeof cases / sizeof cases[0]; i++) {
        const uint64_t expected[5] = {cases[i].number, cases[i].place};
        uint64_t answer[5] = {9, 9, 9, 9, 9};
        ropeclover_start_bits(job, cases[i].job, bits, cases[i].bits, reasons, cases[i].reasons, answer);
        answers("bits: start refused", answer, expected, 3);
        memset(answer, 9, sizeof answer);
        ropeclover_advance_bits(job, cases[i].job, bits, cases[i].bits, reasons, cases[i].reasons, 9, answer);
        answers("bits: advance refused", answer, expected, 5);
    }
    same("bits: the bit table stays", (uint64_t)memcmp(bits, bits_before, sizeof bits), 0);
    same("bits: the reasons stay", (uint64_t)memcmp(reasons, reasons_before, sizeof reasons), 0);
}

/* Ask and the done count refused, for the fault that comes first. */
static void refuses_to_read_bits(void)
{
    static const uint8_t form[ROPECLOVER_FORM_SYMBOLS + 1] = {0, ROPECLOVER_SYMBOLS};
    uint64_t answer[3] = {9, 9, 9};
    memset(bits, 0x5a, sizeof bits);
    ropeclover_ask_bits(job, 39, bits, ROPECLOVER_BIT_TABLE_BYTES - 1, form, sizeof form, answer);
    answers("bits: ask on a short table", answer, (const uint64_t[]){ROPECLOVER_SHORT_BUFFER, 1, 0}, 3);
    ropeclover_ask_bits(job, 39, bits, sizeof bits, form, sizeof form, answer);
    answers("bits: ask with 39 bytes", answer, (const uint64_t[]){ROPECLOVER_PARTIAL_RECORD, 9, 0}, 3);
    ropeclover_ask_bits(job, sizeof job, bits, sizeof bits, form, sizeof form, answer);
    answers("bits: a form too long", answer, (const uint64_t[]){ROPECLOVER_FORM_TOO_LONG, 65, 0}, 3);
    ropeclover_ask_bits(job, sizeof job, bits, sizeof bits, form, 2, answer);
    answers("bits: no symbol", answer, (const uint64_t[]){ROPECLOVER_NO_SYMBOL, 1, 0}, 3);
    memset(answer, 9, sizeof answer);
    ropeclover_done_count(bits, ROPECLOVER_BIT_TABLE_BYTES - 1, answer);
    answers("bits: count on a short table", answer, (const uint64_t[]){ROPECLOVER_SHORT_BUFFER, 1, 0}, 3);
    ropeclover_done_count(bits, ROPECLOVER_BIT_TABLE_BYTES, answer);
    /* 0x5a has four ones. */
    answers("bits: count", answer, (const uint64_t[]){0, 0, 4 * ROPECLOVER_HALF_BYTES}, 3);
}

static void explains(void)
{
    uint64_t answer[4];
    uint8_t listing[256];
    const uint8_t form[] = {32, 33};
    const uint8_t expected[] = {0, 32, 1, 'G', 0, 0, 0, 0, 1, 33, 2, 'G', 0, 0, 0, 0};
    memset(listing, 7, sizeof listing);
    ropeclover_explain(job, sizeof job, table, sizeof table, reasons, ROPECLOVER_REASONS, form, 2, listing, sizeof listing, answer);
    has_turns("explained turns");
    same("explained", answer[2], 1);
    same("records", answer[3], 2);
    same("listing", (uint64_t)memcmp(listing, expected, sizeof expected), 0);
    same("past the listing", listing[16], 7);
    ropeclover_explain(job, sizeof job, table, sizeof table, reasons, ROPECLOVER_REASONS, form, 2, listing, 15, answer);
    same("short listing", answer[0], ROPECLOVER_LISTING_TOO_SHORT);
    same("records needed", answer[1], 2);
}

/* S -> a S | a b, the terminals in the pairs, on the chain a a b: after its three transitions come (1, 0, 3) and (0, 0, 3), each by one
 * meeting. */
static const uint8_t pairs[] = {
    'S', 0, 0, 0, 'P', 0, 32, 0, 'P', 0, 32, 33, 'I', 0, 0, 0, 'F', 3, 0, 0, 'T', 0, 32, 1, 'T', 1, 32, 2, 'T', 2, 33, 3,
};

static void takes_terminals_in_pairs(void)
{
    uint64_t answer[5];
    uint8_t codes[ROPECLOVER_CODES], listing[40];
    const uint8_t form[] = {32, 0};
    const uint8_t expected[] = {
        0, 32, 1, 'G', 0, 0, 0, 0, 1, 32, 2, 'G', 0, 0, 0, 0, 2, 33, 3, 'G', 0, 0, 0, 0, 1, 0, 3, 'P', 32, 33, 2, 0,
    };
    ropeclover_start(pairs, sizeof pairs, table, sizeof table, reasons, ROPECLOVER_REASONS, answer);
    same("pairs: states", answer[2], 4);
    ropeclover_advance(pairs, sizeof pairs, table, sizeof table, reasons, ROPECLOVER_REASONS, UINT64_MAX, answer);
    same("pairs: finished", answer[2], 1);
    same("pairs: steps", answer[3], 5);
    same("pairs: meetings", answer[4], 2);
    /* 0 -> 32 33 has rank 1 and meets at 2 once all three given are done, 0 -> 32 0 has rank 0 and meets at 1 in the next step. */
    learned("pairs: a reason", (const uint8_t[]){1, 0, 3}, 1 + 32 + 2, 3);
    learned("pairs: another reason", (const uint8_t[]){0, 0, 3}, 1 + 1, 4);
    ropeclover_ask(pairs, sizeof pairs, table, sizeof table, form, 2, answer);
    same("pairs: accepted", answer[2], 1);
    memset(listing, 7, sizeof listing);
    ropeclover_explain(pairs, sizeof pairs, table, sizeof table, reasons, ROPECLOVER_REASONS, form, 2, listing, sizeof listing, answer);
    same("pairs: records", answer[3], 4);
    same("pairs: listing", (uint64_t)memcmp(listing, expected, sizeof expected), 0);
    same("pairs: past the listing", listing[sizeof expected], 7);
    ropeclover_verdicts(pairs, sizeof pairs, table, sizeof table, codes, sizeof codes, answer);
    same("pairs: empty", answer[2], 0);
    same("pairs: growing", answer[3], 1);
    same("pairs: code of a terminal", codes[33], ROPECLOVER_USEFUL);
    same("pairs: code of a terminal that no rule has", codes[34], ROPECLOVER_NOT_NAMED);
    ropeclover_show(pairs, sizeof pairs, answer);
    same("pairs: nothing to show", answer[1], 0);
}

static void judges(void)
{
    uint64_t answer[4];
    uint8_t codes[ROPECLOVER_CODES];
    ropeclover_verdicts(job, sizeof job, table, sizeof table, codes, sizeof codes, answer);
    same("empty", answer[2], 0);
    same("growing", answer[3], 1);
    same("code of a variable", codes[1], ROPECLOVER_USEFUL);
    same("code of an unnamed symbol", codes[63], ROPECLOVER_NOT_NAMED);
    same("table is cleared", table[32 * 1 + 1], 0);
}

static void refuses(void)
{
    uint64_t answer[4];
    uint8_t codes[ROPECLOVER_CODES];
    ropeclover_start(job, sizeof job, table, 65535, reasons, ROPECLOVER_REASONS, answer);
    same("short table", answer[0] * 100 + answer[1], 1001);
    ropeclover_verdicts(job, sizeof job, table, sizeof table, codes, 63, answer);
    same("short codes", answer[0] * 100 + answer[1], 1003);
    ropeclover_verdicts(job, 39, table, sizeof table, codes, 64, answer);
    same("39 bytes", answer[0] * 100 + answer[1], 109);
    uint8_t bad[sizeof job];
    memcpy(bad, job, sizeof job);
    bad[8] = 'X';
    ropeclover_show(bad, sizeof bad, answer);
    same("shown at", answer[0], 8);
    same("shown bytes", answer[1], 4);
    ropeclover_show(job, sizeof job, answer);
    same("nothing to show", answer[1], 0);
}

/* Each refusal of a job by its name in the header. */
static void names_refusals(void)
{
    static const struct {
        uint8_t job[12];
        size_t length;
        uint64_t number, place;
    } cases[] = {
        {{'S', 0, 0}, 3, ROPECLOVER_PARTIAL_RECORD, 0},
        {{'S', 0, 0, 0, 'Q', 0, 0, 0}, 8, ROPECLOVER_UNKNOWN_KIND, 1},
        {{'S', ROPECLOVER_VARIABLES, 0, 0}, 4, ROPECLOVER_FIELD_OUTSIDE_CLASS, 0},
        {{'U', 0, ROPECLOVER_SYMBOLS, 0}, 4, ROPECLOVER_FIELD_OUTSIDE_CLASS, 0},
        {{'I', ROPECLOVER_STATES, 0, 0}, 4, ROPECLOVER_FIELD_OUTSIDE_CLASS, 0},
        {{'P', ROPECLOVER_VARIABLES, 0, 0}, 4, ROPECLOVER_FIELD_OUTSIDE_CLASS, 0},
        {{'S', 0, 0, 0, 'P', 0, ROPECLOVER_SYMBOLS, 0}, 8, ROPECLOVER_FIELD_OUTSIDE_CLASS, 1},
        {{'S', 0, 0, 0, 'P', 0, 0, ROPECLOVER_SYMBOLS}, 8, ROPECLOVER_FIELD_OUTSIDE_CLASS, 1},
        {{'S', 0, 0, 0, 'I', 0, 0, 0, 'P', 0, ROPECLOVER_SYMBOLS - 1, ROPECLOVER_VARIABLES}, 12, ROPECLOVER_ACCEPTED, 0},
        {{'I', 0, 0, 0, 'S', 0, 0, 0, 'S', 0, 0, 0}, 12, ROPECLOVER_REPEATED, 2},
        {{'I', 0, 0, 0, 'S', 0, 0, 0, 'S', 1, 0, 0}, 12, ROPECLOVER_SECOND, 2},
        {{'I', 0, 0, 0}, 4, ROPECLOVER_NO_START, 1},
        {{'S', 0, 0, 0}, 4, ROPECLOVER_NO_INITIAL, 1},
        {{'S', 0, 0, 0, 'I', 0, 0, 0}, 8, ROPECLOVER_ACCEPTED, 0},
    };
    uint64_t answer[3];
    for (size_t i = 0; i < sizeof cases / sizeof cases[0]; i++) {
        ropeclover_start(cases[i].job, cases[i].length, table, sizeof table, reasons, ROPECLOVER_REASONS, answer);
        same("number of a refusal", answer[0], cases[i].number);
        same("place of a refusal", answer[1], cases[i].place);
    }
}

/* The limits that the header names are those of the library. */
static void has_limits(void)
{
    static uint8_t records[ROPECLOVER_JOB_BYTES + 4] = {'S', 0, 0, 0, 'I', 0, 0, 0};
    static uint8_t rules[4 * (ROPECLOVER_RULES + 3)] = {'S', 0, 0, 0, 'I', 0, 0, 0};
    static uint8_t form[ROPECLOVER_FORM_SYMBOLS + 1];
    uint64_t answer[3];
    for (size_t i = 2; i < sizeof records / 4; i++) {
        const uint8_t record[] = {'T', (uint8_t)(i / 1024), (uint8_t)(i / 32 % 32), (uint8_t)(i % 32)};
        memcpy(records + 4 * i, record, 4);
    }
    ropeclover_start(records, ROPECLOVER_JOB_BYTES, table, sizeof table, reasons, ROPECLOVER_REASONS, answer);
    same("the longest job", answer[0], 0);
    ropeclover_start(records, sizeof records, table, sizeof table, reasons, ROPECLOVER_REASONS, answer);
    same("one record more", answer[0], ROPECLOVER_JOB_TOO_LONG);
    for (size_t i = 2; i < sizeof rules / 4; i++) {
        const uint8_t rule[] = {'P', (uint8_t)(i / 32), (uint8_t)(i % 32), 0};
        memcpy(rules + 4 * i, rule, 4);
    }
    ropeclover_start(rules, sizeof rules - 4, table, sizeof table, reasons, ROPECLOVER_REASONS, answer);
    same("the most rules", answer[0], 0);
    ropeclover_start(rules, sizeof rules, table, sizeof table, reasons, ROPECLOVER_REASONS, answer);
    same("one rule more", answer[0], ROPECLOVER_TOO_MANY_RULES);
    ropeclover_ask(job, sizeof job, table, sizeof table, form, ROPECLOVER_FORM_SYMBOLS, answer);
    same("the longest form", answer[0], 0);
    ropeclover_ask(job, sizeof job, table, sizeof table, form, sizeof form, answer);
    same("one symbol more", answer[0], ROPECLOVER_FORM_TOO_LONG);
    form[3] = ROPECLOVER_SYMBOLS;
    ropeclover_ask(job, sizeof job, table, sizeof table, form, ROPECLOVER_FORM_SYMBOLS, answer);
    same("no symbol", answer[0] * 100 + answer[1], 100 * ROPECLOVER_NO_SYMBOL + 3);
    ropeclover_start(job, sizeof job, table, sizeof table - 1, reasons, ROPECLOVER_REASONS, answer);
    same("a byte less", answer[0], ROPECLOVER_SHORT_BUFFER);
}

/* S -> a S b S in one record: 1 and 2 for the tails S b S and b S. */
static const uint8_t text[] = {
    'S', 0, 0, 0, 0, 0, 0, 0, 0, 0, 0, 0, 'L', 0, 4, 32, 0, 33, 0, 0, 0, 0, 0, 0, 'I', 0, 0, 0, 0, 0, 0, 0, 0, 0, 0, 0,
};
static const uint8_t split[] = {
    'S', 0, 0, 0, 'P', 0, 32, 1, 'P', 1, 0, 2, 'P', 2, 33, 0, 'I', 0, 0, 0,
};

enum { GUARD = 64 };

/* A function that writes a job, and the bytes that are expected of it. */
struct writer {
    void (*call)(const uint8_t *, size_t, uint8_t *, size_t, uint64_t[3]);
    const uint8_t *bytes;
    size_t length;
};

/* Calls such a function on a buffer of a length between guard bytes, and says whether it has what is expected in front of 7s. */
static void writes(const char *what, struct writer writer, const uint8_t *input, size_t length, size_t room, const uint64_t expected[3])
{
    static uint8_t memory[GUARD + ROPECLOVER_JOB_BYTES + GUARD];
    uint64_t answer[3] = {9, 9, 9};
    size_t written = 4 * (size_t)expected[2];
    memset(memory, 7, sizeof memory);
    writer.call(input, length, memory + GUARD, room, answer);
    answers(what, answer, expected, 3);
    same(what, (uint64_t)memcmp(memory + GUARD, writer.bytes, written), 0);
    size_t changed = 0;
    for (size_t i = 0; i < sizeof memory; i++) {
        changed += (i < GUARD || i >= GUARD + written) && memory[i] != 7;
    }
    same(what, changed, 0);
}

/* Calls it on buffers with bytes to spare, with none, with a byte too few, and of no bytes. */
static void needs_room(const char *what, struct writer writer, const uint8_t *input, size_t length)
{
    const uint64_t accepted[] = {0, 0, writer.length / 4}, needed[] = {ROPECLOVER_JOB_TOO_SHORT, writer.length / 4, 0};
    writes(what, writer, input, length, ROPECLOVER_JOB_BYTES, accepted);
    writes(what, writer, input, length, writer.length, accepted);
    writes(what, writer, input, length, writer.length - 1, needed);
    writes(what, writer, input, length, 0, needed);
}

static const struct writer binarize = {ropeclover_binarize, split, sizeof split};

static void binarizes(const char *what, const uint8_t *input, size_t length, size_t room, const uint64_t expected[3])
{
    writes(what, binarize, input, length, room, expected);
}

static void binarizes_long_bodies(void)
{
    needs_room("a long body", binarize, text, sizeof text);
    static const uint64_t partial[] = {ROPECLOVER_PARTIAL_RECORD, 2, 0}, none[] = {ROPECLOVER_NO_START, 0, 0};
    binarizes("35 bytes", text, 35, ROPECLOVER_JOB_BYTES, partial);
    binarizes("no records", text, 0, ROPECLOVER_JOB_BYTES, none);
    static const uint64_t no_initial[] = {ROPECLOVER_NO_INITIAL, 2, 0}, no_start[] = {ROPECLOVER_NO_START, 2, 0};
    binarizes("no I", text, 24, ROPECLOVER_JOB_BYTES, no_initial);
    binarizes("no S", text + 12, 24, ROPECLOVER_JOB_BYTES, no_start);
    uint8_t written[ROPECLOVER_JOB_BYTES];
    uint64_t answer[3];
    ropeclover_binarize(text, sizeof text, written, sizeof written, answer);
    ropeclover_start(written, 4 * answer[2], table, sizeof table, reasons, ROPECLOVER_REASONS, answer);
    same("the job written is accepted", answer[0], 0);
    same("its states", answer[2], 1);
}

/* Each refusal of a record in a long job: a byte of the text is another. */
static void names_refusals_of_long_bodies(void)
{
    static const struct {
        size_t at;
        uint8_t byte;
        uint64_t number, place;
    } cases[] = {
        {12, 'K', ROPECLOVER_UNKNOWN_KIND, 1},
        {13, ROPECLOVER_VARIABLES, ROPECLOVER_FIELD_OUTSIDE_CLASS, 1},
        {18, ROPECLOVER_SYMBOLS, ROPECLOVER_FIELD_OUTSIDE_CLASS, 1},
        {1, ROPECLOVER_VARIABLES, ROPECLOVER_FIELD_OUTSIDE_CLASS, 0},
        {14, ROPECLOVER_BODY_SYMBOLS + 1, ROPECLOVER_ILL_PADDED, 1},
        {14, 2, ROPECLOVER_ILL_PADDED, 1},
        {19, 1, ROPECLOVER_ILL_PADDED, 1},
        {23, 1, ROPECLOVER_ILL_PADDED, 1},
        {28, 1, ROPECLOVER_ILL_PADDED, 2},
        {24, 'S', ROPECLOVER_SECOND, 2},
    };
    for (size_t i = 0; i < sizeof cases / sizeof cases[0]; i++) {
        uint8_t bad[sizeof text];
        const uint64_t expected[] = {cases[i].number, cases[i].place, 0};
        memcpy(bad, text, sizeof text);
        bad[cases[i].at] = cases[i].byte;
        binarizes("a refusal in a long job", bad, sizeof bad, ROPECLOVER_JOB_BYTES, expected);
    }
}

/* The limits of a long job that the header names. */
static void has_limits_of_long_bodies(void)
{
    static uint8_t records[ROPECLOVER_LONG_JOB_BYTES + ROPECLOVER_LONG_RECORD_BYTES];
    static const uint64_t too_long[] = {ROPECLOVER_JOB_TOO_LONG, sizeof records, 0};
    static const uint64_t repeated[] = {ROPECLOVER_REPEATED, 1, 0};
    static const uint64_t too_few[] = {ROPECLOVER_TOO_FEW_VARIABLES, 5, 0};
    for (size_t i = 0; i < sizeof records; i += ROPECLOVER_LONG_RECORD_BYTES) {
        records[i] = 'F';
    }
    binarizes("the longest long job", records, ROPECLOVER_LONG_JOB_BYTES, 0, repeated);
    binarizes("one record more", records, sizeof records, 0, too_long);
    /* A body of eight variables takes six: 31 are free, which is enough for five such rules. */
    for (size_t i = 0; i < 6; i++) {
        memcpy(records + i * ROPECLOVER_LONG_RECORD_BYTES, (const uint8_t[]){'L', 0, ROPECLOVER_BODY_SYMBOLS}, 3);
    }
    binarizes("one tail too many", records, 6 * ROPECLOVER_LONG_RECORD_BYTES, ROPECLOVER_JOB_BYTES, too_few);
}

/* 9 -> 5 a | b | b 7 without a rule for 7, 5 -> empty, and 6 -> b, which is never reached: of the useful variables, 5 becomes 0 and 9 becomes 1. */
static const uint8_t unclean[] = {
    'U', 9, 33, 0, 'P', 9, 33, 7, 'F', 1, 0, 0, 'P', 9, 5, 32, 'U', 6, 33, 0, 'E', 5, 0, 0, 'S', 9, 0, 0, 'T', 0, 6, 1,
};
static const uint8_t copy[] = {
    'S', 1, 0, 0, 'E', 0, 0, 0, 'P', 1, 0, 32, 'U', 1, 33, 0,
};

static const struct writer clean = {ropeclover_clean, copy, sizeof copy};

static void cleans_jobs(void)
{
    needs_room("a copy", clean, unclean, sizeof unclean);
    needs_room("a copy of a copy", clean, copy, sizeof copy);
    static const uint8_t none[] = {'S', 9, 0, 0, 'P', 9, 32, 9}, record[] = {'S', 0, 0, 0};
    static const struct writer start = {ropeclover_clean, record, sizeof record};
    needs_room("a copy of an empty language", start, none, sizeof none);
    uint8_t written[ROPECLOVER_COPY_BYTES], codes[ROPECLOVER_CODES];
    uint64_t answer[4];
    ropeclover_clean(unclean, sizeof unclean, written, sizeof written, answer);
    ropeclover_verdicts(written, 4 * answer[2], table, sizeof table, codes, sizeof codes, answer);
    same("the copy is accepted", answer[0], 0);
    same("its language", answer[2], 0);
}

/* Each refusal of a job that clean can make, also where the buffer has no bytes. */
static void names_refusals_of_clean(void)
{
    static const struct {
        uint8_t job[12];
        size_t length;
        uint64_t expected[3];
    } cases[] = {
        {{'S', 0, 0}, 3, {ROPECLOVER_PARTIAL_RECORD, 0, 0}},
        {{'S', 0, 0, 0, 'L', 0, 0, 0}, 8, {ROPECLOVER_UNKNOWN_KIND, 1, 0}},
        {{'S', 0, 0, 0, 'U', 0, ROPECLOVER_SYMBOLS, 0}, 8, {ROPECLOVER_FIELD_OUTSIDE_CLASS, 1, 0}},
        {{'I', 0, 0, 0, 'S', 0, 0, 0, 'S', 0, 0, 0}, 12, {ROPECLOVER_REPEATED, 2, 0}},
        {{'I', 0, 0, 0, 'S', 0, 0, 0, 'S', 1, 0, 0}, 12, {ROPECLOVER_SECOND, 2, 0}},
        {{'I', 0, 0, 0, 'E', 0, 0, 0}, 8, {ROPECLOVER_NO_START, 2, 0}},
        {{0}, 0, {ROPECLOVER_NO_START, 0, 0}},
    };
    for (size_t i = 0; i < sizeof cases / sizeof cases[0]; i++) {
        writes("a refusal by clean", clean, cases[i].job, cases[i].length, ROPECLOVER_COPY_BYTES, cases[i].expected);
        writes("a refusal by clean, no bytes", clean, cases[i].job, cases[i].length, 0, cases[i].expected);
    }
}

/* The longest job, the most rules, and the longest copy are those that the header names. */
static void has_limits_of_clean(void)
{
    static uint8_t rules[4 * (ROPECLOVER_RULES + 2)] = {'S', 0, 0, 0}, longest[ROPECLOVER_JOB_BYTES + 4];
    static const uint64_t too_long[] = {ROPECLOVER_JOB_TOO_LONG, sizeof longest, 0};
    static const uint64_t too_many[] = {ROPECLOVER_TOO_MANY_RULES, ROPECLOVER_RULES + 1, 0};
    /* The rules stand in the order of their ranks and all are of use, so that the copy is the job itself. */
    for (size_t i = 1; i < sizeof rules / 4; i++) {
        const uint8_t rule[] = {'P', 0, (uint8_t)(32 + i / 32), (uint8_t)(32 + i % 32)};
        memcpy(rules + 4 * i, rule, 4);
    }
    const struct writer most = {ropeclover_clean, rules, ROPECLOVER_COPY_BYTES};
    same("the longest copy in bytes", ROPECLOVER_COPY_BYTES, sizeof rules - 4);
    needs_room("the longest copy", most, rules, sizeof rules - 4);
    writes("clean: one rule more", clean, rules, sizeof rules, ROPECLOVER_COPY_BYTES, too_many);
    writes("clean: one record more", clean, longest, sizeof longest, ROPECLOVER_COPY_BYTES, too_long);
}

/* Go is 0 and has three alternatives. The first takes 1 for the letter of its string, then 2 for the tail 'go 1'; the second has 1 again. The
 * characters 1, F and f are 32, 33 and 34. */
static const char abnf[] = "Go = \"f\" go %x31 / \"F\" ; a comment\r\ngO =/ \"\"\r\n";
static const uint8_t characters[ROPECLOVER_MAP_BYTES] = {'1', 'F', 'f'};
static const uint8_t of_abnf[] = {
    'S', 0, 0, 0, 'E', 0, 0, 0, 'P', 0, 1, 2, 'U', 0, 1, 0, 'U', 1, 33, 0, 'U', 1, 34, 0, 'P', 2, 0, 32,
};

/* What is expected of a text: the answer, and where it is accepted the map and the job. */
struct reading {
    uint64_t answer[4];
    const uint8_t *map, *job;
};

/* Reads a text, with a map and a buffer of some lengths between guard bytes, and says whether both have what is expected in front of 7s. */
static void reads(const char *what, const char *input, size_t length, size_t map_room, size_t room, struct reading expected)
{
    static uint8_t map[GUARD + ROPECLOVER_MAP_BYTES + GUARD], memory[GUARD + ROPECLOVER_COPY_BYTES + GUARD];
    size_t mapped = expected.answer[0] == 0 ? ROPECLOVER_MAP_BYTES : 0, written = 4 * (size_t)expected.answer[2], changed = 0;
    uint64_t answer[4] = {9, 9, 9, 9};
    memset(map, 7, sizeof map);
    memset(memory, 7, sizeof memory);
    ropeclover_read_abnf((const uint8_t *)input, length, map + GUARD, map_room, memory + GUARD, room, answer);
    answers(what, answer, expected.answer, 4);
    for (size_t i = 0; i < sizeof map; i++) {
        changed += map[i] != (i >= GUARD && i < GUARD + mapped ? expected.map[i - GUARD] : 7);
    }
    for (size_t i = 0; i < sizeof memory; i++) {
        changed += memory[i] != (i >= GUARD && i < GUARD + written ? expected.job[i - GUARD] : 7);
    }
    same(what, changed, 0);
}

static void reads_abnf(void)
{
    const struct reading expected = {{0, 0, sizeof of_abnf / 4, 3}, characters, of_abnf};
    const struct reading short_map = {{ROPECLOVER_SHORT_BUFFER, 3, 0, 0}, NULL, NULL};
    const struct reading short_job = {{ROPECLOVER_JOB_TOO_SHORT, sizeof of_abnf / 4, 0, 0}, NULL, NULL};
    size_t length = strlen(abnf);
    for (size_t map = ROPECLOVER_MAP_BYTES; map <= ROPECLOVER_MAP_BYTES + 1; map++) {
        reads("a text", abnf, length, map, ROPECLOVER_COPY_BYTES, expected);
        reads("a text with no byte to spare", abnf, length, map, sizeof of_abnf, expected);
        reads("a text with a byte too few", abnf, length, map, sizeof of_abnf - 1, short_job);
        reads("a text with no bytes", abnf, length, map, 0, short_job);
    }
    reads("a short map", abnf, length, ROPECLOVER_MAP_BYTES - 1, ROPECLOVER_COPY_BYTES, short_map);
    reads("a short map before all else", abnf, 1, 0, 0, short_map);
    uint8_t map[ROPECLOVER_MAP_BYTES], read[ROPECLOVER_COPY_BYTES], codes[ROPECLOVER_CODES];
    uint64_t answer[ROPECLOVER_ANSWER_NUMBERS];
    ropeclover_read_abnf((const uint8_t *)abnf, length, map, sizeof map, read, sizeof read, answer);
    same("records of a text by name", answer[ROPECLOVER_RECORDS_WRITTEN], 7);
    same("characters of a text by name", answer[ROPECLOVER_CHARACTERS_USED], 3);
    ropeclover_verdicts(read, sizeof of_abnf, table, sizeof table, codes, sizeof codes, answer);
    same("the job of a text is accepted", answer[0], 0);
    same("the language of a text grows", answer[ROPECLOVER_IS_GROWING], 1);
}

/* 16 and 17, each where it is told, also with a buffer of no bytes. */
static void names_refusals_of_abnf(void)
{
    static const struct {
        const char *text;
        uint64_t number, place;
    } cases[] = {
        {"", ROPECLOVER_OUTSIDE_ABNF, 0},
        {"a=\"\"", ROPECLOVER_OUTSIDE_ABNF, 4},
        {"a=\"\"\n", ROPECLOVER_OUTSIDE_ABNF, 4},
        {"a=\"\"\r\n\r\n", ROPECLOVER_OUTSIDE_ABNF, 6},
        {"a=%x41-5A\r\n", ROPECLOVER_OUTSIDE_ABNF, 2},
        {"a=%x41-\r\n", ROPECLOVER_OUTSIDE_ABNF, 6},
        {"a=%x100\r\n", ROPECLOVER_OUTSIDE_ABNF, 2},
        {"a=%s\"x\"\r\n", ROPECLOVER_OUTSIDE_ABNF, 2},
        {"a=(a)\r\n", ROPECLOVER_OUTSIDE_ABNF, 2},
        {"a=b\r\nb=*a\r\n", ROPECLOVER_OUTSIDE_ABNF, 7},
        {"a=b\r\n", ROPECLOVER_NAME_OUT_OF_PLACE, 2},
        {"a=a ALPHA\r\n", ROPECLOVER_NAME_OUT_OF_PLACE, 4},
        {"a=/\"\"\r\n", ROPECLOVER_NAME_OUT_OF_PLACE, 0},
        {"a=\"\"\r\nA=\"\"\r\n", ROPECLOVER_NAME_OUT_OF_PLACE, 6},
    };
    for (size_t i = 0; i < sizeof cases / sizeof cases[0]; i++) {
        const struct reading expected = {{cases[i].number, cases[i].place, 0, 0}, NULL, NULL};
        reads("a refused text", cases[i].text, strlen(cases[i].text), ROPECLOVER_MAP_BYTES, ROPECLOVER_COPY_BYTES, expected);
        reads("a refused text, no bytes", cases[i].text, strlen(cases[i].text), ROPECLOVER_MAP_BYTES, 0, expected);
    }
}

/* A text that is made line by line, and the map and the job that are expected of it. */
static char made[ROPECLOVER_ABNF_BYTES + 1];
static size_t made_length;
static uint8_t made_map[ROPECLOVER_MAP_BYTES], made_job[ROPECLOVER_COPY_BYTES];

/* Begins such a text, of which nothing is expected but S. */
static void begins(void)
{
    made_length = 0;
    memset(made_map, 0, sizeof made_map);
    memset(made_job, 0, sizeof made_job);
    made_job[0] = 'S';
}

static void adds_line(const char *line)
{
    made_length += (size_t)snprintf(made + made_length, sizeof made - made_length, "%s\r\n", line);
}

/* Expects a rule as a record of the job, after S and those before it. */
static void expects_rule(size_t number, const uint8_t rule[4])
{
    memcpy(made_job + 4 + 4 * number, rule, 4);
}

/* Reads the text that was made, with buffers of the lengths that are always enough. */
static void reads_made(const char *what, const uint64_t expected[4])
{
    const struct reading reading = {{expected[0], expected[1], expected[2], expected[3]}, made_map, made_job};
    reads(what, made, made_length, ROPECLOVER_MAP_BYTES, ROPECLOVER_COPY_BYTES, reading);
}

/* As many names as there are variables, each with the empty body, and one more. */
static void has_a_most_of_names(void)
{
    char line[32];
    begins();
    for (unsigned i = 0; i < ROPECLOVER_VARIABLES; i++) {
        snprintf(line, sizeof line, "n%u=\"\"", i);
        adds_line(line);
        expects_rule(i, (const uint8_t[]){'E', (uint8_t)i, 0, 0});
    }
    reads_made("the most names", (const uint64_t[]){0, 0, 1 + ROPECLOVER_VARIABLES, 0});
    adds_line("n=\"\"");
    reads_made("one name more", (const uint64_t[]){ROPECLOVER_TOO_MANY_SYMBOLS, 1, 0, 0});
}

/* As many characters as the map has, NUL being the first, and one more. */
static void has_a_most_of_characters(void)
{
    char line[32];
    begins();
    for (unsigned i = 0; i < ROPECLOVER_MAP_BYTES; i++) {
        snprintf(line, sizeof line, "a%s%%x%X", i == 0 ? "=" : "=/", 7 * i);
        adds_line(line);
        made_map[i] = (uint8_t)(7 * i);
        expects_rule(i, (const uint8_t[]){'U', 0, (uint8_t)(32 + i), 0});
    }
    reads_made("the most characters", (const uint64_t[]){0, 0, 1 + ROPECLOVER_MAP_BYTES, ROPECLOVER_MAP_BYTES});
    adds_line("a=/%x1");
    reads_made("one character more", (const uint64_t[]){ROPECLOVER_TOO_MANY_SYMBOLS, 2, 0, 0});
}

/* All pairs of 16 characters, which are as many rules as there may be; a pair again, which is no other rule; and one more. */
static void has_a_most_of_rules(void)
{
    char line[32];
    begins();
    for (unsigned i = 0; i < ROPECLOVER_RULES; i++) {
        snprintf(line, sizeof line, "a%s%%xF%X.F%X", i == 0 ? "=" : "=/", i / 16, i % 16);
        adds_line(line);
        made_map[i / 16] = (uint8_t)(0xF0 + i / 16);
        expects_rule(i, (const uint8_t[]){'P', 0, (uint8_t)(32 + i / 16), (uint8_t)(32 + i % 16)});
    }
    reads_made("the most rules", (const uint64_t[]){0, 0, 1 + ROPECLOVER_RULES, 16});
    adds_line("a=/%xF0.F0");
    reads_made("a rule again", (const uint64_t[]){0, 0, 1 + ROPECLOVER_RULES, 16});
    adds_line("a=/\"\"");
    reads_made("one rule more", (const uint64_t[]){ROPECLOVER_TOO_MANY_RULES, ROPECLOVER_RULES + 1, 0, 0});
}

/* A comment makes a text as long as it may be, and a byte longer. */
static void has_a_longest_text(void)
{
    begins();
    memset(made, '-', sizeof made);
    memcpy(made, "a=\"\";", 5);
    made_length = ROPECLOVER_ABNF_BYTES;
    memcpy(made + made_length - 2, "\r\n", 2);
    expects_rule(0, (const uint8_t[]){'E', 0, 0, 0});
    reads_made("the longest text", (const uint64_t[]){0, 0, 2, 0});
    made_length++;
    reads_made("one byte more", (const uint64_t[]){ROPECLOVER_JOB_TOO_LONG, ROPECLOVER_ABNF_BYTES + 1, 0, 0});
}

int main(void)
{
    takes_entries_apart();
    says_versions_and_refusals();
    names_answers();
    saturates();
    starts_at_turn_0();
    has_a_largest_turn();
    saturates_bits();
    keeps_both_bits();
    refuses_bits();
    refuses_to_read_bits();
    explains();
    takes_terminals_in_pairs();
    judges();
    refuses();
    names_refusals();
    has_limits();
    binarizes_long_bodies();
    names_refusals_of_long_bodies();
    has_limits_of_long_bodies();
    cleans_jobs();
    names_refusals_of_clean();
    has_limits_of_clean();
    reads_abnf();
    names_refusals_of_abnf();
    has_a_most_of_names();
    has_a_most_of_characters();
    has_a_most_of_rules();
    has_a_longest_text();
    printf("%d passed, %d failed\n", passed, failed);
    return failed != 0;
}
