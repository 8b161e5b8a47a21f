/* Ropeclover: what a context-free grammar can say.
 *
 * A job holds a grammar and a nondeterministic automaton. The library adds to the automaton's transitions those that the rules allow, until
 * nothing changes: where A -> X or A -> X Y is a rule and its right side leads from state q to state r, the transition (q, A, r) is added; where
 * A -> empty is a rule, (q, A, q). Then a string of symbols, a form, leads from the initial state to a final one if, and only if, it derives a
 * string that the given automaton reads. The library also tells which symbols are useless, whether the language is empty and whether it grows, and
 * it writes a grammar without its useless rules, in a spelling that does not depend on how the job spells it. And it reads grammars from ABNF text.
 *
 * Platform: x86-64 Linux. Link with -lropeclover (pkg-config ropeclover).
 *
 * THE JOB
 *
 * Records of four bytes, in any order: a letter and three fields. Variables are 0 to 31, terminals 32 to 63, symbols are both, states are 0 to
 * 31. At most 4,096 records, of which at most 256 are rules (E, U, P); no record twice.
 *
 *   E  A 0 0    rule A -> empty             T  q X r    given transition from state q by symbol X to state r
 *   U  A X 0    rule A -> X, a symbol       I  q 0 0    initial state, exactly one
 *   P  A X Y    rule A -> X Y, symbols      F  q 0 0    final state, any number
 *   S  A 0 0    start symbol, exactly one
 *
 * The number of states is one more than the largest state in a T, I or F record. A rule's rank is its place, from 0, when the job's rules are
 * sorted by field 1, then by kind letter, then by fields 2 and 3.
 *
 * CALLING
 *
 * Every function takes each buffer as a pointer and its length in elements, and writes its answer whole, on every path:
 *
 *   answer[ROPECLOVER_NUMBER]  0, or the number of a refusal, which ropeclover_refusal_text puts into words
 *   answer[ROPECLOVER_PLACE]   0, or the place of the refusal
 *   the rest                   what is said at each function; all 0 with a refusal. Yes is 1, no is 0.
 *
 * A pointer is never NULL, not even where its length is 0. No two buffers may overlap. The library allocates nothing, keeps nothing between
 * calls, and may be called from any thread on memory that no other thread uses meanwhile. It needs less than 128 KiB of stack. Answers do not
 * depend on the order of the records, but that a long job is written, and the names of a text are numbered, in the order read.
 *
 * LONG BODIES
 *
 * Rules with bodies of up to eight symbols are written in a long job, which ropeclover_binarize makes an ordinary job of. Its records have twelve
 * bytes: those of an ordinary job padded with eight zeros, but that a rule may also be
 *
 *   L  A n X1 .. X8 0    rule A -> X1 .. Xn, symbols: n is 0 to 8, and the bytes past Xn are 0
 *
 * ABNF TEXT
 *
 * A grammar may also be given in ABNF, the notation of RFC 5234, which ropeclover_read_abnf makes a job of. A text is lines that end by CR and LF, each
 * of them one rule:
 *
 *   tune = "FA" digits / %x46.42 digits  ; a comment may end a line
 *   tune =/ "FR" digit
 *   digits = digit / digit digits
 *   digit = "0" / "1"
 *
 * A name is a letter, then letters, digits and dashes, without regard to case. Its first rule has =, each other one below has =/ and adds to it. A rule
 * has alternatives between slashes; an alternative has elements, with blanks or tabs between them: names, strings in quotes, and values, as %x46 or
 * %x46.42 in hexadecimal. Blanks and tabs may also stand around = and =/ and slashes, and behind the last element. For a letter in a string either case
 * serves, and "" is the empty string; a value stands for these very characters, letters or not. No name has a rule unless the text gives one, so ALPHA
 * and DIGIT have none.
 *
 * The rest of the RFC is outside: groups, options, repetition, ranges, prose values, values above FF or in another base, an empty text, and lines that
 * have no rule or go on with the one before. So are the strings of RFC 7405, as %s"x".
 *
 * THE LENT MEMORY
 *
 * The table has a byte for each transition (q, X, r), at q * 2048 + X * 32 + r: 0 absent, 1 pending, 2 done, 3 done and listed; 4 to 255 are
 * read as absent. The reasons have an entry for each transition (q, A, r) of a variable, at q * 1024 + A * 32 + r: its reason, which says why it
 * is there, plus 65536 times its turn, which says when it was learned. ROPECLOVER_REASON and ROPECLOVER_TURN take an entry apart.
 *
 *   reason    0 none, 65535 given, else 1 + 32 * rank + middle state
 *   turn      0 for what a start writes, given or by a rule A -> empty; for what a step adds, the number of done transitions right after that step
 *
 * Turns fall along reasons, and that is proved: if (q, A, r) has the reason A -> X Y with the middle m, the turns of (q, X, m) and (m, Y, r) are
 * smaller than its own, for those of X and Y that are variables. This holds from a start on, until something other than ropeclover_advance and
 * ropeclover_explain of that job, lent this table and these reasons, writes one of the two.
 *
 * Bytes and entries past ROPECLOVER_TABLE_BYTES and ROPECLOVER_REASONS are neither read nor written. Any contents are allowed: ropeclover_start
 * writes all of them.
 *
 * THE BIT TABLE
 *
 * A table in a quarter of the memory, for ropeclover_start_bits, ropeclover_advance_bits, ropeclover_ask_bits and ropeclover_done_count. It has
 * two halves of ROPECLOVER_HALF_BYTES, the pending half first, then the done half. The transition (q, X, r) has the place p = q * 2048 + X * 32 + r,
 * and in each half bit p % 8, the lowest being bit 0, of byte p / 8:
 *
 *   pending bit 0, done bit 0    absent
 *   pending bit 1, done bit 0    pending
 *   pending bit 0, done bit 1    done
 *   pending bit 1, done bit 1    done; no step takes it, and both bits stay
 *
 * The reasons are as above. From a start, after any number of steps, a bit table says of each transition what the table says, and the reasons and
 * answers are the same. Bytes past ROPECLOVER_BIT_TABLE_BYTES are neither read nor written. Any contents are allowed: ropeclover_start_bits writes
 * both halves whole. ropeclover_explain and ropeclover_verdicts take the table of bytes only.
 *
 * AN EXAMPLE
 *
 * S -> a | A A and A -> S A | b, with the automaton 0 -a-> 1 -b-> 2 -a-> 1, final state 2. It prints 'accepted', as S derives the string ab.
 *
 * example:
 *   #include <ropeclover.h>
 *   #include <stdio.h>
 *
 *   int main(void)
 *   {
 *       static const uint8_t job[] = {'S', 0, 0, 0, 'U', 0, 32, 0, 'P', 0, 1, 1, 'P', 1, 0, 1, 'U', 1, 33, 0,
 *                                     'I', 0, 0, 0, 'F', 2, 0, 0, 'T', 0, 32, 1, 'T', 1, 33, 2, 'T', 2, 32, 1};
 *       static const uint8_t form[] = {0};
 *       static uint8_t table[ROPECLOVER_TABLE_BYTES];
 *       static uint32_t reasons[ROPECLOVER_REASONS];
 *       uint64_t answer[ROPECLOVER_ANSWER_NUMBERS];
 *
 *       ropeclover_start(job, sizeof job, table, sizeof table, reasons, ROPECLOVER_REASONS, answer);
 *       while (answer[ROPECLOVER_NUMBER] == 0) {
 *           ropeclover_advance(job, sizeof job, table, sizeof table, reasons, ROPECLOVER_REASONS, 1000, answer);
 *           if (answer[ROPECLOVER_IS_FINISHED] == 1) {
 *               break;
 *           }
 *       }
 *       if (answer[ROPECLOVER_NUMBER] == 0) {
 *           ropeclover_ask(job, sizeof job, table, sizeof table, form, sizeof form, answer);
 *       }
 *       if (answer[ROPECLOVER_NUMBER] != 0) {
 *           printf("refused %d at %d: %s\n", (int)answer[ROPECLOVER_NUMBER], (int)answer[ROPECLOVER_PLACE],
 *                  ropeclover_refusal_text(answer[ROPECLOVER_NUMBER]));
 *           return 1;
 *       }
 *       puts(answer[ROPECLOVER_IS_ACCEPTED] == 1 ? "accepted" : "not accepted");
 *       return 0;
 *   }
 * end of the example
 */
#ifndef ROPECLOVER_H
#define ROPECLOVER_H

#include <stddef.h>
#include <stdint.h>

#ifdef __cplusplus
extern "C" {
#endif

#define ROPECLOVER_VERSION "0.2.0"
#define ROPECLOVER_VERSION_MAJOR 0
#define ROPECLOVER_VERSION_MINOR 2
#define ROPECLOVER_VERSION_PATCH 0

/* The lengths to lend. A longer buffer is taken too; a shorter one is refused. */
#define ROPECLOVER_TABLE_BYTES 65536
#define ROPECLOVER_BIT_TABLE_BYTES 16384
#define ROPECLOVER_REASONS 32768
#define ROPECLOVER_CODES 64
#define ROPECLOVER_MAP_BYTES 32

/* The bytes of a half of the bit table: the done half begins here. */
#define ROPECLOVER_HALF_BYTES 8192

/* The parts of an entry of the reasons. */
#define ROPECLOVER_REASON(entry) ((uint32_t)(entry) % 65536)
#define ROPECLOVER_TURN(entry) ((uint32_t)(entry) / 65536)

/* The longest job, and its records of four bytes. */
#define ROPECLOVER_JOB_BYTES 16384
#define ROPECLOVER_RECORDS 4096
#define ROPECLOVER_RULES 256

/* Numbers below these: variables are symbols below ROPECLOVER_VARIABLES, terminals the other symbols. */
#define ROPECLOVER_VARIABLES 32
#define ROPECLOVER_SYMBOLS 64
#define ROPECLOVER_STATES 32

/* The longest form in symbols, and the longest listing: a record of 8 bytes for each transition. */
#define ROPECLOVER_FORM_SYMBOLS 64
#define ROPECLOVER_LISTING_RECORD_BYTES 8
#define ROPECLOVER_LISTING_BYTES 524288

/* The longest long job, its records of twelve bytes, and the longest body in symbols. */
#define ROPECLOVER_LONG_JOB_BYTES 49152
#define ROPECLOVER_LONG_RECORD_BYTES 12
#define ROPECLOVER_BODY_SYMBOLS 8

/* The longest clean copy, and the longest job of an ABNF text: an S record and ROPECLOVER_RULES rules. */
#define ROPECLOVER_COPY_BYTES 1028

/* The longest ABNF text. */
#define ROPECLOVER_ABNF_BYTES 16384

/* Room for every function's answer. */
#define ROPECLOVER_ANSWER_NUMBERS 5

/* Where the numbers of an answer stand. */
enum ropeclover_answer {
    ROPECLOVER_NUMBER = 0,              /* of a refusal, 0 for none */
    ROPECLOVER_PLACE = 1,               /* of the refusal */
    ROPECLOVER_NUMBER_OF_STATES = 2,    /* start */
    ROPECLOVER_IS_FINISHED = 2,         /* advance */
    ROPECLOVER_STEPS_MADE = 3,
    ROPECLOVER_MEETINGS = 4,
    ROPECLOVER_IS_ACCEPTED = 2,         /* ask, explain */
    ROPECLOVER_RECORDS_LISTED = 3,      /* explain */
    ROPECLOVER_IS_EMPTY = 2,            /* verdicts */
    ROPECLOVER_IS_GROWING = 3,
    ROPECLOVER_RECORDS_WRITTEN = 2,     /* binarize, clean, read ABNF */
    ROPECLOVER_CHARACTERS_USED = 3,     /* read ABNF */
    ROPECLOVER_DONE_TRANSITIONS = 2,    /* done count */
    ROPECLOVER_SHOWN_OFFSET = 0,        /* showing, whose answer has no refusal */
    ROPECLOVER_SHOWN_LENGTH = 1
};

/* The most steps that an advance can make: this many finish any table. */
#define ROPECLOVER_STEPS 65536

/* Refusals, in the order of the checks; 3 to 7 are tried in that order on each record before the next. With 3 to 7, 14 and 15 the place is the
 * record's number, from 0. A refused call leaves all lent memory as it was, but for ropeclover_explain's 13: then table and reasons are as after a
 * success. ropeclover_binarize and ropeclover_read_abnf have orders of their own. */
enum ropeclover_refusal {
    ROPECLOVER_ACCEPTED = 0,
    ROPECLOVER_SHORT_BUFFER = 10,       /* the place is 1 for the table or bit table, 2 for the reasons, 3 for the codes or the map */
    ROPECLOVER_JOB_TOO_LONG = 2,        /* over ROPECLOVER_JOB_BYTES, a text over ROPECLOVER_ABNF_BYTES; the place is the length */
    ROPECLOVER_PARTIAL_RECORD = 1,      /* the length is no multiple of 4; the place is the number of whole records */
    ROPECLOVER_UNKNOWN_KIND = 3,
    ROPECLOVER_FIELD_OUTSIDE_CLASS = 4,
    ROPECLOVER_REPEATED = 5,            /* the same four bytes stand in an earlier record */
    ROPECLOVER_SECOND = 6,              /* a second S or a second I */
    ROPECLOVER_TOO_MANY_RULES = 7,      /* the 257th rule. By ropeclover_read_abnf the place is 257 */
    ROPECLOVER_NO_START = 8,            /* no S record; the place is the number of records */
    ROPECLOVER_NO_INITIAL = 9,          /* no I record; the place is the number of records. Never by ropeclover_verdicts and ropeclover_clean */
    ROPECLOVER_FORM_TOO_LONG = 12,      /* over ROPECLOVER_FORM_SYMBOLS; the place is the form's length */
    ROPECLOVER_NO_SYMBOL = 11,          /* a byte of the form is over 63; the place is its position */
    ROPECLOVER_LISTING_TOO_SHORT = 13,  /* the place is the number of listing records needed. Only by ropeclover_explain */
    ROPECLOVER_JOB_TOO_SHORT = 13,      /* the place is the number of records needed. Only by functions that write a job */
    ROPECLOVER_TOO_FEW_VARIABLES = 14,  /* the record takes more variables than are free. Only by ropeclover_binarize, as the next */
    ROPECLOVER_ILL_PADDED = 15,         /* a length over ROPECLOVER_BODY_SYMBOLS, or a padding or closing byte that is not 0 */
    ROPECLOVER_OUTSIDE_ABNF = 16,       /* the text leaves the part of ABNF that is read; the place is the offset. Only by ropeclover_read_abnf */
    ROPECLOVER_NAME_OUT_OF_PLACE = 17,  /* a name has no rule, or the wrong one of = and =/; the place is its offset. Only by it, as the next */
    ROPECLOVER_TOO_MANY_SYMBOLS = 18    /* the place is 1 for over ROPECLOVER_VARIABLES variables, else 2 for over 32 characters */
};

/* A table byte. */
enum ropeclover_mark {
    ROPECLOVER_ABSENT = 0,
    ROPECLOVER_PENDING = 1,
    ROPECLOVER_DONE = 2,
    ROPECLOVER_DONE_AND_LISTED = 3
};

/* A symbol's code. */
enum ropeclover_code {
    ROPECLOVER_NOT_NAMED = 0,           /* named in no rule, and not the start symbol */
    ROPECLOVER_USEFUL = 1,              /* some string of terminals that the start symbol derives is derived by way of it */
    ROPECLOVER_DERIVES_NO_STRING = 2,   /* it derives no string of terminals */
    ROPECLOVER_NEVER_REACHED = 3        /* it derives one, but is never reached from the start symbol between strings of terminals */
};

/* Writes the table and the reasons that the job starts from. answer[2]: the number of states. */
void ropeclover_start(const uint8_t *job, size_t job_len, uint8_t *table, size_t table_len, uint32_t *reasons, size_t reasons_len,
                      uint64_t answer[3]);

/* Makes n steps, fewer if finished, on any table: each makes the pending transition of lowest place done, and those that follow from it and the
 * done ones pending. answer[2]: whether no transition is pending any more; answer[3]: the steps made; answer[4]: the rise in pair meetings of the
 * done transitions, the ways a P rule meets two adjoining ones. */
void ropeclover_advance(const uint8_t *job, size_t job_len, uint8_t *table, size_t table_len, uint32_t *reasons, size_t reasons_len,
                        uint64_t n, uint64_t answer[5]);

/* Whether the form leads from the initial state to a final one over the done transitions of the table, which is only read. On a table that this
 * job's start and advances have finished, that is whether it derives a string of the automaton. A form of length 0 is accepted if the initial
 * state is final. answer[2]: whether it is accepted. */
void ropeclover_ask(const uint8_t *job, size_t job_len, const uint8_t *table, size_t table_len, const uint8_t *form, size_t form_len,
                    uint64_t answer[3]);

/* As ropeclover_start, but a bit table is written: a bit of its pending half for each pending transition, all other bits 0. answer[2]: the number of
 * states. */
void ropeclover_start_bits(const uint8_t *job, size_t job_len, uint8_t *bits, size_t bits_len, uint32_t *reasons, size_t reasons_len,
                           uint64_t answer[3]);

/* As ropeclover_advance, on any bit table: a step clears the pending bit of the transition that it takes and sets its done bit. answer[2]: whether no
 * transition is pending any more; answer[3]: the steps made; answer[4]: the rise in pair meetings of the done transitions. */
void ropeclover_advance_bits(const uint8_t *job, size_t job_len, uint8_t *bits, size_t bits_len, uint32_t *reasons, size_t reasons_len,
                             uint64_t n, uint64_t answer[5]);

/* As ropeclover_ask, on a bit table, which is only read. answer[2]: whether the form is accepted. */
void ropeclover_ask_bits(const uint8_t *job, size_t job_len, const uint8_t *bits, size_t bits_len, const uint8_t *form, size_t form_len,
                         uint64_t answer[3]);

/* Counts the done transitions of a bit table, which is only read: the ones in its done half. The only refusal is 10, place 1. answer[2]: their
 * number. */
void ropeclover_done_count(const uint8_t *bits, size_t bits_len, uint64_t answer[3]);

/* Starts, runs to the end, and lists why the form is accepted: records of 8 bytes, each after its premises, each transition once, along the
 * accepting state sequence that comes first in lexicographic order. A record is q, X, r, then 'G' 0 0 0 0 for a given transition, or the rule's
 * kind letter, field 2, field 3, the middle state, 0. The listing past the records is left as it was; ROPECLOVER_LISTING_BYTES are always enough.
 * answer[2]: whether the form is accepted; answer[3]: the number of records, 0 where it is not. */
void ropeclover_explain(const uint8_t *job, size_t job_len, uint8_t *table, size_t table_len, uint32_t *reasons, size_t reasons_len,
                        const uint8_t *form, size_t form_len, uint8_t *listing, size_t listing_len, uint64_t answer[4]);

/* Writes a code for each of the 64 symbols. The table is scratch: its first ROPECLOVER_TABLE_BYTES bytes are 0 afterwards. No I record is needed.
 * answer[2]: whether the language is empty, so that the start symbol derives no string of terminals; answer[3]: whether it grows, so that it
 * has infinitely many strings: some useful symbol derives itself between strings of terminals of which at least one is not empty. */
void ropeclover_verdicts(const uint8_t *job, size_t job_len, uint8_t *table, size_t table_len, uint8_t *codes, size_t codes_len,
                         uint64_t answer[4]);

/* Writes a long job as an ordinary job, one record after the other as they were read. A body of none, one or two symbols is an E, a U or a
 * P record. A longer one is split into P records, the head's first: A -> X1 T1, T1 -> X2 T2, and so on to the last two symbols. Every tail T has a
 * variable of its own, the lowest that is still free; terminals take none. A variable is free that no record names: named are heads, symbols of
 * bodies, the start symbol, and labels in T records. What each named variable derives in terminals is the same before and after, and the job written
 * is accepted by all other functions. The job past what is written is left as it was; ROPECLOVER_JOB_BYTES are always enough. answer[2]: the number
 * of records written.
 *
 * The checks in their order: 2 for one over ROPECLOVER_LONG_JOB_BYTES, with its length; 1 for a length that is no multiple of 12, with the number
 * of whole records; 3, 4, 15 and 6 on each record, where 4 tells of the head and the body within the length, at most 8, and a second S or I is 6 in
 * any case; then again on each record 14, and for each record written for it 5, where it stands already among those written, and 7, where it is the
 * 257th rule of them; 8 and 9, with the number of records read; 2 for a job written of over ROPECLOVER_JOB_BYTES, with its length; 13. */
void ropeclover_binarize(const uint8_t *long_job, size_t long_job_len, uint8_t *job, size_t job_len, uint64_t answer[3]);

/* Writes the clean copy of a job: an S record, then the rules all of whose symbols have the code ROPECLOVER_USEFUL, by their ranks. The useful
 * variables are numbered anew: the lowest is 0, the next 1, and so on; terminals stay as they are. If the language is empty, no symbol is useful,
 * and the copy is the record S 0 0 0. A copy has no T, I or F records, and the job need not have an I record.
 *
 * The copy is a job that ropeclover_verdicts accepts, and its start symbol derives the strings of terminals that the job's derives. A copy of the
 * copy is the same bytes. So are the copies of two jobs that have the same rules and the same start symbol, however their records are ordered and
 * whatever their T, I and F records are. A buffer of ROPECLOVER_COPY_BYTES is always long enough. All this is proved.
 *
 * The buffer past the copy is left as it was. 13 is the last check. answer[2]: the number of records written. */
void ropeclover_clean(const uint8_t *job, size_t job_len, uint8_t *out, size_t out_len, uint64_t answer[3]);

/* Reads a grammar from ABNF text: writes its job, and the map from the job's terminals to characters.
 *
 * The characters that the text uses, both cases of each letter of a string included, are the terminals from 32 on in ascending order: map[i] is the
 * character of terminal 32 + i, and past the last the map is 0. 0 may be a character itself, so the number of them says where they end. The names are
 * the variables from 0 on in the order in which they first begin a line, and the first of them is the start symbol. Behind them further variables are
 * taken, alternative after alternative as the text has them: first one for each letter of its strings that has none yet, left to right, which gets a U
 * record for the capital and one for the small letter; then for the tails of the alternative, as by ropeclover_binarize, never shared, not even by equal
 * alternatives. Other characters stand in rules as they are. The job is an S record and then the rules by their ranks, each once; it has no T, I and F
 * records.
 *
 * The strings of terminals that the start symbol derives, read through the map, are those that the first name of the text derives by the RFC; so it is
 * for each name and its variable. The job is accepted by ropeclover_verdicts, and ROPECLOVER_COPY_BYTES are always enough for it. All this is proved.
 *
 * ROPECLOVER_MAP_BYTES of the map and the records of the job are written; past them both are left as they were. answer[2]: the number of records
 * written; answer[3]: the number of characters.
 *
 * The checks in their order: 10, place 3, for a map under ROPECLOVER_MAP_BYTES; 2 for a text over ROPECLOVER_ABNF_BYTES, with its length; 16 with the
 * offset of the first byte outside the part that is read, of a string or a value its first, and the text's length where its end is missing; 17 with
 * the offset of the first name that has no rule, that begins a rule by =/ with no = above it, or by = with one above; 18, place 1, where more than
 * ROPECLOVER_VARIABLES variables would be taken, or else place 2, where more than 32 characters are used; 7, place 257, where there are more than
 * ROPECLOVER_RULES rules; 13. */
void ropeclover_read_abnf(const uint8_t *text, size_t text_len, uint8_t *map, size_t map_len, uint8_t *job, size_t job_len,
                          uint64_t answer[4]);

/* The record that the job is refused for by 3 to 7, as a part of the job. answer[0]: its offset in bytes; answer[1]: its length, 4; both are 0
 * where there is none. (This answer has no refusal.) */
void ropeclover_show(const uint8_t *job, size_t job_len, uint64_t answer[2]);

/* The version of this header, as ROPECLOVER_VERSION. */
static inline const char *ropeclover_version(void)
{
    return ROPECLOVER_VERSION;
}

/* A refusal in words, without its place; 'accepted' for 0. */
static inline const char *ropeclover_refusal_text(uint64_t number)
{
    switch (number) {
    case ROPECLOVER_ACCEPTED: return "accepted";
    case ROPECLOVER_PARTIAL_RECORD: return "the length is no whole number of records";
    case ROPECLOVER_JOB_TOO_LONG: return "the job or the text has too many bytes";
    case ROPECLOVER_UNKNOWN_KIND: return "a record has an unknown kind letter";
    case ROPECLOVER_FIELD_OUTSIDE_CLASS: return "a field is outside its class";
    case ROPECLOVER_REPEATED: return "a record stands twice";
    case ROPECLOVER_SECOND: return "there is a second S or a second I record";
    case ROPECLOVER_TOO_MANY_RULES: return "there are too many rules";
    case ROPECLOVER_NO_START: return "there is no S record";
    case ROPECLOVER_NO_INITIAL: return "there is no I record";
    case ROPECLOVER_SHORT_BUFFER: return "a lent buffer is too short";
    case ROPECLOVER_NO_SYMBOL: return "a byte of the form is no symbol";
    case ROPECLOVER_FORM_TOO_LONG: return "the form has too many symbols";
    case ROPECLOVER_LISTING_TOO_SHORT: return "the buffer that is written to is too short";
    case ROPECLOVER_TOO_FEW_VARIABLES: return "a long rule takes more variables than are free";
    case ROPECLOVER_ILL_PADDED: return "a record of a long job is not padded by zeros";
    case ROPECLOVER_OUTSIDE_ABNF: return "the text leaves the part of ABNF that is read";
    case ROPECLOVER_NAME_OUT_OF_PLACE: return "a name has no rule, or a rule has the wrong one of '=' and '=/'";
    case ROPECLOVER_TOO_MANY_SYMBOLS: return "the text takes too many variables or characters";
    default: return "an unknown refusal";
    }
}

#ifdef __cplusplus
}
#endif

#endif
