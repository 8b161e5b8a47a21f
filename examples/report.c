/* Reports on a job in a file, as the program ropeclover-report does, with the C library: report FILE
 *
 *     cc report.c $(pkg-config --cflags --libs ropeclover) -o report
 */
#include <ropeclover.h>
#include <stdio.h>

static uint8_t table[ROPECLOVER_TABLE_BYTES];
static uint32_t reasons[ROPECLOVER_REASONS];
static uint8_t codes[ROPECLOVER_CODES];
/* One byte more than a job may have, so that a longer one is refused. */
static uint8_t job[ROPECLOVER_JOB_BYTES + 1];

static int refused(const uint64_t *answer)
{
    if (answer[0] != ROPECLOVER_ACCEPTED) {
        printf("refused %d at %d\n", (int)answer[0], (int)answer[1]);
    }
    return answer[0] != ROPECLOVER_ACCEPTED;
}

static const char *yes_no(uint64_t yes)
{
    return yes == 1 ? "yes" : "no";
}

/* The start symbol: field 1 of the S record, which an accepted job has. */
static uint8_t start_symbol(size_t length)
{
    size_t at = 0;
    while (at + 4 < length && job[at] != 'S') {
        at += 4;
    }
    return job[at + 1];
}

static int report(size_t length)
{
    uint64_t answer[ROPECLOVER_ANSWER_NUMBERS];
    ropeclover_start(job, length, table, sizeof table, reasons, ROPECLOVER_REASONS, answer);
    if (refused(answer)) {
        return 1;
    }
    printf("states %d\n", (int)answer[2]);
    ropeclover_advance(job, length, table, sizeof table, reasons, ROPECLOVER_REASONS, ROPECLOVER_STEPS, answer);
    printf("examined %d\njoins %d\n", (int)answer[3], (int)answer[4]);
    const uint8_t form[] = {start_symbol(length)};
    ropeclover_ask(job, length, table, sizeof table, form, sizeof form, answer);
    printf("start %s\n", yes_no(answer[2]));
    ropeclover_verdicts(job, length, table, sizeof table, codes, sizeof codes, answer);
    printf("empty %s\ngrowing %s\n", yes_no(answer[2]), yes_no(answer[3]));
    return 0;
}

int main(int words, char **word)
{
    FILE *file = words == 2 ? fopen(word[1], "rb") : NULL;
    if (file == NULL) {
        fprintf(stderr, "usage: report FILE\n");
        return 2;
    }
    size_t length = fread(job, 1, sizeof job, file);
    fclose(file);
    return report(length);
}
