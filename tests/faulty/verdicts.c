/* A fault of the kind that the nightly check is there to find: a code that depends on which record comes first. */
#include "ropeclover.h"

void proved_verdicts(const uint8_t *job, size_t job_len, uint8_t *table, size_t table_len, uint8_t *codes, size_t codes_len,
                     uint64_t answer[4]);

void ropeclover_verdicts(const uint8_t *job, size_t job_len, uint8_t *table, size_t table_len, uint8_t *codes, size_t codes_len,
                         uint64_t answer[4])
{
    proved_verdicts(job, job_len, table, table_len, codes, codes_len, answer);
    if (answer[0] == 0 && job[0] != 'S') {
        codes[2] = ROPECLOVER_NEVER_REACHED;
        codes[3] = ROPECLOVER_NEVER_REACHED;
    }
}
