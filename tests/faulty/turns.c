/* Another fault of that kind: a turn that depends on which record comes first, where a step is made at a time. */
#include "ropeclover.h"

void proved_advance(const uint8_t *job, size_t job_len, uint8_t *table, size_t table_len, uint32_t *reasons, size_t reasons_len, uint64_t n,
                    uint64_t answer[5]);

void ropeclover_advance(const uint8_t *job, size_t job_len, uint8_t *table, size_t table_len, uint32_t *reasons, size_t reasons_len, uint64_t n,
                        uint64_t answer[5])
{
    proved_advance(job, job_len, table, table_len, reasons, reasons_len, n, answer);
    if (answer[0] != 0 || n != 1 || job[0] == 'S') {
        return;
    }
    for (size_t i = 0; i < ROPECLOVER_REASONS; i++) {
        reasons[i] += ROPECLOVER_TURN(reasons[i]) == 0 ? 0 : 65536;
    }
}
