/* Says whether every call of a log agrees with direct resolution.
 *
 *     log TABLE LOG
 *
 * TABLE is a file with a stored table, LOG one with a log of calls, as examples/make-log writes it. */
#include <stdio.h>

#include "call_log.h"
#include "read_file.h"

/* Room for the longest table and log and one byte more, so that a longer one is seen as such. */
static uint8_t table[8192 + 1];
static uint8_t calls[ALERT_MOST_LOG_BYTES + 1];

int main(int count, char **words)
{
    call_log_verdict verdict;
    long table_len, log_len;
    if (count != 3) {
        fprintf(stderr, "usage: log TABLE LOG\n");
        return 2;
    }
    table_len = read_file(words[1], table, sizeof table);
    log_len = read_file(words[2], calls, sizeof calls);
    if (table_len < 0 || log_len < 0) {
        fprintf(stderr, "log: %s cannot be read\n", words[table_len < 0 ? 1 : 2]);
        return 2;
    }
    verdict = call_log_check(table, (size_t)table_len, calls, (size_t)log_len);
    if (verdict.refusal != 0) {
        printf("refused with %u\n", verdict.refusal);
        return 1;
    }
    if (verdict.agrees)
        printf("agrees\n");
    else
        printf("call %u: ring %u is right (%u used, %u skipped)\n", verdict.call, verdict.signal, verdict.used, verdict.skipped);
    return 0;
}
