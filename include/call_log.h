/* Logs of calls from other makers' handsets, held to direct resolution: libcall_log.a, which needs no other library. It is
 * for a desk and not for a handset. What the pointers must hold is said in alert_info.h. */
#ifndef CALL_LOG_H
#define CALL_LOG_H

#include <stddef.h>
#include <stdint.h>

#include "alert_numbers.h"

#ifdef __cplusplus
extern "C" {
#endif

/* What is said of a log: the refusal number; 1 if every call agrees. Otherwise `call` is the first that does not, counted
 * from 0, and `signal`, `used` and `skipped` are the right answer to its value. All that is not said is 0. */
typedef struct call_log_verdict {
    uint8_t refusal, agrees;
    uint16_t call;
    uint8_t signal, used, skipped;
} call_log_verdict;

/* Holds each call of a log to the plain resolver of resolver.h. A log is the number of its calls in two bytes, and then for
 * each call the length of its value in two bytes, the value, and a byte each for the signal and the numbers of used and
 * skipped entries; of two bytes the low one comes first. For a value that is refused, 0, 0, 0 is right and nothing else.
 * Refused with 4 to 12 for the table, then with 25 for the log, whatever its calls are. */
call_log_verdict call_log_check(const uint8_t *table, size_t len, const uint8_t *log, size_t log_len);

#ifdef __cplusplus
}
#endif

#endif
