/* The reader of Alert-Info values: libalert_info.a, which needs no other library.
 *
 * A value is what stands after "Alert-Info:", folded lines as they came: outside brackets and quotes CR LF and a space
 * or a tab count as white space. Any bytes may be given, also none; bytes that the caller lends are only read, and no
 * pointer is kept. A pointer must lead to as many readable bytes as its length says, and must not be null, not even for
 * a length of 0. No function allocates, fails or keeps anything between calls, so any number of threads may call them at
 * once. If more than one number applies, the smallest is given. */
#ifndef ALERT_INFO_H
#define ALERT_INFO_H

#include <stddef.h>
#include <stdint.h>

#include "alert_numbers.h"

#ifdef __cplusplus
extern "C" {
#endif

/* A part of the value: `len` bytes from value[start] on. */
typedef struct alert_info_span {
    size_t start;
    size_t len;
} alert_info_span;

/* The value's refusal number: 0 if it is accepted, else 1 to 3. */
uint8_t alert_info_refusal(const uint8_t *value, size_t len);

/* How many entries the value has: 1 to 64, and 0 if it is refused. */
size_t alert_info_entries(const uint8_t *value, size_t len);

/* The URI of entry k, counted from 0, without its angle brackets; 0 and 0 if it is refused. */
alert_info_span alert_info_entry(const uint8_t *value, size_t len, size_t k);

/* The refusal number of entry k: the value's own, 18 if there is no entry k, else 0. */
uint8_t alert_info_entry_refusal(const uint8_t *value, size_t len, size_t k);

#ifdef __cplusplus
}
#endif

#endif
