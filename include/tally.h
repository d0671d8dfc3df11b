/* The monthly count: libtally.a, which needs no other library. It resolves as libresolver.a's plain resolver does, so a
 * program that keeps a tally links it in that library's place. What the pointers must hold is said in alert_info.h; the
 * records and the counts overlap nothing else. */
#ifndef TALLY_H
#define TALLY_H

#include <stddef.h>
#include <stdint.h>

#include "resolver.h"

#ifdef __cplusplus
extern "C" {
#endif

/* What one signal was heard: all zero at the start of a month. */
typedef struct alert_tally {
    uint32_t chosen;  /* how many values chose it */
    uint32_t used;    /* the sums of their counts */
    uint32_t skipped;
} alert_tally;

/* Resolves one value, as resolve_plain does, and counts it: in the record of its signal, or under its refusal number.
 * Refused with 1 to 12, or with 20 before all of these: then nothing is counted. Records and counts beyond those that
 * the table and the refusal numbers need stay as they are. */
alert_resolution tally_value(const uint8_t *table, size_t len, alert_tally *records, size_t n,
                             uint32_t *refusals, size_t m, const uint8_t *value, size_t value_len);

#ifdef __cplusplus
}
#endif

#endif
