/* Sample values for the bench: libsample_value.a, which needs no other library. What the pointers must hold is said in
 * alert_info.h; seed and buffer overlap nothing else. */
#ifndef SAMPLE_VALUE_H
#define SAMPLE_VALUE_H

#include <stddef.h>
#include <stdint.h>

#include "alert_numbers.h"

#ifdef __cplusplus
extern "C" {
#endif

/* The seed: any number to begin with. The same seed and table give the same values. */
typedef struct sample_seed {
    uint32_t x;
} sample_seed;

/* A refusal number, and the length of the value, which is 0 after a refusal. */
typedef struct sample_made {
    uint8_t refusal;
    size_t len;
} sample_made;

/* Writes a value of 1 to 8 entries for the table into the buffer: its nodes, its nodes with a part that makes no node, and
 * a category that the table lacks. Every value is accepted by the reader. The seed goes on once for each choice, so that
 * the next call gives another value; bytes past the value stay as they are. Refused with 4 to 12 for the table, then with
 * 26: then nothing changes, neither the buffer nor the seed. */
sample_made sample_value_make(const uint8_t *table, size_t len, sample_seed *seed, uint8_t *buf, size_t room);

#ifdef __cplusplus
}
#endif

#endif
