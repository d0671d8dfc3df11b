/* Signal tables, the machines built from them, and the checker of machines: libsignal_table.a, which needs no other
 * library.
 *
 * Any bytes may be given, also none. A pointer must lead to as many bytes as its length says, and must not be null,
 * not even for a length of 0; `buf` must not overlap the table. No pointer is kept. No function allocates, fails or
 * keeps anything between calls, so any number of threads may call them at once. */
#ifndef SIGNAL_TABLE_H
#define SIGNAL_TABLE_H

#include <stddef.h>
#include <stdint.h>

#include "alert_numbers.h"

#ifdef __cplusplus
extern "C" {
#endif

/* If more than one number applies, the smallest is given. Between 5 and 6 it is the one that a reader from the left meets
 * first; bytes after the last signal come last. */

/* No image is longer than this: a buffer of so many bytes has room for every machine. */
#define MACHINE_LONGEST 35459

/* What a build answers: its refusal number, and how long the image is, which is 0 after a refusal. */
typedef struct machine_built {
    uint8_t refusal;
    size_t len;
} machine_built;

/* What a URI is to a table. `refusal` is 0 or 4 to 12. `used` is 1 if the URI is an alert URN of one of the table's categories;
 * then `category` is that one's number, `node` the number of the deepest node that is the URN or above it (0 for the root),
 * `whole` 1 if it is the URN, and `compared` the number of bytes compared to find it. Else all of these are 0. */
typedef struct {
    uint8_t refusal, used, category, node, whole;
    uint32_t compared;
} alert_match;

/* The table's refusal number: 0 if it is well-formed, else 4 to 12. */
uint8_t signal_table_refusal(const uint8_t *table, size_t len);

/* Writes the table's machine into the first bytes of `buf` and 0 into the rest of its `room` bytes. Refused with 4 to
 * 14: then all of `buf` is 0. Hand the image on at exactly the length that is answered. */
machine_built machine_build(const uint8_t *table, size_t len, uint8_t *buf, size_t room);

/* Whether the image, whoever made it, is right for the table: 0 if it is, else 4 to 12 or 15 to 17. */
uint8_t machine_check(const uint8_t *table, size_t len, const uint8_t *image, size_t image_len);

/* What the URI is to the table. */
alert_match signal_table_match(const uint8_t *table, size_t len, const uint8_t *uri, size_t uri_len);

#ifdef __cplusplus
}
#endif

#endif
