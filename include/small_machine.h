/* Smaller machines: whether one class for each state of a machine's image makes a smaller machine that does the same, the small
 * image of such classes, and a proposer of them: libsmall_machine.a, which needs no other library. What the pointers must hold is
 * said in signal_table.h; the numbers are in alert_numbers.h. */
#ifndef SMALL_MACHINE_H
#define SMALL_MACHINE_H

#include <stddef.h>
#include <stdint.h>

#include "signal_table.h"

#ifdef __cplusplus
extern "C" {
#endif

/* 27, ALERT_BAD_CLASSES, comes after 4 to 12 and 15 to 17, and before 14. */

/* No small image is longer than this, and no proposal than 256 bytes. */
#define MACHINE_SMALL_LONGEST 33411

/* Whether the classes, one byte for each state of the image, fit the machine in it: 0 if they do, else 4 to 12, 15 to 17 or 27. */
uint8_t machine_classes_check(const uint8_t *table, size_t len, const uint8_t *image, size_t image_len,
                              const uint8_t *classes, size_t classes_len);

/* Writes the small image of the classes into the first bytes of `buf` and 0 into the rest of its `room` bytes. Refused with 4 to
 * 12, 15 to 17, 27 or 14, the first of these: then all of `buf` is 0. */
machine_built machine_small_write(const uint8_t *table, size_t len, const uint8_t *image, size_t image_len,
                                  const uint8_t *classes, size_t classes_len, uint8_t *buf, size_t room);

/* Writes the classes of the smallest machine, numbered by their first states, in the same manner. Refused with 4 to 12, 15 to 17,
 * 27 if no classes fit, or 14. A machine that machine_build gave is never refused with 27. */
machine_built machine_propose(const uint8_t *table, size_t len, const uint8_t *image, size_t image_len,
                              uint8_t *buf, size_t room);

#ifdef __cplusplus
}
#endif

#endif
