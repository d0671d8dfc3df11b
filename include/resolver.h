/* The resolvers: libresolver.a, which needs no other library. What the pointers must hold is said in
 * alert_info.h; the refusal numbers are in alert_numbers.h. */
#ifndef RESOLVER_H
#define RESOLVER_H

#include <stddef.h>
#include <stdint.h>

#include "alert_info.h"
#include "signal_table.h"

#ifdef __cplusplus
extern "C" {
#endif

/* What a resolver answers. Refused: the signal and both counts are 0. */
typedef struct alert_resolution {
    uint8_t refusal; /* 0 if accepted */
    uint8_t signal;  /* the number of the signal to give, counted from 0 in the table's order */
    uint8_t used;    /* entries with an alert URN of one of the table's categories */
    uint8_t skipped; /* all other entries */
} alert_resolution;

/* What the plain resolver answers: the same, and its tries: how many candidates the searches for a signal looked up, at
 * most 9 for each used URN. */
typedef struct alert_plain {
    uint8_t refusal;
    uint8_t signal;
    uint8_t used;
    uint8_t skipped;
    uint16_t tries;
} alert_plain;

/* The signal for a value, from the table alone. Refused with 1 to 12. */
alert_plain resolve_plain(const uint8_t *table, size_t len, const uint8_t *value, size_t value_len);

/* The signal for a value, by following the table's machine. Refused with 1 to 12 or 15. The image is followed as it
 * is: machine_check says whether it is the table's. For one that machine_check accepts, the answer is that of
 * resolve_plain, without the tries. */
alert_resolution resolve_machine(const uint8_t *table, size_t len, const uint8_t *image, size_t image_len,
                                 const uint8_t *value, size_t value_len);

/* The signal for a value, by following a small image: a machine whose states are the classes of another's, without
 * statuses. No other function reads one, and this one reads no other image. Refused with 1 to 12, then with 15: the small
 * image is not of the form that the table asks for. It is followed as it is, whoever proposed its classes. For one that
 * was written from a machine that machine_check accepts and from classes that machine_classes_check accepts, the answer
 * is that of resolve_plain, without the tries. */
alert_resolution resolve_small(const uint8_t *table, size_t len, const uint8_t *small, size_t small_len,
                               const uint8_t *value, size_t value_len);

/* What is carried between the values of one message. All zero before the first. */
typedef struct alert_record {
    uint8_t signal;    /* the signal so far */
    uint8_t status[8]; /* of each category in the table's order: 0 open, 1 shut, 1 + n held at node n;
                          0 for those that the table lacks */
    uint8_t values;    /* how many values were fed, at most ALERT_MOST_VALUES */
} alert_record;

/* The signal after one more value of a message that has several Alert-Info fields: resolution goes on from the record,
 * and the record is changed for the next value. Used and skipped are this value's own. Refused, in this order, with 4
 * to 12; 28: the record is none of this table, its signal, a status or its number of values is out of range; 19: 16
 * values were fed before; 1 to 3. A refusal leaves the record as it is, except that after 1 to 3 the value is
 * counted in `values`. The record must overlap neither table nor value. */
alert_resolution resolve_feed(const uint8_t *table, size_t len, alert_record *record, const uint8_t *value,
                              size_t value_len);

/* What the early question answers. Refused: the signal and the entries are 0. */
typedef struct alert_early {
    uint8_t refusal; /* 0 if answered */
    uint8_t signal;  /* the number of the signal to give */
    uint8_t entries; /* how many of the value's first entries were needed, perhaps none */
} alert_early;

/* The signal for a value as soon as no further URN could change it. What stands behind the entries needed and their
 * commas may be anything, also what resolve_plain refuses with 2 or 3. A value that resolve_plain accepts gets the same
 * signal. Where the entries that can be read are not enough, refused as by resolve_plain, with 1 to 12. */
alert_early resolve_early(const uint8_t *table, size_t len, const uint8_t *value, size_t value_len);

/* The signal for a value among those that can be given just now: bit s of `available` for signal s. Signal 0 always can,
 * whatever bit 0 says. Only the search for a signal leaves the others out: categories, nodes and the numbers of signals
 * stay the table's. Refused with 1 to 12 as by resolve_plain; then with 23: a bit is set at or above the table's number
 * of signals. With the bits of all its signals the answer is that of resolve_plain, without the tries. */
alert_resolution resolve_available(const uint8_t *table, size_t len, uint32_t available, const uint8_t *value,
                                   size_t value_len);

/* Ring and lamp by a table of each: a refusal number, 0 if nothing is refused, and the two signals. */
typedef struct alert_pair {
    uint8_t refusal, ring, lamp;
} alert_pair;

/* The signal of the ring table and that of the lamp table, each resolved alone: the pair that one table of all pairs would
 * give. Refused with 1 to 3 for the value, then 4 to 12 for the ring table, then 4 to 12 for the lamp table, then with 24:
 * the tables have a category in common. Refused, both signals are 0. */
alert_pair resolve_pair(const uint8_t *ring, size_t ring_len, const uint8_t *lamp, size_t lamp_len,
                        const uint8_t *value, size_t value_len);

#ifdef __cplusplus
}
#endif

#endif
