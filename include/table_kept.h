/* Which marks a signal table keeps, and which of its signals can ring: libtable_kept.a, which needs no other library. What
 * the pointers must hold is said in signal_table.h; the refusal numbers are in alert_numbers.h.
 *
 * A mark is a node of the table, by its number. A list of URNs gives it if one of them is that node or lies under it. A list
 * goes one way in a category if of any two of its URNs there one is the other or an ancestor of it. The table keeps the mark
 * if every list of its URNs that gives it, and goes one way in its category, rings a signal that says it, whatever else the
 * list gives and in whichever order; otherwise some list shows that the mark is lost. */
#ifndef TABLE_KEPT_H
#define TABLE_KEPT_H

#include <stddef.h>
#include <stdint.h>

#include "signal_table.h"

#ifdef __cplusplus
extern "C" {
#endif

/* Whether a mark is kept. Kept or refused: all that follows is 0. */
typedef struct alert_kept {
    uint8_t refusal;   /* 0 if answered */
    uint8_t kept;      /* 1 if the table keeps the mark, else 0 */
    uint8_t rings;     /* the signal that the list rings, which does not say the mark */
    uint8_t len;       /* how many marks the list has */
    uint8_t marks[32]; /* the list by the numbers of its nodes, the mark last; zeros after it. None that is shorter shows a loss */
} alert_kept;

/* Whether a signal can ring. If none of the lists rings it, or refused: all that follows is 0. */
typedef struct alert_rung {
    uint8_t refusal;   /* 0 if answered */
    uint8_t rings;     /* 1 if some list rings the signal, else 0 */
    uint8_t len;       /* how many marks the list has */
    uint8_t marks[32]; /* a list that rings it, by the numbers of its nodes; zeros after it. None that is shorter does */
} alert_rung;

/* Whether the table keeps the mark with this node's number, counted from 1, while only some signals are available: bit s of
 * `available` for signal s; signal 0 always is. With the bits of all its signals it is the question about the table. Refused
 * with 4 to 12, then 23, then 30. */
alert_kept alert_signal_table_keeps(const uint8_t *table, size_t table_len, uint32_t available, uint8_t node);

/* Whether some list of URNs rings the signal, while only some signals are available. Refused with 4 to 12, then 23, then 31. */
alert_rung alert_signal_table_rings(const uint8_t *table, size_t table_len, uint32_t available, uint8_t signal);

#ifdef __cplusplus
}
#endif

#endif
