/* Tables that write their tree once, and the conversions between them and the tables of signal_table.h: libtree_table.a,
 * which needs no other library. What the pointers must hold is said in signal_table.h. */
#ifndef TREE_TABLE_H
#define TREE_TABLE_H

#include <stddef.h>
#include <stdint.h>

#include "signal_table.h"

#ifdef __cplusplus
extern "C" {
#endif

/* The numbers of a tree come in this order: 4; 5 and 6 from the left; 7 for names; 21; 6 for a path whose URN would have
 * more than 255 bytes; 7 for more than 8 parts; 8 to 11. A conversion gives 22 after all others. */

/* A buffer of so many bytes has room for every table with its tree written once. */
#define TREE_TABLE_LONGEST 4451

/* What a conversion answers: its refusal number, and how long the other form is, which is 0 after a refusal. */
typedef struct table_converted {
    uint8_t refusal;
    size_t len;
} table_converted;

/* The refusal number of a table that writes its tree once: 0 if it is well-formed, else 4 to 11 or 21. */
uint8_t tree_table_refusal(const uint8_t *tree, size_t len);

/* Writes the table with its tree once into the first bytes of `buf` and 0 into the rest of its `room` bytes. Refused with 4
 * to 12 or 22: then all of `buf` is 0. */
table_converted tree_table_from_signal_table(const uint8_t *table, size_t len, uint8_t *buf, size_t room);

/* The way back, in the same manner: the table with its URNs in full. Refused with 4 to 11, 21 or 22. */
table_converted tree_table_to_signal_table(const uint8_t *tree, size_t len, uint8_t *buf, size_t room);

#ifdef __cplusplus
}
#endif

#endif
