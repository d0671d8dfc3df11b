/* Prints sample values for a table, one a line, to feed a bench.
 *
 *     sample TABLE SEED COUNT
 *
 * TABLE is a file with a stored table; SEED and COUNT are numbers. */
#include <stdio.h>
#include <stdlib.h>

#include "read_file.h"
#include "sample_value.h"

/* Room for the longest table and one byte more, so that a longer one is seen as such. */
static uint8_t table[8192 + 1];
static uint8_t value[ALERT_SAMPLE_ROOM];

int main(int count, char **words)
{
    long length;
    unsigned long k, values;
    sample_seed seed;
    if (count != 4) {
        fprintf(stderr, "usage: sample TABLE SEED COUNT\n");
        return 2;
    }
    length = read_file(words[1], table, sizeof table);
    if (length < 0) {
        fprintf(stderr, "sample: %s cannot be read\n", words[1]);
        return 2;
    }
    seed.x = (uint32_t)strtoul(words[2], NULL, 10);
    values = strtoul(words[3], NULL, 10);
    for (k = 0; k < values; k++) {
        sample_made made = sample_value_make(table, (size_t)length, &seed, value, sizeof value);
        if (made.refusal != 0) {
            printf("refused with %u\n", (unsigned)made.refusal);
            return 1;
        }
        printf("%.*s\n", (int)made.len, (const char *)value);
    }
    return 0;
}
