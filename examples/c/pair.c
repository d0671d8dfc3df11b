/* Chooses a ring and a lamp apart, each by its own table.
 *
 *     pair RINGS LAMPS VALUE
 *
 * RINGS and LAMPS are files with stored tables that have no category in common, VALUE is the field's value as text. */
#include <stdio.h>
#include <string.h>

#include "read_file.h"
#include "resolver.h"

/* Room for the longest table and one byte more, so that a longer one is seen as such. */
static uint8_t rings[8192 + 1];
static uint8_t lamps[8192 + 1];

int main(int count, char **words)
{
    alert_pair answer;
    long rings_len, lamps_len;
    if (count != 4) {
        fprintf(stderr, "usage: pair RINGS LAMPS VALUE\n");
        return 2;
    }
    rings_len = read_file(words[1], rings, sizeof rings);
    lamps_len = read_file(words[2], lamps, sizeof lamps);
    if (rings_len < 0 || lamps_len < 0) {
        fprintf(stderr, "pair: %s cannot be read\n", words[rings_len < 0 ? 1 : 2]);
        return 2;
    }
    answer = resolve_pair(rings, (size_t)rings_len, lamps, (size_t)lamps_len, (const uint8_t *)words[3], strlen(words[3]));
    if (answer.refusal != 0) {
        printf("refused with %u\n", answer.refusal);
        return 1;
    }
    printf("ring %u, lamp %u\n", answer.ring, answer.lamp);
    return 0;
}
