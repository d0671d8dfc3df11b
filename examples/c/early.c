/* Rings before the end: prints the ring as soon as no further URN could change it, and how many entries that took.
 *
 *     early TABLE VALUE
 *
 * TABLE is a file with a stored table, VALUE the field's value as text, also one that is not there to its end. */
#include <stdio.h>
#include <string.h>

#include "read_file.h"
#include "resolver.h"

/* Room for the longest table and one byte more, so that a longer one is seen as such. */
static uint8_t table[8192 + 1];

int main(int count, char **words)
{
    alert_early answer;
    long length;
    if (count != 3) {
        fprintf(stderr, "usage: early TABLE VALUE\n");
        return 2;
    }
    length = read_file(words[1], table, sizeof table);
    if (length < 0) {
        fprintf(stderr, "early: %s cannot be read\n", words[1]);
        return 2;
    }
    answer = resolve_early(table, (size_t)length, (const uint8_t *)words[2], strlen(words[2]));
    if (answer.refusal != 0) {
        printf("refused with %u\n", answer.refusal);
        return 1;
    }
    printf("ring %u after %u entries\n", answer.signal, answer.entries);
    return 0;
}
