/* Prints the ring where only some signals can be given just now, as with a broken lamp or a muted buzzer.
 *
 *     available TABLE VALUE [SIGNAL ..]
 *
 * TABLE is a file with a stored table, VALUE the field's value as text. Every SIGNAL is the number of one that can be
 * given; 0 always can. */
#include <stdio.h>
#include <stdlib.h>
#include <string.h>

#include "read_file.h"
#include "resolver.h"

/* Room for the longest table and one byte more, so that a longer one is seen as such. */
static uint8_t table[8192 + 1];

int main(int count, char **words)
{
    alert_resolution answer;
    uint32_t available = 0;
    long length;
    int i;
    if (count < 3) {
        fprintf(stderr, "usage: available TABLE VALUE [SIGNAL ..]\n");
        return 2;
    }
    length = read_file(words[1], table, sizeof table);
    if (length < 0) {
        fprintf(stderr, "available: %s cannot be read\n", words[1]);
        return 2;
    }
    for (i = 3; i < count; i++)
        available |= UINT32_C(1) << (atoi(words[i]) & 31);
    answer = resolve_available(table, (size_t)length, available, (const uint8_t *)words[2], strlen(words[2]));
    if (answer.refusal != 0) {
        printf("refused with %u\n", answer.refusal);
        return 1;
    }
    printf("ring %u\n", answer.signal);
    return 0;
}
