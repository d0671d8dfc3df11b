/* Feeds the Alert-Info fields of one message, one after another, and prints the ring after each.
 *
 *     fields TABLE VALUE [VALUE ..]
 *
 * TABLE is a file with a stored table, each VALUE one field's value as text. The ring at the end is the one to give. A
 * field that is refused is passed over, as a handset would: the others still count. */
#include <stdio.h>
#include <string.h>

#include "resolver.h"

/* Room for the longest table and one byte more, so that a longer one is seen as such. */
static uint8_t table[8192 + 1];

int main(int count, char **words)
{
    alert_record record;
    size_t length;
    FILE *file;
    int i;
    if (count < 3) {
        fprintf(stderr, "usage: fields TABLE VALUE [VALUE ..]\n");
        return 2;
    }
    file = fopen(words[1], "rb");
    if (file == NULL) {
        fprintf(stderr, "fields: %s cannot be read\n", words[1]);
        return 2;
    }
    length = fread(table, 1, sizeof table, file);
    fclose(file);
    memset(&record, 0, sizeof record);
    for (i = 2; i < count; i++) {
        alert_resolution answer =
            resolve_feed(table, length, &record, (const uint8_t *)words[i], strlen(words[i]));
        if (answer.refusal != 0)
            printf("field %d: refused with %u\n", i - 1, answer.refusal);
        else
            printf("field %d: ring %u (%u used, %u skipped)\n", i - 1, answer.signal, answer.used, answer.skipped);
    }
    printf("ring %u after %u values\n", record.signal, record.values);
    return 0;
}
