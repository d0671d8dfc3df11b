/* Reads a signal table and an Alert-Info value and prints the ring.
 *
 *     ring TABLE VALUE
 *
 * TABLE is a file with a stored table, VALUE the field's value as text. The ring is the number of a signal of the
 * table, counted from 0. The machine is built once, as a handset would at its start, and then followed. */
#include <stdio.h>
#include <string.h>

#include "read_file.h"
#include "resolver.h"

/* Room for the longest table and one byte more, so that a longer one is seen as such. */
static uint8_t table[8192 + 1];
static uint8_t machine[MACHINE_LONGEST];

/* The machine's answer where there is a machine; a table with too many states for one is resolved without. */
static alert_resolution resolve(size_t table_len, const char *text)
{
    const uint8_t *value = (const uint8_t *)text;
    size_t value_len = strlen(text);
    machine_built built = machine_build(table, table_len, machine, sizeof machine);
    if (built.refusal == ALERT_TOO_MANY_STATES) {
        alert_plain plain = resolve_plain(table, table_len, value, value_len);
        alert_resolution answer = {plain.refusal, plain.signal, plain.used, plain.skipped};
        return answer;
    }
    return resolve_machine(table, table_len, machine, built.len, value, value_len);
}

int main(int count, char **words)
{
    alert_resolution answer;
    long length;
    if (count != 3) {
        fprintf(stderr, "usage: ring TABLE VALUE\n");
        return 2;
    }
    length = read_file(words[1], table, sizeof table);
    if (length < 0) {
        fprintf(stderr, "ring: %s cannot be read\n", words[1]);
        return 2;
    }
    answer = resolve((size_t)length, words[2]);
    if (answer.refusal != 0) {
        printf("refused with %u\n", answer.refusal);
        return 1;
    }
    printf("ring %u (%u used, %u skipped)\n", answer.signal, answer.used, answer.skipped);
    return 0;
}
