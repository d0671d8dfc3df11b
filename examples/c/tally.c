/* Keeps a tally over a day's calls and prints it.
 *
 *     tally TABLE < CALLS
 *
 * TABLE is a file with a stored table. CALLS has one Alert-Info value a line; an empty line is no call. A handset would
 * call tally_value as each call comes in: its answer is the ring, and the tally is kept on the way. */
#include <stdio.h>
#include <string.h>

#include "read_file.h"
#include "tally.h"

/* Room for the longest table and one byte more, so that a longer one is seen as such; and for a line that is longer
 * than any value. */
static uint8_t table[8192 + 1];
static char line[4096 + 4];
static alert_tally records[ALERT_MOST_SIGNALS];
static uint32_t refusals[ALERT_TALLY_COUNTS];

/* The number of bytes without the line's end. */
static size_t without_end(const char *text)
{
    return strcspn(text, "\r\n");
}

/* The next line, of which at most the buffer's length is kept: whether there was one. */
static int next_line(void)
{
    int c;
    if (fgets(line, sizeof line, stdin) == NULL)
        return 0;
    if (strchr(line, '\n') == NULL)
        do
            c = getchar();
        while (c != '\n' && c != EOF);
    return 1;
}

int main(int count, char **words)
{
    long length;
    unsigned long calls = 0;
    unsigned k;
    if (count != 2) {
        fprintf(stderr, "usage: tally TABLE < CALLS\n");
        return 2;
    }
    length = read_file(words[1], table, sizeof table);
    if (length < 0) {
        fprintf(stderr, "tally: %s cannot be read\n", words[1]);
        return 2;
    }
    while (next_line()) {
        size_t value_len = without_end(line);
        alert_resolution answer;
        if (value_len == 0)
            continue;
        answer = tally_value(table, (size_t)length, records, ALERT_MOST_SIGNALS, refusals, ALERT_TALLY_COUNTS,
                             (const uint8_t *)line, value_len);
        if (answer.refusal == ALERT_NOT_COUNTED) {
            fprintf(stderr, "tally: a count is full\n");
            return 1;
        }
        calls++;
    }
    for (k = 0; k < ALERT_MOST_SIGNALS; k++)
        if (records[k].chosen != 0)
            printf("ring %u: chosen %lu, used %lu, skipped %lu\n", k, (unsigned long)records[k].chosen,
                   (unsigned long)records[k].used, (unsigned long)records[k].skipped);
    for (k = 0; k < ALERT_TALLY_COUNTS; k++)
        if (refusals[k] != 0)
            printf("refused with %u: %lu\n", k + 1, (unsigned long)refusals[k]);
    printf("calls: %lu\n", calls);
    return 0;
}
