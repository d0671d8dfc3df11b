/* Prints what a table loses: each mark that it does not keep, with a shortest value that shows it, and each signal that never
 * rings.
 *
 *     gaps TABLE
 *
 * TABLE is a file with a stored table. The exit status is 0 if nothing is lost and every signal can ring. Only the nodes' names
 * are read here; every answer is the library's. */
#include <stdio.h>
#include <string.h>

#include "read_file.h"
#include "table_kept.h"

/* Room for the longest table and one byte more, so that a longer one is seen as such. */
static uint8_t table[8192 + 1];
static size_t length;

/* The nodes in their order: a URN's ancestors and the URN itself, each where it is first met. Node n stands at n. */
static char node[65][256];
static unsigned nodes;

static void add(const uint8_t *urn, size_t n)
{
    size_t i;
    unsigned colons = 0, k;
    for (i = 0; i <= n; i++) {
        if (i < n && urn[i] != ':')
            continue;
        if (colons++ == 0)
            continue;
        for (k = 1; k <= nodes; k++)
            if (strlen(node[k]) == i && memcmp(node[k], urn, i) == 0)
                break;
        if (k > nodes)
            memcpy(node[++nodes], urn, i);
    }
}

/* The nodes of a well-formed table; how many signals it has. */
static unsigned read_nodes(void)
{
    size_t at = 1;
    unsigned i, k, signals;
    for (i = 0; i < table[0]; i++)
        at += 1u + table[at];
    signals = table[at++];
    for (i = 0; i < signals; i++)
        for (k = table[at++]; k > 0; k--) {
            add(table + at + 1, table[at]);
            at += 1u + table[at];
        }
    return signals;
}

int main(int count, char **words)
{
    unsigned signals, i, k, lost = 0, silent = 0;
    uint32_t all;
    uint8_t refusal;
    long n;
    if (count != 2) {
        fprintf(stderr, "usage: gaps TABLE\n");
        return 2;
    }
    n = read_file(words[1], table, sizeof table);
    if (n < 0) {
        fprintf(stderr, "gaps: %s cannot be read\n", words[1]);
        return 2;
    }
    length = (size_t)n;
    refusal = alert_signal_table_rings(table, length, 0, 0).refusal;
    if (refusal != 0) {
        printf("refused with %u\n", refusal);
        return 1;
    }
    signals = read_nodes();
    all = (uint32_t)((UINT64_C(1) << signals) - 1);
    for (i = 1; i <= nodes; i++) {
        alert_kept answer = alert_signal_table_keeps(table, length, all, (uint8_t)i);
        if (answer.kept)
            continue;
        lost++;
        printf("%s is lost: ", node[i]);
        for (k = 0; k < answer.len; k++)
            printf("%s<urn:alert:%s>", k == 0 ? "" : ", ", node[answer.marks[k]]);
        printf(" rings %u\n", answer.rings);
    }
    for (i = 0; i < signals; i++) {
        if (alert_signal_table_rings(table, length, all, (uint8_t)i).rings)
            continue;
        silent++;
        printf("signal %u never rings\n", i);
    }
    printf("%u of %u marks lost, %u of %u signals never ring\n", lost, nodes, silent, signals);
    return lost != 0 || silent != 0;
}
