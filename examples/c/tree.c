/* Says how much flash a table takes in both stored forms, and that the way there and back gives the same bytes.
 *
 *     tree TABLE
 *
 * TABLE is a file with a stored table. */
#include <stdio.h>
#include <string.h>

#include "read_file.h"
#include "tree_table.h"

/* Room for the longest table and one byte more, so that a longer one is seen as such. */
static uint8_t table[8192 + 1];
static uint8_t tree[TREE_TABLE_LONGEST];
static uint8_t back[8192];

int main(int count, char **words)
{
    table_converted there, again;
    long length;
    if (count != 2) {
        fprintf(stderr, "usage: tree TABLE\n");
        return 2;
    }
    length = read_file(words[1], table, sizeof table);
    if (length < 0) {
        fprintf(stderr, "tree: %s cannot be read\n", words[1]);
        return 2;
    }
    there = tree_table_from_signal_table(table, (size_t)length, tree, sizeof tree);
    if (there.refusal != 0) {
        printf("refused with %u\n", there.refusal);
        return 1;
    }
    again = tree_table_to_signal_table(tree, there.len, back, sizeof back);
    if (again.refusal != 0 || again.len != (size_t)length || memcmp(table, back, again.len) != 0) {
        printf("other bytes came back\n");
        return 1;
    }
    printf("%ld bytes, %lu with the tree written once\n", length, (unsigned long)there.len);
    return 0;
}
