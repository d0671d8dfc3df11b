/* Says how much of a table's machine is saved by its smallest one.
 *
 *     small TABLE
 *
 * TABLE is a file with a stored table. */
#include <stdio.h>

#include "read_file.h"
#include "small_machine.h"

/* Room for the longest table and one byte more, so that a longer one is seen as such. */
static uint8_t table[8192 + 1];
static uint8_t image[MACHINE_LONGEST];
static uint8_t classes[256];
static uint8_t small[MACHINE_SMALL_LONGEST];

int main(int count, char **words)
{
    machine_built machine, proposed, written;
    unsigned highest = 0;
    size_t state;
    long length;
    if (count != 2) {
        fprintf(stderr, "usage: small TABLE\n");
        return 2;
    }
    length = read_file(words[1], table, sizeof table);
    if (length < 0) {
        fprintf(stderr, "small: %s cannot be read\n", words[1]);
        return 2;
    }
    machine = machine_build(table, (size_t)length, image, sizeof image);
    if (machine.refusal != 0) {
        printf("refused with %u\n", machine.refusal);
        return 1;
    }
    proposed = machine_propose(table, (size_t)length, image, machine.len, classes, sizeof classes);
    written = machine_small_write(table, (size_t)length, image, machine.len, classes, proposed.len, small, sizeof small);
    if (proposed.refusal != 0 || written.refusal != 0) {
        printf("refused with %u and %u\n", proposed.refusal, written.refusal);
        return 1;
    }
    for (state = 0; state < proposed.len; state++) {
        if (highest < classes[state]) {
            highest = classes[state];
        }
    }
    printf("%lu states in %lu bytes, %u classes in %lu\n", (unsigned long)proposed.len, (unsigned long)machine.len,
           highest + 1, (unsigned long)written.len);
    return 0;
}
