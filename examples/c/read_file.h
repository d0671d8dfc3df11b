/* The start of a file, for the examples. */
#ifndef READ_FILE_H
#define READ_FILE_H

#include <stdint.h>
#include <stdio.h>

/* Reads at most `room` bytes of the file. The number of bytes, or -1 if the file cannot be read. */
static long read_file(const char *name, uint8_t *bytes, size_t room)
{
    FILE *file = fopen(name, "rb");
    size_t length;
    int failed;
    if (file == NULL)
        return -1;
    length = fread(bytes, 1, room, file);
    failed = ferror(file);
    fclose(file);
    return failed ? -1 : (long)length;
}

#endif
