/* The whole of standard input. */
#include <stdio.h>
#include <stdlib.h>
#include <string.h>

/* Reads it, and says how long it is. 64 bytes of 0 stand behind it. */
static char *read_input(size_t *length) {
    size_t room = 1 << 16, read = 0;
    char *input = (char *)malloc(room);
    for (size_t got; (got = fread(input + read, 1, room - read - 64, stdin)) > 0;) {
        read += got;
        if (room - read < room / 2) input = (char *)realloc(input, room *= 2);
    }
    memset(input + read, 0, 64);
    *length = read;
    return input;
}
