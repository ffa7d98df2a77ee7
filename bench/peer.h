/*
 * What the peers share: the messages of a log on standard input are handed to `valid` one by one. 'refused' is printed for each that
 * is not valid, and at the end how many were.
 * A message ends in a 0 byte, and at least 64 bytes may be read behind it.
 */
#include <stdbool.h>

#include "input.h"

static bool valid(const char *message, size_t length);

int main(void) {
    size_t length, good = 0;
    char *log = read_input(&length), *end;
    for (char *line = log; (end = (char *)memchr(line, '\n', log + length - line)) != NULL; line = end + 1) {
        char *message = (char *)memchr(line, ' ', end - line);
        if (message == NULL || message[1] != '[') continue;
        *end = 0;
        if (valid(message + 1, end - message - 1)) {
            good++;
        } else {
            puts("refused");
        }
    }
    printf("%zu valid\n", good);
    return 0;
}
