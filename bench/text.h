/*
 * What the checks of UTF-8 share: the whole of standard input is one text. It is handed to `good_bytes`, which says how many of its
 * bytes are good; printed is 'good' where that is all, 'bad' where it is not. With an argument it is only read: 'unchecked'.
 */
#include "input.h"

static size_t good_bytes(const char *text, size_t length);

int main(int count, char **words) {
    size_t length;
    char *text = read_input(&length);
    (void)words;
    puts(count > 1 ? "unchecked" : good_bytes(text, length) == length ? "good" : "bad");
    return 0;
}
