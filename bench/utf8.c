/* The check of UTF-8 alone, as the reading makes it. */
#include "text.h"

#include <stdint.h>

extern size_t utf8_alone(const uint8_t *text, size_t length);

static size_t good_bytes(const char *text, size_t length) {
    return utf8_alone((const uint8_t *)text, length);
}
