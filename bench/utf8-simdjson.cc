/* simdjson's check of UTF-8 alone, by vector instructions; it knows no place. */
#include "text.h"

#include <simdjson.h>

static size_t good_bytes(const char *text, size_t length) {
    return simdjson::validate_utf8(text, length) ? length : 0;
}
