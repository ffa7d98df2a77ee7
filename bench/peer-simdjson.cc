/* simdjson: validates JSON and UTF-8 on its way to a document, which it has no way to leave out. */
#include "peer.h"

#include <simdjson.h>

static bool valid(const char *message, size_t length) {
    static simdjson::dom::parser parser;
    return parser.parse(message, length, false).error() == simdjson::SUCCESS;
}
