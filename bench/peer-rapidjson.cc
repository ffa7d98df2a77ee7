/* RapidJSON: validates JSON and UTF-8, and keeps nothing. */
#include "peer.h"

#include <rapidjson/reader.h>

static bool valid(const char *message, size_t) {
    rapidjson::StringStream stream(message);
    rapidjson::BaseReaderHandler<> nothing;
    rapidjson::Reader reader;
    return !reader.Parse<rapidjson::kParseValidateEncodingFlag>(stream, nothing).IsError();
}
