/* yajl: validates JSON and UTF-8, and keeps nothing. */
#include "peer.h"

#include <yajl/yajl_parse.h>

static bool valid(const char *message, size_t length) {
    yajl_handle handle = yajl_alloc(NULL, NULL, NULL);
    bool good = yajl_parse(handle, (const unsigned char *)message, length) == yajl_status_ok &&
                yajl_complete_parse(handle) == yajl_status_ok;
    yajl_free(handle);
    return good;
}
