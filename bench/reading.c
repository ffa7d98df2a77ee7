/* The reading alone, through the library for C: handed the same messages as the peers. */
#include "peer.h"

#include "net119.h"

static bool valid(const char *message, size_t length) {
    return net119_read((const uint8_t *)message, length).number == 0;
}
