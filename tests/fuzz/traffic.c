/* Any octets as a frame of the tap: it goes to a port of the set, the same each time, and another one only if that port leaves. */
#include <stdlib.h>
#include <string.h>

#include "tap.h"

int LLVMFuzzerTestOneInput(const uint8_t *octets, size_t length);

int LLVMFuzzerTestOneInput(const uint8_t *octets, size_t length)
{
    uint32_t set;
    if (length < sizeof set)
        return 0;
    memcpy(&set, octets, sizeof set);
    octets += sizeof set;
    length -= sizeof set;
    if (set == 0)
        return 0;
    const uint32_t port = tap_port_of(octets, length, set);
    if (port < 1 || port > 32 || (set & bit_of(port)) == 0)
        abort();
    for (uint32_t other = 1; other <= 32; other++)
        if (other != port && tap_port_of(octets, length, set & ~bit_of(other)) != port)
            abort();
    return 0;
}
