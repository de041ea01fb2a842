/* Any octets as messages of the kernel's: the parser goes forward, stays within them, and gives names that end. */
#include <stdlib.h>
#include <string.h>

#include "links.h"

int LLVMFuzzerTestOneInput(const uint8_t *octets, size_t length);

int LLVMFuzzerTestOneInput(const uint8_t *octets, size_t length)
{
    struct notice notice;
    size_t at = 0, before = 0;
    while (links_parse(octets, length, &at, &notice)) {
        const bool tells_of_one = notice.told == TOLD_LINK || notice.told == TOLD_GONE;
        if (at <= before || memchr(notice.name, 0, sizeof notice.name) == NULL || (tells_of_one && notice.link.index <= 0)
            || (notice.link.is_up && !notice.link.is_enabled))
            abort();
        before = at;
    }
    return 0;
}
