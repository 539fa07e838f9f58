#include <string.h>

#include "hostile.h"

uint64_t samples_of(const uint8_t *bytes, size_t length)
{
    uint64_t all = 0;
    for (size_t i = 0; i + 12 <= length; i++)
        if (bytes[i] == 't' && memcmp(bytes + i, "trun", 4) == 0) {
            uint64_t count = (uint64_t)bytes[i + 8] << 24 | bytes[i + 9] << 16 | bytes[i + 10] << 8 | bytes[i + 11];
            all += count < 1 << 20 ? count : 1 << 20;
        }
    return all;
}
