/* A store that spoils the area before it looks at the key: yarugota_call_key_in_area must have copied the key, or as much of one that is too
 * long as its copy holds, and hand on all else as it is. Ends with 0 where that is so. */
#include <string.h>

#include "yarugota.h"

enum { AREA = 40, MOST = 17 };

static uint8_t op[5], set[4], path[8], area[AREA], given[AREA], schema[1], base[1];

uint64_t yarugota_call(const uint8_t *o, const uint8_t *s, uint32_t reference, const uint8_t *p, const uint8_t *key, size_t key_len,
                       uint8_t *a, size_t area_len, const uint8_t *sc, size_t schema_len, uint8_t *b, size_t base_len)
{
    int others = o == op && s == set && p == path && a == area && area_len == AREA && sc == schema && schema_len == 1 && b == base
        && base_len == 1;
    size_t length = reference < MOST ? reference : MOST;
    memset(a, 0xFF, area_len);
    return others && key_len == length && memcmp(key, given, length) == 0 ? reference : UINT64_MAX;
}

/* The reference tells the store how long the key is. */
int main(void)
{
    for (uint32_t length = 0; length <= AREA; length++) {
        for (int at = 0; at < AREA; at++)
            area[at] = given[at] = (uint8_t)at;
        if (yarugota_call_key_in_area(op, set, length, path, area, length, area, AREA, schema, 1, base, 1) != length)
            return 1;
    }
    return 0;
}
