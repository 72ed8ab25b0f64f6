/*
 * A plain reader of one component: the reading of plain_component.h from a
 * start of 0, and with its packed result.
 */
#include "plain_component.h"

uint64_t plain_read(const uint8_t *component, size_t octets, uint8_t specifier,
                    uint16_t *table, size_t numbers)
{
    struct reading r;

    if (numbers < MIN_NUMBERS)
        return ANSWER(1, 0);
    if (octets == 0 || octets > MAX_OCTETS)
        return ANSWER(2, 0);
    if (!read_component(&r, component, 0, octets, specifier))
        return r.walk.refusal;
    fill(&r, table);
    return pack(&r);
}
