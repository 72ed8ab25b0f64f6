/*
 * A reader of a package over the tuned reader of a component: the layout in one
 * walk, each component into a local table of its own, and what is accepted
 * copied at the end. What ./bench holds the proved reader of packages to.
 * Numbers and details are those of the scope paper and its orders, and the
 * packed result is that of plain_package.c.
 */
#include "tuned.h"

#include <string.h>

#define MAX_COMPONENTS 8
#define UNIDIRECTIONAL 0xE1

/* How many transaction ID octets a package type has, from UNIDIRECTIONAL on. */
static const uint8_t id_counts[6] = { 0, 4, 4, 4, 8, 8 };

/* Table 2 of 002: the package type that carries an INVOKE, RESULT, ERROR and REJECT, 0 where none does. Equal lines are
 * one; the first is the one for all other operations. */
static const uint8_t carriers[][4] = {
    { 0xE2, 0xE4, 0xE4, 0xE4 },
    { 0xE2, 0xE5, 0xE4, 0xE4 },
    { 0xE4, 0, 0, 0 },
    { 0xE6, 0xE5, 0xE5, 0xE5 },
    { 0xE5, 0, 0xE5, 0xE5 },
    { 0xE6, 0, 0xE5, 0xE5 },
    { 0xE5, 0xE4, 0xE4, 0xE4 },
    { 0xE2, 0xE6, 0xE4, 0xE4 },
    { 0xE6, 0xE5, 0xE4, 0xE4 },
    { 0xE1, 0, 0, 0 },
};

static const uint8_t line_of[256] = {
    [2] = 1, [36] = 1, [3] = 2, [50] = 3, [58] = 3, [65] = 4, [66] = 5, [67] = 5, [71] = 5,
    [69] = 6, [73] = 7, [74] = 8, [78] = 9,
};

/* Where the parts stand: the first transaction ID octet, the component sequence, its components and its end. */
struct layout {
    size_t ids, sequence, count;
    size_t starts[MAX_COMPONENTS + 1];
};

/* The element at *at with this identifier: leaves *at at its contents; else 22. */
static inline uint64_t part_at(const uint8_t *octets, size_t *at, size_t end, uint8_t identifier, size_t *length)
{
    size_t place = *at;

    if (place >= end || octets[place] != identifier)
        return refusal(22, place);
    *at = length_at(octets, place + 1, end, length);
    if (*at == 0)
        return refusal(22, place + 1);
    return *length > end - *at ? refusal(22, place) : 0;
}

/* The walk over the sequence, which goes on behind the eighth component: 0, or 22. */
static inline uint64_t sequence_at(const uint8_t *octets, size_t at, size_t end, struct layout *l)
{
    size_t count = 0;

    while (at < end) {
        size_t length, contents = length_at(octets, at + 1, end, &length);

        if (contents == 0)
            return refusal(22, at + 1);
        if (length > end - contents)
            return refusal(22, at);
        if (count < MAX_COMPONENTS)
            l->starts[count] = at;
        count++;
        at = contents + length;
    }
    l->count = count;
    if (count <= MAX_COMPONENTS)
        l->starts[count] = end;
    return 0;
}

/* 0, or 22. */
static inline uint64_t layout_of(const uint8_t *octets, size_t end, struct layout *l)
{
    unsigned type = octets[0] - UNIDIRECTIONAL;
    size_t at, length, place;
    uint64_t wrong;

    if (type >= sizeof id_counts)
        return refusal(22, 0);
    at = length_at(octets, 1, end, &length);
    if (at == 0)
        return refusal(22, 1);
    if (length != end - at)
        return refusal(22, length > end - at ? 0 : at + length);
    place = at;
    if ((wrong = part_at(octets, &at, end, 0xC7, &length)) != 0)
        return wrong;
    if (length != id_counts[type])
        return refusal(22, place);
    l->ids = at;
    l->sequence = at += length;
    if ((wrong = part_at(octets, &at, end, 0xE8, &length)) != 0)
        return wrong;
    if (at + length != end)
        return refusal(22, at + length);
    return sequence_at(octets, at, end, l);
}

/* 24, or 0: an INVOKE is asked by its own specifier, the others by the one handed in. */
static inline uint64_t carriage_of(uint8_t package, const uint64_t *told, uint64_t specifiers, const struct layout *l)
{
    size_t i;

    for (i = 0; i < l->count; i++) {
        unsigned type = told[i] >> 8 & 0xFF;
        uint8_t operation = (uint8_t)(type == INVOKE ? told[i] >> 32 : specifiers >> 8 * i);

        if (carriers[line_of[operation]][type - INVOKE] != package)
            return refusal(24, l->starts[i]);
    }
    return 0;
}

uint64_t tuned_read_package(const uint8_t *package, size_t octets, uint64_t specifiers,
                            uint16_t *table, size_t numbers, uint64_t *components, size_t summaries)
{
    uint16_t entries[MAX_COMPONENTS * MIN_NUMBERS];
    uint64_t told[MAX_COMPONENTS], wrong;
    size_t filled[MAX_COMPONENTS], i;
    struct layout l;

    if (numbers < MAX_COMPONENTS * MIN_NUMBERS || summaries < MAX_COMPONENTS)
        return 1;
    if (octets == 0 || octets > MAX_OCTETS)
        return 2;
    if ((wrong = layout_of(package, octets, &l)) != 0)
        return wrong;
    if (l.count == 0 || l.count > MAX_COMPONENTS)
        return refusal(23, l.sequence);
    for (i = 0; i < l.count; i++) {
        filled[i] = tuned_component(package, l.starts[i], l.starts[i + 1], (uint8_t)(specifiers >> 8 * i),
                                    entries + MIN_NUMBERS * i, &told[i]);
        if (!accepted(told[i]))
            return told[i];
    }
    if ((wrong = carriage_of(package[0], told, specifiers, &l)) != 0)
        return wrong;
    for (i = 0; i < l.count; i++) {
        memcpy(table + MIN_NUMBERS * i, entries + MIN_NUMBERS * i, filled[i] * sizeof *table);
        components[i] = told[i];
    }
    return (uint64_t)package[0] << 8 | (uint64_t)id_counts[package[0] - UNIDIRECTIONAL] << 16
         | (uint64_t)l.ids << 24 | (uint64_t)l.count << 40;
}

/* Writes a package: its components are weighed first, and then put down one behind another. */
uint64_t tuned_write_package(uint8_t type, const uint8_t *ids, size_t id_octets, const uint64_t *components,
                             size_t summaries, uint64_t specifiers, const uint16_t *table, size_t numbers,
                             const uint8_t *source, size_t source_octets, uint8_t *output, size_t output_octets)
{
    struct sizes s[MAX_COMPONENTS];
    size_t i, set = 0, body, whole, not_carried = MAX_COMPONENTS;
    uint8_t *to = output;

    if (numbers < MAX_COMPONENTS * MIN_NUMBERS)
        return 1;
    if ((unsigned)type - UNIDIRECTIONAL >= sizeof id_counts || id_octets != id_counts[type - UNIDIRECTIONAL])
        return 22;
    if (summaries == 0 || summaries > MAX_COMPONENTS)
        return 23;
    for (i = 0; i < summaries; i++) {
        uint64_t c = components[i], wrong;
        uint8_t kind = (uint8_t)(c >> 8), given = (uint8_t)(specifiers >> 8 * i);
        uint8_t code = (uint8_t)(kind == RESULT ? given : c >> 32);

        wrong = tuned_weigh(kind, (uint8_t)(c >> 62), code, c >> 55 & 0x7F, table + MIN_NUMBERS * i,
                            numbers - MIN_NUMBERS * i, source_octets, &s[i]);
        if (wrong != 0)
            return wrong;
        set += s[i].whole;
        if (not_carried == MAX_COMPONENTS
            && carriers[line_of[kind == INVOKE ? code : given]][kind - INVOKE] != type)
            not_carried = i;
    }
    if (not_carried != MAX_COMPONENTS)
        return refusal(24, not_carried);
    body = 3 + id_octets + field_size(set) + set;
    whole = 1 + field_size(body) + body;
    if (whole > MAX_OCTETS)
        return refusal(15, whole);
    if (output_octets < whole)
        return refusal(17, whole);
    *to++ = type;
    to = put_length(to, body);
    *to++ = 0xC7;
    *to++ = (uint8_t)id_octets;
    for (i = 0; i < id_octets; i++)
        *to++ = ids[i];
    *to++ = 0xE8;
    to = put_length(to, set);
    for (i = 0; i < summaries; i++) {
        uint64_t c = components[i];
        uint8_t kind = (uint8_t)(c >> 8);

        to = tuned_put(kind, (uint8_t)(c >> 62), (uint8_t)(c >> 16), (uint8_t)(c >> 24),
                       (uint8_t)(kind == RESULT ? specifiers >> 8 * i : c >> 32), (uint8_t)(c >> 40), c >> 55 & 0x7F,
                       table + MIN_NUMBERS * i, source, &s[i], to);
    }
    return (uint64_t)whole << 8;
}
