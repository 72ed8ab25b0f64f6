/*
 * A plain reader and a plain writer of a package, over those of a component.
 * Numbers and details are those of the scope paper and its orders.
 *
 * Packed result of the reader: octet 0 is the answer. Refused: octets 1 to 4
 * the detail. Accepted: octet 1 is the package type, 2 the count of transaction
 * ID octets, 3 and 4 the place of the first, 5 the count of components. The
 * writer's is that of plain_write.c.
 */
#include "plain_component.h"

#include <string.h>

#define MAX_COMPONENTS 8

/* Package types; of queries and conversations the first is with permission. */
enum { UNIDIRECTIONAL = 0xE1, QUERY, QUERY_WITHOUT, RESPONSE, CONVERSATION, CONVERSATION_WITHOUT, NONE = 0 };

/* How many transaction ID octets a type has, from UNIDIRECTIONAL on. */
static const uint8_t id_counts[] = { 0, 4, 4, 4, 8, 8 };

/* Table 2 of 002: which package carries an operation's INVOKE, RESULT, ERROR
 * and REJECT. The line of no specifier is the one for all other operations. */
static const struct line {
    int specifier;
    uint8_t carriers[4];  /* from INVOKE on */
} lines[] = {
    { 2, { QUERY, CONVERSATION, RESPONSE, RESPONSE } },
    { 3, { RESPONSE, NONE, NONE, NONE } },
    { 36, { QUERY, CONVERSATION, RESPONSE, RESPONSE } },
    { 50, { CONVERSATION_WITHOUT, CONVERSATION, CONVERSATION, CONVERSATION } },
    { 58, { CONVERSATION_WITHOUT, CONVERSATION, CONVERSATION, CONVERSATION } },
    { 65, { CONVERSATION, NONE, CONVERSATION, CONVERSATION } },
    { 66, { CONVERSATION_WITHOUT, NONE, CONVERSATION, CONVERSATION } },
    { 67, { CONVERSATION_WITHOUT, NONE, CONVERSATION, CONVERSATION } },
    { 69, { CONVERSATION, RESPONSE, RESPONSE, RESPONSE } },
    { 71, { CONVERSATION_WITHOUT, NONE, CONVERSATION, CONVERSATION } },
    { 73, { QUERY, CONVERSATION_WITHOUT, RESPONSE, RESPONSE } },
    { 74, { CONVERSATION_WITHOUT, CONVERSATION, RESPONSE, RESPONSE } },
    { 78, { UNIDIRECTIONAL, NONE, NONE, NONE } },
    { -1, { QUERY, RESPONSE, RESPONSE, RESPONSE } },
};

/* Whether a package of this type carries the component. An INVOKE is asked by
 * its own specifier, the others by the one that is handed in. */
static int carries(uint8_t package, uint8_t type, uint8_t code, uint8_t specifier)
{
    const struct line *line = lines;
    uint8_t operation = type == INVOKE ? code : specifier;

    while (line->specifier >= 0 && line->specifier != operation)
        line++;
    return line->carriers[type - INVOKE] == package;
}

static int is_package(uint8_t type)
{
    return type >= UNIDIRECTIONAL && type <= CONVERSATION_WITHOUT;
}

/* The specifier that is handed in for a component: the first one's is least significant. */
static uint8_t specifier_of(uint64_t specifiers, size_t index)
{
    return (uint8_t)(specifiers >> 8 * index);
}

/* ---- reading */

/* Where the parts of a package stand: the transaction ID octets, the component
 * sequence, and the components, of which those behind the eighth are counted only. */
struct layout {
    struct walk walk;
    size_t ids;
    size_t sequence;
    size_t count;
    size_t starts[MAX_COMPONENTS];
    size_t ends[MAX_COMPONENTS];
};

/* Walks over the components to the sequence's end; any octet begins one. */
static int read_sequence(struct layout *l, size_t at, size_t end)
{
    for (; at < end; l->count++) {
        size_t start = at++;
        size_t length;

        if (!read_length(&l->walk, start, &at, end, &length))
            return 0;
        at += length;
        if (l->count < MAX_COMPONENTS) {
            l->starts[l->count] = start;
            l->ends[l->count] = at;
        }
    }
    return 1;
}

static int read_layout(struct layout *l, size_t end)
{
    uint8_t type = l->walk.octets[0];
    size_t at = 1;
    size_t place, length;

    if (!is_package(type))
        return refuse_at(&l->walk, 22, 0);
    if (!read_length(&l->walk, 0, &at, end, &length))
        return 0;
    if (at + length != end)
        return refuse_at(&l->walk, 22, at + length);
    place = at;
    if (!read_element(&l->walk, 0xC7, 22, &at, end, &length))
        return 0;
    if (length != id_counts[type - UNIDIRECTIONAL])
        return refuse_at(&l->walk, 22, place);
    l->ids = at;
    at += length;
    l->sequence = at;
    if (!read_element(&l->walk, 0xE8, 22, &at, end, &length))
        return 0;
    if (at + length != end)
        return refuse_at(&l->walk, 22, at + length);
    return read_sequence(l, at, end);
}

/* A fault of the package's own layout is 22, whichever it is of an element; its place stays. */
static uint64_t as_layout(uint64_t refusal)
{
    return ANSWER(22, refusal >> 8);
}

/* Reads each component, then asks Table 2 of each: 0, or the refusal. */
static uint64_t read_components(struct reading *readings, const struct layout *l, uint64_t specifiers)
{
    const uint8_t *octets = l->walk.octets;
    size_t i;

    for (i = 0; i < l->count; i++)
        if (!read_component(&readings[i], octets, l->starts[i], l->ends[i], specifier_of(specifiers, i)))
            return readings[i].walk.refusal;
    for (i = 0; i < l->count; i++)
        if (!carries(octets[0], readings[i].kind->type, readings[i].code[0], specifier_of(specifiers, i)))
            return ANSWER(24, l->starts[i]);
    return 0;
}

uint64_t plain_read_package(const uint8_t *package, size_t octets, uint64_t specifiers,
                            uint16_t *table, size_t numbers, uint64_t *components, size_t summaries)
{
    struct reading readings[MAX_COMPONENTS];
    struct layout l = { { package, 0 }, 0, 0, 0, { 0 }, { 0 } };
    uint64_t refusal;
    size_t i;

    if (numbers < MAX_COMPONENTS * MIN_NUMBERS || summaries < MAX_COMPONENTS)
        return ANSWER(1, 0);
    if (octets == 0 || octets > MAX_OCTETS)
        return ANSWER(2, 0);
    if (!read_layout(&l, octets))
        return as_layout(l.walk.refusal);
    if (l.count == 0 || l.count > MAX_COMPONENTS)
        return ANSWER(23, l.sequence);
    refusal = read_components(readings, &l, specifiers);
    if (refusal != 0)
        return refusal;
    for (i = 0; i < l.count; i++) {
        fill(&readings[i], table + MIN_NUMBERS * i);
        components[i] = pack(&readings[i]);
    }
    return (uint64_t)package[0] << 8 | (uint64_t)id_counts[package[0] - UNIDIRECTIONAL] << 16
         | (uint64_t)l.ids << 24 | (uint64_t)l.count << 40;
}

/* ---- writing */

/* Takes a component from its summary and weighs it. A RESULT's code is the specifier that finds its row. */
static uint64_t weigh_component(struct writing *w, uint64_t summary, uint8_t specifier,
                                const uint16_t *table, const uint8_t *source, size_t source_octets)
{
    uint8_t code[2] = { (uint8_t)(summary >> 32), (uint8_t)(summary >> 40) };

    w->type = (uint8_t)(summary >> 8);
    w->id_count = (uint8_t)(summary >> 62);
    w->id[0] = (uint8_t)(summary >> 16);
    w->id[1] = (uint8_t)(summary >> 24);
    w->entries = summary >> 55 & 0x7F;
    w->table = table;
    w->source = source;
    if (w->type == RESULT)
        code[0] = specifier;
    return plain_weigh(w, code, MIN_NUMBERS, source_octets);
}

/* The octets that all components take. */
static size_t sum(const struct writing *writings, size_t count)
{
    size_t octets = 0;

    while (count-- > 0)
        octets += writings[count].whole;
    return octets;
}

/* The octets of the type's contents. */
static size_t body(size_t id_octets, size_t sequence)
{
    return 1 + plain_with_length(id_octets) + 1 + plain_with_length(sequence);
}

static void compose_package(uint8_t type, const uint8_t *ids, size_t id_octets,
                            const struct writing *writings, size_t count, uint8_t *out)
{
    size_t sequence = sum(writings, count);
    size_t i;

    *out++ = type;
    out = plain_put_length(out, body(id_octets, sequence));
    *out++ = 0xC7;
    out = plain_put_length(out, id_octets);
    memcpy(out, ids, id_octets);
    out += id_octets;
    *out++ = 0xE8;
    out = plain_put_length(out, sequence);
    for (i = 0; i < count; i++)
        out = plain_compose(&writings[i], out);
}

uint64_t plain_write_package(uint8_t type, const uint8_t *ids, size_t id_octets,
                             const uint64_t *components, size_t summaries, uint64_t specifiers,
                             const uint16_t *table, size_t numbers,
                             const uint8_t *source, size_t source_octets,
                             uint8_t *output, size_t output_octets)
{
    struct writing writings[MAX_COMPONENTS];
    uint64_t fault;
    size_t i, whole;

    if (numbers < MAX_COMPONENTS * MIN_NUMBERS)
        return ANSWER(1, 0);
    if (!is_package(type) || id_octets != id_counts[type - UNIDIRECTIONAL])
        return ANSWER(22, 0);
    if (summaries == 0 || summaries > MAX_COMPONENTS)
        return ANSWER(23, 0);
    for (i = 0; i < summaries; i++) {
        fault = weigh_component(&writings[i], components[i], specifier_of(specifiers, i),
                                table + MIN_NUMBERS * i, source, source_octets);
        if (fault != 0)
            return fault;
    }
    for (i = 0; i < summaries; i++)
        if (!carries(type, writings[i].type, (uint8_t)(components[i] >> 32), specifier_of(specifiers, i)))
            return ANSWER(24, i);
    whole = 1 + plain_with_length(body(id_octets, sum(writings, summaries)));
    if (whole > MAX_OCTETS)
        return ANSWER(15, whole);
    if (whole > output_octets)
        return ANSWER(17, whole);
    compose_package(type, ids, id_octets, writings, summaries, output);
    return ANSWER(0, whole);
}
