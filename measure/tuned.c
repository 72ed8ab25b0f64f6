/*
 * A reader of one component, tuned by hand for x86-64: one walk decodes the
 * parameters, notes a bit for each register number that the row names, looks
 * at the size of such a one, and fills a local table, which is copied where
 * all is accepted. What ./bench holds the proved reader to. Numbers and
 * details are those of the scope paper, and the packed result is that of
 * plain.c. Numbers of the table are stored low octet first, as the machine has
 * them.
 */
#include "tuned.h"

#include <string.h>

#define DIGITS 4

/* A row: a bit for each number that it names, 64 to a word; those that must
 * occur, in order, of a choice the first; the choice, 0 where there is none;
 * and the group, its first member and a bit for each, 0 where there is none. */
struct row {
    uint64_t names[4];
    uint8_t must_count;
    uint8_t must[5];
    uint8_t one, other;
    uint8_t first;
    uint64_t group[4];
};

#define BIT(number) ((uint64_t)1 << (number) % 64)

static const struct row rows[] = {
    { { BIT(5) | BIT(6) | BIT(8) | BIT(2) | BIT(3) | BIT(1) }, 5, { 5, 6, 8, 2, 3 }, 0, 0, 0, { 0 } },
    { { BIT(5) }, 1, { 5 }, 0, 0, 0, { 0 } },
    { { BIT(9) | BIT(8) | BIT(21) | BIT(17) | BIT(22) | BIT(32), BIT(123), 0, BIT(242) },
      5, { 9, 8, 21, 17, 22 }, 8, 242, 0, { 0 } },
    { { BIT(22) }, 1, { 22 }, 0, 0, 0, { 0 } },
    { { 0 }, 0, { 0 }, 0, 0, 0, { 0 } },
    { { BIT(1) | BIT(4) | BIT(21) | BIT(22) | BIT(32), BIT(123) }, 4, { 1, 4, 21, 22 }, 0, 0, 0, { 0 } },
    { { BIT(1) | BIT(9) | BIT(8) | BIT(21) | BIT(22) | BIT(32), 0, 0, BIT(242) | BIT(233) },
      2, { 1, 9 }, 0, 0, 8, { BIT(8), 0, 0, BIT(242) | BIT(233) } },
    { { BIT(1) | BIT(6) | BIT(2), 0, 0, BIT(242) }, 3, { 1, 6, 2 }, 0, 0, 0, { 0 } },
    { { BIT(4) }, 0, { 0 }, 0, 0, 0, { 0 } },
    { { BIT(8) | BIT(9), BIT(105) | BIT(116), 0, BIT(242) | BIT(233) },
      2, { 105, 116 }, 0, 0, 8, { BIT(8), 0, 0, BIT(242) | BIT(233) } },
    { { 0, BIT(105), BIT(153) }, 0, { 0 }, 0, 0, 0, { 0 } },
};

/* The octets of a parameter of fixed size, for each number that a row may name; ChannelData may also have three. */
#define CHANNEL_DATA 5
#define ANY 255
#define ANY_8 ANY, ANY, ANY, ANY, ANY, ANY, ANY, ANY
#define ANY_32 ANY_8, ANY_8, ANY_8, ANY_8

static const uint8_t fixed[256] = {
    ANY, ANY, 2, 2, ANY, 0, 2, ANY, 5, 4, ANY, ANY, ANY, ANY, ANY, ANY,
    ANY, ANY, ANY, ANY, ANY, 3, 1, ANY, ANY_8,
    ANY_32, ANY_32, ANY_32, ANY_32, ANY_32, ANY_32, ANY_32
};

/* Whether octets that are not those of the table are right all the same. */
static inline int may_have(unsigned number, size_t octets)
{
    return fixed[number] == ANY || (number == CHANNEL_DATA && octets == 3);
}

/* One more than the place of its row: 0 where there is none. The empty row also serves there, and for an
 * ERROR and a REJECT, which have no row to ask for. */
#define EMPTY 5

static const uint8_t invokes[256] = { [4] = 1, [13] = 3, [15] = 6, [32] = 7, [37] = 8, [101] = 10 };
static const uint8_t results[256] = { [4] = 2, [13] = 4, [14] = EMPTY, [26] = EMPTY, [64] = 9, [101] = 11 };

/* The parameter identifier at `at`, below `end`: the place behind it, 0 where it is wrong. */
static inline size_t identifier_at(const uint8_t *octets, size_t at, size_t end, unsigned *number)
{
    unsigned first = octets[at], next;

    if ((first & 0xC0) != 0x80)
        return 0;
    *number = first & 0x1F;
    if (*number != 0x1F)
        return at + 1;
    if (end - at < 2)
        return 0;
    next = octets[at + 1];
    if (next < 0x80) {
        *number = next;
        return next < 31 ? 0 : at + 2;
    }
    if (next == 0x80 || end - at < 3 || octets[at + 2] >= 0x80)
        return 0;
    *number = (next & 0x7F) << 7 | octets[at + 2];
    return at + 3;
}

static inline size_t refuse(uint64_t *told, unsigned number, size_t detail)
{
    *told = refusal(number, detail);
    return 0;
}

/* The element at *at with this identifier: leaves *at at its contents; else 0 and the refusal. */
static inline size_t element_at(const uint8_t *octets, size_t *at, size_t end, uint8_t identifier,
                                unsigned number, size_t *length, uint64_t *told)
{
    size_t place = *at;

    if (place >= end)
        return refuse(told, 25, end);
    if (octets[place] != identifier)
        return refuse(told, number, place);
    *at = length_at(octets, place + 1, end, length);
    if (*at == 0)
        return refuse(told, 4, place + 1);
    return *length > end - *at ? refuse(told, 5, place) : 1;
}

/* Whether a word of the one has a bit of the other's. */
static int any(const uint64_t *seen, const uint64_t *group)
{
    return ((seen[0] & group[0]) | (seen[1] & group[1]) | (seen[2] & group[2]) | (seen[3] & group[3])) != 0;
}

/* 12, or else 26, with its place: asked only where the walk has met a named one again or of a wrong size. */
static __attribute__((noinline)) uint64_t again_or_wrong(const uint16_t *entry, size_t count, const uint64_t *names)
{
    uint64_t seen[4] = { 0 };
    size_t wrong = 0;

    for (; count > 0; count--, entry += ENTRY_NUMBERS) {
        unsigned number = entry[0];

        if (entry[1] != 0 || number > 255 || !(names[number / 64] & BIT(number)))
            continue;
        if (seen[number / 64] & BIT(number) && number != DIGITS)
            return refusal(12, entry[4]);
        seen[number / 64] |= BIT(number);
        if (entry[3] != fixed[number] && !may_have(number, entry[3]) && wrong == 0)
            wrong = entry[4];
    }
    return refusal(26, wrong);
}

/* 14: the place of the last entry before `entry` that is one of the choice; both are there. */
static size_t both(const uint16_t *entry, const struct row *row)
{
    do
        entry -= ENTRY_NUMBERS;
    while (entry[1] != 0 || (entry[0] != row->one && entry[0] != row->other));
    return entry[4];
}

/* Reads the component from `from` to `end`; places are those in the octets. Gives how many numbers of the entries are
 * to be copied, 0 where it refuses, and the packed result. Compiled into each of its two callers, so that a start of 0
 * costs nothing. */
static inline __attribute__((always_inline)) size_t read_from(const uint8_t *octets, size_t from, size_t end,
                                                              uint8_t specifier, uint16_t *entries, uint64_t *told)
{
    uint64_t seen[4] = { 0 }, id = 0, code = specifier;
    size_t at, element, length, i, id_count, count = 0, named = 0, operation = 0;
    const struct row *row;
    const uint64_t *names;
    unsigned type, which, doubt = 0;

    type = octets[from];
    if (type < INVOKE || type > REJECT)
        return refuse(told, 3, 0);
    at = length_at(octets, from + 1, end, &length);
    if (at == 0)
        return refuse(told, 4, from + 1);
    if (length != end - at)
        return length > end - at ? refuse(told, 5, from) : refuse(told, 20, at + length);
    element = at;
    if (!element_at(octets, &at, end, 0xCF, 6, &length, told))
        return 0;
    if (type == INVOKE ? length > 2 : length != 1 && !(type == REJECT && length == 0))
        return refuse(told, 6, element);
    id_count = length;
    if (length > 0)
        id = octets[at];
    if (length > 1)
        id |= (uint64_t)octets[at + 1] << 8;
    at += length;
    element = at;
    if (type == INVOKE) {
        if (!element_at(octets, &at, end, 0xD1, 7, &length, told))
            return 0;
        if (length != 2 || octets[at] != 9)
            return refuse(told, 7, element);
        operation = at + 1;
        code = octets[operation];
        which = invokes[code];
        at += 2;
    } else if (type == RESULT) {
        which = results[specifier];
    } else {
        size_t wanted = type == ERROR ? 1 : 2;

        if (!element_at(octets, &at, end, type == ERROR ? 0xD4 : 0xD5, 21, &length, told))
            return 0;
        if (length != wanted)
            return refuse(told, 21, element);
        code = octets[at];
        if (wanted == 2)
            code |= (uint64_t)octets[at + 1] << 8;
        which = EMPTY;
        at += wanted;
    }
    if (!element_at(octets, &at, end, 0xF2, 8, &length, told))
        return 0;
    if (at + length != end)
        return refuse(told, 20, at + length);

    row = &rows[which == 0 ? EMPTY - 1 : which - 1];
    names = row->names;
    for (; at < end; count++) {
        uint16_t *entry;
        size_t place = at, start;
        uint32_t identifier;
        unsigned number;

        if (count == MAX_PARAMETERS)
            return refuse(told, 10, place);
        at = identifier_at(octets, place, end, &number);
        if (at == 0)
            return refuse(told, 9, place);
        start = length_at(octets, at, end, &length);
        if (start == 0)
            return refuse(told, 4, at);
        if (length > end - start)
            return refuse(told, 5, place);
        /* number and form at once: the constructor bit, of value 32, goes to the number behind */
        identifier = number | (octets[place] & 0x20u) << 11;
        entry = entries + ENTRY_NUMBERS * count;
        memcpy(entry, &identifier, sizeof identifier);
        entry[2] = (uint16_t)start;
        entry[3] = (uint16_t)length;
        entry[4] = (uint16_t)place;
        if (identifier < 256 && names[number / 64] & BIT(number)) {
            named++;
            /* each asked in two steps: the second is rare */
            if (seen[number / 64] & BIT(number)) {
                if (number != DIGITS)
                    doubt = 1;
            }
            seen[number / 64] |= BIT(number);
            if (length != fixed[number]) {
                if (!may_have(number, length))
                    doubt = 1;
            }
        }
        at = start + length;
    }
    if (which == 0)
        return refuse(told, 11, operation);
    if (doubt != 0) {
        *told = again_or_wrong(entries, count, names);
        return 0;
    }
    for (i = 0; i < row->must_count; i++) {
        unsigned number = row->must[i];

        if (!(seen[number / 64] & BIT(number)) && !(number == row->one && seen[row->other / 64] & BIT(row->other)))
            return refuse(told, 13, number);
    }
    if (row->first != 0 && !any(seen, row->group))
        return refuse(told, 13, row->first);
    if (row->one != 0 && seen[row->one / 64] & BIT(row->one) && seen[row->other / 64] & BIT(row->other))
        return refuse(told, 14, both(entries + ENTRY_NUMBERS * count, row));
    *told = (uint64_t)type << 8 | id << 16 | code << 32 | (uint64_t)(id_count << 14 | count << 7 | named) << 48;
    return ENTRY_NUMBERS * count;
}

uint64_t tuned_read(const uint8_t *component, size_t octets, uint8_t specifier,
                    uint16_t *table, size_t numbers)
{
    uint16_t entries[MIN_NUMBERS];
    uint64_t told;
    size_t filled;

    if (numbers < MIN_NUMBERS)
        return 1;
    if (octets == 0 || octets > MAX_OCTETS)
        return 2;
    filled = read_from(component, 0, octets, specifier, entries, &told);
    memcpy(table, entries, filled * sizeof *table);
    return told;
}

size_t tuned_component(const uint8_t *octets, size_t from, size_t end, uint8_t specifier, uint16_t *entries,
                       uint64_t *told)
{
    return read_from(octets, from, end, specifier, entries, told);
}

/* ---- the writer: one walk measures the entries and asks the row, another puts them down */

/* 12, or else 26, with its entry. */
static __attribute__((noinline)) uint64_t entry_again_or_wrong(const uint16_t *table, size_t count,
                                                               const uint64_t *names)
{
    uint64_t seen[4] = { 0 };
    size_t wrong = count, i;

    for (i = 0; i < count; i++) {
        const uint16_t *entry = table + ENTRY_NUMBERS * i;
        unsigned number = entry[0];

        if (entry[1] != 0 || number > 255 || !(names[number / 64] & BIT(number)))
            continue;
        if (seen[number / 64] & BIT(number) && number != DIGITS)
            return refusal(12, i);
        seen[number / 64] |= BIT(number);
        if (entry[3] != fixed[number] && !may_have(number, entry[3]) && wrong == count)
            wrong = i;
    }
    return refusal(26, wrong);
}

static inline __attribute__((always_inline)) uint64_t weigh(uint8_t type, uint8_t id_count, uint8_t code,
                                                            size_t entries, const uint16_t *table, size_t numbers,
                                                            size_t source_octets, struct sizes *s)
{
    static const uint8_t code_sizes[4] = { 4, 0, 3, 4 };
    uint64_t seen[4] = { 0 };
    size_t i, set = 0;
    const struct row *row;
    const uint64_t *names;
    unsigned which, doubt = 0;

    if (type < INVOKE || type > REJECT)
        return refusal(3, 0);
    if (type == INVOKE ? id_count > 2 : id_count != 1 && !(type == REJECT && id_count == 0))
        return refusal(6, 0);
    if (entries > MAX_PARAMETERS)
        return refusal(10, 0);
    if (numbers < ENTRY_NUMBERS * entries)
        return 1;
    which = type == INVOKE ? invokes[code] : type == RESULT ? results[code] : EMPTY;
    row = &rows[which == 0 ? EMPTY - 1 : which - 1];
    names = row->names;
    for (i = 0; i < entries; i++) {
        const uint16_t *entry = table + ENTRY_NUMBERS * i;
        uint32_t identifier;
        unsigned number, length = entry[3];

        memcpy(&identifier, entry, sizeof identifier);
        number = identifier & 0xFFFF;
        if (number > 16383 || identifier >> 17 != 0 || (size_t)entry[2] + length > source_octets)
            return refusal(16, i);
        set += length + (number < 31 ? 2 : number < 128 ? 3 : 4);
        if (length >= 0x80)
            set += length < 0x100 ? 1 : 2;
        if (identifier < 256 && names[number / 64] & BIT(number)) {
            if (seen[number / 64] & BIT(number)) {
                if (number != DIGITS)
                    doubt = 1;
            }
            seen[number / 64] |= BIT(number);
            if (length != fixed[number]) {
                if (!may_have(number, length))
                    doubt = 1;
            }
        }
    }
    s->set = set;
    s->body = 3 + id_count + code_sizes[type - INVOKE] + field_size(set) + set;
    s->whole = 1 + field_size(s->body) + s->body;
    if (s->whole > MAX_OCTETS)
        return refusal(15, s->whole);
    if (which == 0)
        return 11;
    if (doubt != 0)
        return entry_again_or_wrong(table, entries, names);
    for (i = 0; i < row->must_count; i++) {
        unsigned number = row->must[i];

        if (!(seen[number / 64] & BIT(number)) && !(number == row->one && seen[row->other / 64] & BIT(row->other)))
            return refusal(13, number);
    }
    if (row->first != 0 && !any(seen, row->group))
        return refusal(13, row->first);
    if (row->one != 0 && seen[row->one / 64] & BIT(row->one) && seen[row->other / 64] & BIT(row->other)) {
        i = entries;
        do
            i--;
        while (table[ENTRY_NUMBERS * i + 1] != 0 || (table[ENTRY_NUMBERS * i] != row->one
                                                     && table[ENTRY_NUMBERS * i] != row->other));
        return refusal(14, i);
    }
    return 0;
}

/* Contents of any length: short ones by two loads and stores that may overlap. */
static inline void copy(uint8_t *to, const uint8_t *from, size_t octets)
{
    if (octets >= 16) {
        memcpy(to, from, octets);
    } else if (octets >= 8) {
        memcpy(to, from, 8);
        memcpy(to + octets - 8, from + octets - 8, 8);
    } else if (octets >= 4) {
        memcpy(to, from, 4);
        memcpy(to + octets - 4, from + octets - 4, 4);
    } else if (octets >= 2) {
        memcpy(to, from, 2);
        memcpy(to + octets - 2, from + octets - 2, 2);
    } else if (octets == 1) {
        *to = *from;
    }
}

static inline __attribute__((always_inline)) uint8_t *put(uint8_t type, uint8_t id_count, uint8_t id_first,
                                                          uint8_t id_second, uint8_t code_first,
                                                          uint8_t code_second, size_t entries,
                                                          const uint16_t *table, const uint8_t *source,
                                                          const struct sizes *s, uint8_t *to)
{
    const uint16_t *entry = table, *end = table + ENTRY_NUMBERS * entries;

    *to++ = type;
    to = put_length(to, s->body);
    *to++ = 0xCF;
    *to++ = id_count;
    if (id_count > 0)
        *to++ = id_first;
    if (id_count > 1)
        *to++ = id_second;
    if (type == INVOKE) {
        *to++ = 0xD1, *to++ = 2, *to++ = 9, *to++ = code_first;
    } else if (type == ERROR) {
        *to++ = 0xD4, *to++ = 1, *to++ = code_first;
    } else if (type == REJECT) {
        *to++ = 0xD5, *to++ = 2, *to++ = code_first, *to++ = code_second;
    }
    *to++ = 0xF2;
    to = put_length(to, s->set);
    for (; entry < end; entry += ENTRY_NUMBERS) {
        unsigned number = entry[0], lead = 0x80u | (unsigned)entry[1] << 5;
        size_t length = entry[3];

        if (number < 31) {
            *to++ = (uint8_t)(lead | number);
        } else {
            *to++ = (uint8_t)(lead | 31);
            if (number > 127)
                *to++ = (uint8_t)(0x80 | number >> 7);
            *to++ = number & 0x7F;
        }
        to = put_length(to, length);
        copy(to, source + entry[2], length);
        to += length;
    }
    return to;
}

uint64_t tuned_write(uint8_t type, uint8_t id_count, uint8_t id_first, uint8_t id_second, uint8_t code_first,
                     uint8_t code_second, size_t entries, const uint16_t *table, size_t numbers,
                     const uint8_t *source, size_t source_octets, uint8_t *output, size_t output_octets)
{
    struct sizes s;
    uint64_t wrong = weigh(type, id_count, code_first, entries, table, numbers, source_octets, &s);

    if (wrong != 0)
        return wrong;
    if (output_octets < s.whole)
        return refusal(17, s.whole);
    put(type, id_count, id_first, id_second, code_first, code_second, entries, table, source, &s, output);
    return (uint64_t)s.whole << 8;
}

uint64_t tuned_weigh(uint8_t type, uint8_t id_count, uint8_t code, size_t entries, const uint16_t *table,
                     size_t numbers, size_t source_octets, struct sizes *s)
{
    return weigh(type, id_count, code, entries, table, numbers, source_octets, s);
}

uint8_t *tuned_put(uint8_t type, uint8_t id_count, uint8_t id_first, uint8_t id_second, uint8_t code_first,
                   uint8_t code_second, size_t entries, const uint16_t *table, const uint8_t *source,
                   const struct sizes *s, uint8_t *to)
{
    return put(type, id_count, id_first, id_second, code_first, code_second, entries, table, source, s, to);
}
