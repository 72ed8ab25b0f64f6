/*
 * What the tuned readers share.
 */
#ifndef TUNED_H
#define TUNED_H

#include <stddef.h>
#include <stdint.h>

#define INVOKE 0xE9
#define RESULT 0xEA
#define ERROR 0xEB
#define REJECT 0xEC

#define MAX_OCTETS 4096
#define MAX_PARAMETERS 64
#define ENTRY_NUMBERS 5
#define MIN_NUMBERS (MAX_PARAMETERS * ENTRY_NUMBERS)

static inline uint64_t refusal(unsigned number, size_t detail)
{
    return number | (uint64_t)detail << 8;
}

static inline int accepted(uint64_t told)
{
    return (told & 0xFF) == 0;
}

/* The length field at `at`, which may not pass `end`: the place behind it, 0 where it is wrong. Each form is taken for
 * any length that it can say. */
static inline size_t length_at(const uint8_t *octets, size_t at, size_t end, size_t *length)
{
    unsigned first;

    if (at >= end)
        return 0;
    first = octets[at];
    if (first < 0x80) {
        *length = first;
        return at + 1;
    }
    if (first == 0x82 && at + 2 < end) {
        *length = (size_t)octets[at + 1] << 8 | octets[at + 2];
        return at + 3;
    }
    if (first == 0x81 && at + 1 < end) {
        *length = octets[at + 1];
        return at + 2;
    }
    return 0;
}

/* Reads the component from `from` to `end`; gives how many numbers of the entries are to be copied, and the packed
 * result. It fills entries also where it refuses: they are the caller's own. */
size_t tuned_component(const uint8_t *octets, size_t from, size_t end, uint8_t specifier, uint16_t *entries,
                       uint64_t *told);

/* What a component takes that is to be written: its parameters, the contents of its type's element, the whole. */
struct sizes {
    size_t set, body, whole;
};

/* Asks all that refuses a component but the room for it, and counts its octets: 0, or the refusal. */
uint64_t tuned_weigh(uint8_t type, uint8_t id_count, uint8_t code, size_t entries, const uint16_t *table,
                     size_t numbers, size_t source_octets, struct sizes *s);

/* Writes what was weighed: the place behind it. */
uint8_t *tuned_put(uint8_t type, uint8_t id_count, uint8_t id_first, uint8_t id_second, uint8_t code_first,
                   uint8_t code_second, size_t entries, const uint16_t *table, const uint8_t *source,
                   const struct sizes *s, uint8_t *to);

static inline size_t field_size(size_t length)
{
    return length < 0x80 ? 1 : length < 0x100 ? 2 : length < 0x10000 ? 3 : 4;
}

static inline uint8_t *put_length(uint8_t *to, size_t length)
{
    if (length >= 0x100) {
        *to++ = 0x82;
        *to++ = (uint8_t)(length >> 8);
    } else if (length >= 0x80) {
        *to++ = 0x81;
    }
    *to++ = (uint8_t)length;
    return to;
}

#endif
