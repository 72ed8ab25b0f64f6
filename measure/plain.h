/*
 * What the plain readers and writers share; and the writing of a component in
 * two steps, which serve one alone and one inside a package.
 */
#ifndef PLAIN_H
#define PLAIN_H

#include <stddef.h>
#include <stdint.h>

enum { INVOKE = 0xE9, RESULT = 0xEA, ERROR = 0xEB, REJECT = 0xEC };

#define MAX_OCTETS 4096
#define MAX_PARAMETERS 64
#define ENTRY_NUMBERS 5  /* number, form, start, length, and the identifier's place, which no writer looks at */
#define MIN_NUMBERS (MAX_PARAMETERS * ENTRY_NUMBERS)

#define ANSWER(number, detail) ((uint64_t)(number) | (uint64_t)(detail) << 8)

/* Whether a row that names this parameter takes it with so many octets: its size may be fixed. */
static inline int is_right_size(unsigned number, unsigned octets)
{
    switch (number) {
    case 9:  /* ESN */
        return octets == 4;
    case 8:  /* MIN */
        return octets == 5;
    case 21:  /* MSCID */
        return octets == 3;
    case 6:  /* InterMSCCircuitID */
    case 2:  /* ServingCellID */
    case 3:  /* TargetCellID */
        return octets == 2;
    case 22:  /* SystemMyTypeCode */
        return octets == 1;
    case 5:  /* ChannelData */
        return octets == 0 || octets == 3;
    default:
        return 1;
    }
}

/* The call's values, the octets between ID and set, and the lengths of those,
 * of the set, the body and the whole. */
struct writing {
    uint8_t type;
    uint8_t id_count;
    uint8_t id[2];
    uint8_t code[4];
    size_t code_octets;
    size_t entries;
    const uint16_t *table;
    const uint8_t *source;
    size_t set;
    size_t body;
    size_t whole;
};

/* Asks all that refuses a component but the room for its octets, and counts these. A RESULT's code finds its row. */
uint64_t plain_weigh(struct writing *w, const uint8_t code[2], size_t numbers, size_t source_octets);

/* Puts down what was weighed, and gives the place behind it. */
uint8_t *plain_compose(const struct writing *w, uint8_t *out);

/* How many octets the contents are with their length field, and that field. */
size_t plain_with_length(size_t length);
uint8_t *plain_put_length(uint8_t *out, size_t length);

#endif
