/*
 * A plain reading of a component that stands at some place among octets:
 * structure from left to right, then the row of the operation. Numbers and
 * details are those of the scope paper.
 *
 * Two readers compile this text, that of a component alone and that of a
 * package, so that neither pays for the other.
 *
 * Packed result: octet 0 is the answer. Refused: octets 1 to 4 the detail.
 * Accepted: octet 1 is the type, 2 and 3 the ID octets, 4 and 5 the octets of
 * the code (0 where absent), and 6 and 7 a number: 16,384 times the count of
 * ID octets, plus 128 times the count of all parameters, plus that of named.
 */
#ifndef PLAIN_COMPONENT_H
#define PLAIN_COMPONENT_H

#include "plain.h"

#define DIGITS 4

/* What a type has before its set: how many ID octets, and the element of its
 * code, with the refusal where it is another or of another length; 0: none. */
struct kind {
    uint8_t type;
    uint8_t least_id;
    uint8_t most_id;
    uint8_t element;
    uint8_t length;
    uint8_t refusal;
};

static const struct kind kinds[] = {  /* from INVOKE on */
    { INVOKE, 0, 2, 0xD1, 2, 7 },
    { RESULT, 1, 1, 0, 0, 0 },
    { ERROR, 1, 1, 0xD4, 1, 21 },
    { REJECT, 0, 1, 0xD5, 2, 21 },
};

/* A row: `named` holds first the parameters that must occur, in order, then
 * the members of its group, of which at least one must occur, then the others.
 * Of a choice the first member stands among those that must occur, and the
 * second may occur instead of it. */
struct row {
    uint8_t type;
    uint8_t specifier;
    uint8_t must_count;
    uint8_t group_count;  /* 0: no group */
    uint8_t named_count;
    uint16_t named[8];
    uint16_t choice_first;  /* 0: no choice */
    uint16_t choice_second;
};

static const struct row rows[] = {
    { INVOKE, 4, 5, 0, 6, { 5, 6, 8, 2, 3, 1 }, 0, 0 },
    { RESULT, 4, 1, 0, 1, { 5 }, 0, 0 },
    { INVOKE, 13, 5, 0, 8, { 9, 8, 21, 17, 22, 242, 32, 123 }, 8, 242 },
    { RESULT, 13, 1, 0, 1, { 22 }, 0, 0 },
    { RESULT, 14, 0, 0, 0, { 0 }, 0, 0 },
    { INVOKE, 15, 4, 0, 6, { 1, 4, 21, 22, 32, 123 }, 0, 0 },
    { RESULT, 26, 0, 0, 0, { 0 }, 0, 0 },
    { INVOKE, 32, 2, 3, 8, { 1, 9, 8, 242, 233, 21, 22, 32 }, 0, 0 },
    { INVOKE, 37, 3, 0, 4, { 1, 6, 2, 242 }, 0, 0 },
    { RESULT, 64, 0, 0, 1, { 4 }, 0, 0 },
    { INVOKE, 101, 2, 3, 6, { 105, 116, 8, 242, 233, 9 }, 0, 0 },
    { RESULT, 101, 0, 0, 2, { 105, 153 }, 0, 0 },
};

/* Octets that are walked over, and the refusal: packed, 0 while there is none. */
struct walk {
    const uint8_t *octets;
    uint64_t refusal;
};

struct parameter {
    uint16_t number;
    uint16_t constructor;
    uint16_t start;
    uint16_t length;
    uint16_t place;
};

struct reading {
    struct walk walk;
    const struct kind *kind;
    uint8_t id_count;
    uint8_t id[2];
    uint8_t code[2];
    size_t specifier_place;
    size_t count;
    size_t named;
    struct parameter list[MAX_PARAMETERS];
};

static int refuse_at(struct walk *w, unsigned number, size_t detail)
{
    w->refusal = ANSWER(number, detail);
    return 0;
}

static int refuse(struct reading *r, unsigned number, size_t detail)
{
    return refuse_at(&r->walk, number, detail);
}

/* Reads the length field at *at, which may not pass `end`, and checks that
 * the contents of the element at `place` end within the parent. Each form is
 * taken for any length that it can say. */
static int read_length(struct walk *w, size_t place, size_t *at, size_t end, size_t *length)
{
    size_t field = *at;
    const uint8_t *p = w->octets + field;
    size_t left = end - field;

    if (left == 0)
        return refuse_at(w, 4, field);
    if (p[0] < 0x80) {
        *length = p[0];
        *at = field + 1;
    } else if (p[0] == 0x81) {
        if (left < 2)
            return refuse_at(w, 4, field);
        *length = p[1];
        *at = field + 2;
    } else if (p[0] == 0x82) {
        if (left < 3)
            return refuse_at(w, 4, field);
        *length = (size_t)p[1] << 8 | p[2];
        *at = field + 3;
    } else {
        return refuse_at(w, 4, field);
    }
    if (*length > end - *at)
        return refuse_at(w, 5, place);
    return 1;
}

/* The element at *at must begin with this identifier; `number` is the
 * refusal where it does not. Leaves *at at the contents. */
static int read_element(struct walk *w, uint8_t identifier, unsigned number,
                        size_t *at, size_t end, size_t *length)
{
    size_t place = *at;

    if (place == end)
        return refuse_at(w, 25, place);
    if (w->octets[place] != identifier)
        return refuse_at(w, number, place);
    *at = place + 1;
    return read_length(w, place, at, end, length);
}

static int read_id(struct reading *r, size_t *at, size_t end)
{
    size_t place = *at;
    size_t length;

    if (!read_element(&r->walk, 0xCF, 6, at, end, &length))
        return 0;
    if (length < r->kind->least_id || length > r->kind->most_id)
        return refuse(r, 6, place);
    r->id_count = (uint8_t)length;
    r->id[0] = length > 0 ? r->walk.octets[*at] : 0;
    r->id[1] = length > 1 ? r->walk.octets[*at + 1] : 0;
    *at += length;
    return 1;
}

/* The element of the code: of an INVOKE the family, 9, and the specifier, of
 * an ERROR the error code, of a REJECT the two problem octets. */
static int read_code(struct reading *r, size_t *at, size_t end)
{
    const struct kind *kind = r->kind;
    const uint8_t *contents;
    size_t place = *at;
    size_t length;

    if (!read_element(&r->walk, kind->element, kind->refusal, at, end, &length))
        return 0;
    contents = r->walk.octets + *at;
    if (length != kind->length || (kind->type == INVOKE && contents[0] != 9))
        return refuse(r, kind->refusal, place);
    if (kind->type == INVOKE) {
        r->specifier_place = *at + 1;
        r->code[0] = contents[1];
    } else {
        r->code[0] = contents[0];
        r->code[1] = length > 1 ? contents[1] : 0;
    }
    *at += length;
    return 1;
}

/* Reads a parameter identifier and leaves *at behind it. */
static int read_identifier(struct reading *r, size_t *at, size_t end, struct parameter *one)
{
    const uint8_t *octets = r->walk.octets;
    size_t place = *at;
    size_t next = place + 1;
    unsigned number = octets[place] & 0x1F;

    if ((octets[place] & 0xC0) != 0x80)
        return refuse(r, 9, place);
    one->constructor = (octets[place] & 0x20) != 0;
    if (number == 0x1F) {
        if (next == end || octets[next] == 0x80 || octets[next] < 31)
            return refuse(r, 9, place);
        number = octets[next] & 0x7F;
        if (octets[next++] & 0x80) {
            if (next == end || (octets[next] & 0x80))
                return refuse(r, 9, place);
            number = number << 7 | octets[next++];
        }
    }
    one->number = (uint16_t)number;
    one->place = (uint16_t)place;
    *at = next;
    return 1;
}

static int read_parameters(struct reading *r, size_t at, size_t end)
{
    while (at < end) {
        struct parameter *one;
        size_t place = at;
        size_t length;

        if (r->count == MAX_PARAMETERS)
            return refuse(r, 10, place);
        one = &r->list[r->count];
        if (!read_identifier(r, &at, end, one))
            return 0;
        if (!read_length(&r->walk, place, &at, end, &length))
            return 0;
        one->start = (uint16_t)at;
        one->length = (uint16_t)length;
        at += length;
        r->count++;
    }
    return 1;
}

static int read_structure(struct reading *r, size_t start, size_t end)
{
    size_t at = start + 1;
    size_t length;

    if (!read_length(&r->walk, start, &at, end, &length))
        return 0;
    if (at + length != end)
        return refuse(r, 20, at + length);
    if (!read_id(r, &at, end))
        return 0;
    if (r->kind->element != 0 && !read_code(r, &at, end))
        return 0;
    if (!read_element(&r->walk, 0xF2, 8, &at, end, &length))
        return 0;
    if (at + length != end)
        return refuse(r, 20, at + length);
    return read_parameters(r, at, end);
}

static const struct row *find_row(uint8_t type, uint8_t specifier)
{
    size_t i;

    for (i = 0; i < sizeof rows / sizeof rows[0]; i++)
        if (rows[i].type == type && rows[i].specifier == specifier)
            return &rows[i];
    return NULL;
}

static int find_named(const struct row *row, const struct parameter *one)
{
    int i;

    if (one->constructor)
        return -1;
    for (i = 0; i < row->named_count; i++)
        if (row->named[i] == one->number)
            return i;
    return -1;
}

/* An ERROR and a REJECT have no row: every parameter is other. */
static int has_row(uint8_t type)
{
    return type == INVOKE || type == RESULT;
}

/* Whether one of the group was seen, or the row has none. */
static int has_group(const struct row *row, const uint16_t *seen)
{
    int i;

    for (i = 0; i < row->group_count; i++)
        if (seen[row->must_count + i] != 0)
            return 1;
    return row->group_count == 0;
}

/* What must occur and was not seen (13); of a choice the second member may occur instead of the first. */
static int check_missing(struct reading *r, const struct row *row, const uint16_t *seen, size_t choice_second)
{
    size_t i;

    for (i = 0; i < row->must_count; i++) {
        if (seen[i] != 0)
            continue;
        if (row->named[i] == row->choice_first && choice_second != 0)
            continue;
        return refuse(r, 13, row->named[i]);
    }
    if (!has_group(row, seen))
        return refuse(r, 13, row->named[row->must_count]);
    return 1;
}

static int check_row(struct reading *r)
{
    const struct row *row = find_row(r->kind->type, r->code[0]);
    uint16_t seen[8] = { 0 };  /* place of the first occurrence */
    size_t choice_first = 0, choice_second = 0;
    size_t wrong = 0;  /* place of the first of wrong size; a repeat behind it is asked before */
    size_t i;

    if (row == NULL)
        return refuse(r, 11, r->specifier_place);
    for (i = 0; i < r->count; i++) {
        const struct parameter *one = &r->list[i];
        int which = find_named(row, one);

        if (which < 0)
            continue;
        if (seen[which] != 0 && one->number != DIGITS)
            return refuse(r, 12, one->place);
        seen[which] = one->place;
        r->named++;
        if (wrong == 0 && !is_right_size(one->number, one->length))
            wrong = one->place;
        if (row->choice_first != 0 && one->number == row->choice_first)
            choice_first = one->place;
        if (row->choice_first != 0 && one->number == row->choice_second)
            choice_second = one->place;
    }
    if (wrong != 0)
        return refuse(r, 26, wrong);
    if (!check_missing(r, row, seen, choice_second))
        return 0;
    if (choice_first != 0 && choice_second != 0)
        return refuse(r, 14, choice_first > choice_second ? choice_first : choice_second);
    return 1;
}

static void fill(const struct reading *r, uint16_t *table)
{
    size_t i;

    for (i = 0; i < r->count; i++) {
        uint16_t *entry = table + ENTRY_NUMBERS * i;

        entry[0] = r->list[i].number;
        entry[1] = r->list[i].constructor;
        entry[2] = r->list[i].start;
        entry[3] = r->list[i].length;
        entry[4] = r->list[i].place;
    }
}

static uint64_t pack(const struct reading *r)
{
    uint64_t counts = 16384 * (uint64_t)r->id_count + 128 * r->count + r->named;

    return (uint64_t)r->kind->type << 8 | (uint64_t)r->id[0] << 16 | (uint64_t)r->id[1] << 24
         | (uint64_t)r->code[0] << 32 | (uint64_t)r->code[1] << 40 | counts << 48;
}

/* Reads the component from `start` to `end`; its places are those in the octets. */
static int read_component(struct reading *r, const uint8_t *octets, size_t start, size_t end, uint8_t specifier)
{
    r->walk.octets = octets;
    r->walk.refusal = 0;
    if (octets[start] < INVOKE || octets[start] > REJECT)
        return refuse(r, 3, 0);
    r->kind = &kinds[octets[start] - INVOKE];
    r->code[0] = specifier;
    r->code[1] = 0;
    r->specifier_place = 0;
    r->count = 0;
    r->named = 0;
    if (!read_structure(r, start, end))
        return 0;
    return !has_row(r->kind->type) || check_row(r);
}

#endif
