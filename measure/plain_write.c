/*
 * A plain writer of one component, so that the W cases of a stream can be
 * replayed without another library. Numbers and details are those of the
 * scope paper.
 *
 * Packed result: octet 0 is the answer, octets 1 to 4 the detail or, where
 * accepted, the octet count.
 */
#include "plain.h"

#include <string.h>

/* The rows as text: type, specifier, then the numbers. A number with `!` must
 * occur, `a/b!` is a choice, exactly one of which must, and `a+b+c!` a group,
 * at least one of which must. */
static const struct {
    uint8_t type;
    uint8_t specifier;
    const char *parameters;
} rows[] = {
    { INVOKE, 4, "5! 6! 8! 2! 3! 1" },
    { RESULT, 4, "5!" },
    { INVOKE, 13, "9! 8/242! 21! 17! 22! 32 123" },
    { RESULT, 13, "22!" },
    { RESULT, 14, "" },
    { INVOKE, 15, "1! 4! 21! 22! 32 123" },
    { RESULT, 26, "" },
    { INVOKE, 32, "1! 9! 8+242+233! 21 22 32" },
    { INVOKE, 37, "1! 6! 2! 242" },
    { RESULT, 64, "4" },
    { INVOKE, 101, "105! 116! 8+242+233! 9" },
    { RESULT, 101, "105 153" },
};

static const char *find_row(uint8_t type, uint8_t specifier)
{
    for (size_t i = 0; i < sizeof rows / sizeof rows[0]; i++)
        if (rows[i].type == type && rows[i].specifier == specifier)
            return rows[i].parameters;
    return NULL;
}

static unsigned take_number(const char **text)
{
    unsigned number = 0;

    while (**text >= '0' && **text <= '9')
        number = number * 10 + (unsigned)(*(*text)++ - '0');
    return number;
}

#define MOST_MEMBERS 3

/* An item of a row: one number, or the members that `sign` stands between. */
struct item {
    unsigned members[MOST_MEMBERS];
    size_t count;
    char sign;
    int must;
};

/* Takes one item of a row; false at its end. */
static int take_item(const char **text, struct item *item)
{
    if (**text == 0)
        return 0;
    item->sign = 0;
    item->members[0] = take_number(text);
    for (item->count = 1; **text == '/' || **text == '+'; item->count++) {
        item->sign = *(*text)++;
        item->members[item->count] = take_number(text);
    }
    item->must = **text == '!';
    *text += item->must;
    if (**text == ' ')
        (*text)++;
    return 1;
}

static int is_named(const char *row, unsigned number)
{
    struct item item;

    while (take_item(&row, &item))
        for (size_t i = 0; i < item.count; i++)
            if (number == item.members[i])
                return 1;
    return 0;
}

/* The first entry of this number and primitive, or `entries`. */
static size_t find_entry(const uint16_t *table, size_t entries, unsigned number)
{
    size_t i = 0;

    while (i < entries && (table[ENTRY_NUMBERS * i] != number || table[ENTRY_NUMBERS * i + 1] != 0))
        i++;
    return i;
}

/* Whether a member of this item has an entry. */
static int occurs(const struct item *item, const uint16_t *table, size_t entries)
{
    for (size_t i = 0; i < item->count; i++)
        if (find_entry(table, entries, item->members[i]) < entries)
            return 1;
    return 0;
}

/* The first entry of wrong size that the row names, or `entries`. */
static size_t find_wrong_size(const char *row, const uint16_t *table, size_t entries)
{
    for (size_t i = 0; i < entries; i++) {
        const uint16_t *entry = table + ENTRY_NUMBERS * i;

        if (entry[1] == 0 && !is_right_size(entry[0], entry[3]) && is_named(row, entry[0]))
            return i;
    }
    return entries;
}

static uint64_t check_row(const char *row, const uint16_t *table, size_t entries)
{
    struct item item;
    const char *text;
    size_t wrong;

    if (row == NULL)
        return ANSWER(11, 0);
    for (size_t i = 0; i < entries; i++) {
        unsigned number = table[ENTRY_NUMBERS * i];

        if (table[ENTRY_NUMBERS * i + 1] == 0 && number != 4 && is_named(row, number)
            && find_entry(table, i, number) < i)
            return ANSWER(12, i);
    }
    wrong = find_wrong_size(row, table, entries);
    if (wrong < entries)
        return ANSWER(26, wrong);
    for (text = row; take_item(&text, &item);)
        if (item.must && !occurs(&item, table, entries))
            return ANSWER(13, item.members[0]);
    for (text = row; take_item(&text, &item);) {
        if (item.sign == '/') {
            size_t one = find_entry(table, entries, item.members[0]);
            size_t other = find_entry(table, entries, item.members[1]);

            if (one < entries && other < entries)
                return ANSWER(14, one > other ? one : other);
        }
    }
    return 0;
}

size_t plain_with_length(size_t length)
{
    return length + (length > 0xFFFF ? 4 : length > 0xFF ? 3 : length > 0x7F ? 2 : 1);
}

uint8_t *plain_put_length(uint8_t *out, size_t length)
{
    if (length > 0xFF) {
        *out++ = 0x82;
        *out++ = (uint8_t)(length >> 8);
    } else if (length > 0x7F) {
        *out++ = 0x81;
    }
    *out++ = (uint8_t)length;
    return out;
}

static uint8_t *put_entry(uint8_t *out, const uint16_t *entry, const uint8_t *source)
{
    uint8_t form = entry[1] ? 0xA0 : 0x80;

    if (entry[0] <= 30) {
        *out++ = (uint8_t)(form | entry[0]);
    } else {
        *out++ = form | 0x1F;
        if (entry[0] > 127)
            *out++ = (uint8_t)(0x80 | entry[0] >> 7);
        *out++ = entry[0] & 0x7F;
    }
    out = plain_put_length(out, entry[3]);
    memcpy(out, source + entry[2], entry[3]);
    return out + entry[3];
}

static int is_type(uint8_t type)
{
    return type == INVOKE || type == RESULT || type == ERROR || type == REJECT;
}

/* An ERROR and a REJECT have no row: every parameter is other. */
static int has_row(uint8_t type)
{
    return type == INVOKE || type == RESULT;
}

static int id_allowed(uint8_t type, uint8_t count)
{
    if (type == INVOKE)
        return count <= 2;
    return count == 1 || (type == REJECT && count == 0);
}

/* The element that holds the code; a RESULT has none. */
static void make_code(struct writing *w, uint8_t first, uint8_t second)
{
    const uint8_t operation[] = { 0xD1, 2, 9, first };
    const uint8_t error[] = { 0xD4, 1, first };
    const uint8_t problem[] = { 0xD5, 2, first, second };

    w->code_octets = w->type == RESULT ? 0 : w->type == ERROR ? sizeof error : sizeof operation;
    memcpy(w->code, w->type == INVOKE ? operation : w->type == ERROR ? error : problem, w->code_octets);
}

/* Asks 16 and 15 and counts the octets. */
static uint64_t measure(struct writing *w, size_t source_octets)
{
    w->set = 0;
    for (size_t i = 0; i < w->entries; i++) {
        const uint16_t *entry = w->table + ENTRY_NUMBERS * i;

        if (entry[0] > 16383 || entry[1] > 1 || (size_t)entry[2] + entry[3] > source_octets)
            return ANSWER(16, i);
        w->set += (entry[0] > 127 ? 3 : entry[0] > 30 ? 2 : 1) + plain_with_length(entry[3]);
    }
    w->body = 2 + w->id_count + w->code_octets + 1 + plain_with_length(w->set);
    w->whole = 1 + plain_with_length(w->body);
    return w->whole > MAX_OCTETS ? ANSWER(15, w->whole) : 0;
}

uint8_t *plain_compose(const struct writing *w, uint8_t *out)
{
    *out++ = w->type;
    out = plain_put_length(out, w->body);
    *out++ = 0xCF;
    *out++ = w->id_count;
    memcpy(out, w->id, w->id_count);
    out += w->id_count;
    memcpy(out, w->code, w->code_octets);
    out += w->code_octets;
    *out++ = 0xF2;
    out = plain_put_length(out, w->set);
    for (size_t i = 0; i < w->entries; i++)
        out = put_entry(out, w->table + ENTRY_NUMBERS * i, w->source);
    return out;
}

uint64_t plain_weigh(struct writing *w, const uint8_t code[2], size_t numbers, size_t source_octets)
{
    uint64_t fault;

    if (!is_type(w->type))
        return ANSWER(3, 0);
    if (!id_allowed(w->type, w->id_count))
        return ANSWER(6, 0);
    if (w->entries > MAX_PARAMETERS)
        return ANSWER(10, 0);
    if (numbers < ENTRY_NUMBERS * w->entries)
        return ANSWER(1, 0);
    make_code(w, code[0], code[1]);
    fault = measure(w, source_octets);
    if (fault == 0 && has_row(w->type))
        fault = check_row(find_row(w->type, code[0]), w->table, w->entries);
    return fault;
}

uint64_t plain_write(uint8_t type, uint8_t id_count, uint8_t id_first, uint8_t id_second,
                     uint8_t code_first, uint8_t code_second, size_t entries,
                     const uint16_t *table, size_t numbers,
                     const uint8_t *source, size_t source_octets,
                     uint8_t *output, size_t output_octets)
{
    struct writing w = { type, id_count, { id_first, id_second }, { 0 }, 0,
                         entries, table, source, 0, 0, 0 };
    const uint8_t code[2] = { code_first, code_second };
    uint64_t fault = plain_weigh(&w, code, numbers, source_octets);

    if (fault != 0)
        return fault;
    if (output_octets < w.whole)
        return ANSWER(17, w.whole);
    plain_compose(&w, output);
    return ANSWER(0, w.whole);
}
