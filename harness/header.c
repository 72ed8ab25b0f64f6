/*
 * The header as a drafter uses it, in C or C++: chart A, an error and a reject
 * read, taken apart and written again, chart A with padded lengths too, and
 * InterSystemPage with one and with all of its group; packages of one and of
 * two components; refusals of each kind of call, a table too short among them;
 * and the name of every error octet. Status 0 where all is as it must be.
 */
#include "roadquill.h"
#include "roadquill.h"

#include <stdio.h>
#include <string.h>

#define COUNT(list) (sizeof(list) / sizeof(list)[0])

static const uint8_t chart[] = {
    0xE9, 0x1E, 0xCF, 0x01, 0x05, 0xD1, 0x02, 0x09, 0x04, 0xF2, 0x15, 0x85, 0x00, 0x86, 0x02, 0x01,
    0x07, 0x88, 0x05, 0x21, 0x43, 0x65, 0x87, 0x09, 0x82, 0x02, 0x00, 0x11, 0x83, 0x02, 0x00, 0x12
};
/* The same with every length padded. */
static const uint8_t padded[] = {
    0xE9, 0x81, 0x2A, 0xCF, 0x82, 0x00, 0x01, 0x05, 0xD1, 0x81, 0x02, 0x09, 0x04, 0xF2, 0x82, 0x00,
    0x1C, 0x85, 0x82, 0x00, 0x00, 0x86, 0x81, 0x02, 0x01, 0x07, 0x88, 0x82, 0x00, 0x05, 0x21, 0x43,
    0x65, 0x87, 0x09, 0x82, 0x81, 0x02, 0x00, 0x11, 0x83, 0x81, 0x02, 0x00, 0x12
};
static const uint8_t result[] = { 0xEA, 0x07, 0xCF, 0x01, 0x05, 0xF2, 0x02, 0x85, 0x00 };
static const uint8_t error[] = { 0xEB, 0x08, 0xCF, 0x01, 0x05, 0xD4, 0x01, 0x81, 0xF2, 0x00 };
static const uint8_t reject[] = {
    0xEC, 0x0C, 0xCF, 0x00, 0xD5, 0x02, 0x01, 0x02, 0xF2, 0x04, 0x85, 0x00, 0x85, 0x00
};
/* HandoffBack2 with two ID octets, and with IMSI, Digits, and MIN of no octets, which its row does not name. */
static const uint8_t two_ids[] = {
    0xE9, 0x1C, 0xCF, 0x02, 0x05, 0x06, 0xD1, 0x02, 0x09, 0x25, 0xF2, 0x12, 0x81, 0x00, 0x86, 0x02,
    0x01, 0x07, 0x82, 0x02, 0x00, 0x11, 0x9F, 0x81, 0x72, 0x00, 0x84, 0x00, 0x88, 0x00
};
/* InterSystemPage by NetworkTMSI alone, by all of the group, and by none. */
static const uint8_t by_one[] = {
    0xE9, 0x19, 0xCF, 0x01, 0x05, 0xD1, 0x02, 0x09, 0x20, 0xF2, 0x10, 0x81, 0x00, 0x89, 0x04, 0x82,
    0x1A, 0x2B, 0x3C, 0x9F, 0x81, 0x69, 0x04, 0x12, 0x34, 0x56, 0x78
};
static const uint8_t by_three[] = {
    0xE9, 0x20, 0xCF, 0x01, 0x05, 0xD1, 0x02, 0x09, 0x20, 0xF2, 0x17, 0x81, 0x00, 0x89, 0x04, 0x82,
    0x1A, 0x2B, 0x3C, 0x9F, 0x81, 0x69, 0x00, 0x88, 0x05, 0x21, 0x43, 0x65, 0x87, 0x09, 0x9F, 0x81,
    0x72, 0x00
};
static const uint8_t by_none[] = {
    0xE9, 0x11, 0xCF, 0x01, 0x05, 0xD1, 0x02, 0x09, 0x20, 0xF2, 0x08, 0x81, 0x00, 0x89, 0x04, 0x82,
    0x1A, 0x2B, 0x3C
};
/* The same with an ESN of three octets. */
static const uint8_t short_esn[] = {
    0xE9, 0x10, 0xCF, 0x01, 0x05, 0xD1, 0x02, 0x09, 0x20, 0xF2, 0x07, 0x81, 0x00, 0x89, 0x03, 0x82,
    0x1A, 0x2B
};

/* Where the components begin in a package with one transaction ID, and with two. */
#define BEHIND_ONE 10
#define BEHIND_TWO 14

/* A RESPONSE with a result, and with a result and a reject; a CONVERSATION with an error. */
static const uint8_t response[] = {
    0xE4, 0x11, 0xC7, 0x04, 0x00, 0x00, 0x00, 0x01, 0xE8, 0x09, 0xEA, 0x07, 0xCF, 0x01, 0x05, 0xF2,
    0x02, 0x85, 0x00
};
static const uint8_t two_inside[] = {
    0xE4, 0x1F, 0xC7, 0x04, 0x00, 0x00, 0x00, 0x02, 0xE8, 0x17, 0xEA, 0x07, 0xCF, 0x01, 0x05, 0xF2,
    0x02, 0x85, 0x00, 0xEC, 0x0C, 0xCF, 0x00, 0xD5, 0x02, 0x01, 0x02, 0xF2, 0x04, 0x85, 0x00, 0x85,
    0x00
};
/* The same with the lengths of its own elements, and of its second component, padded. */
static const uint8_t two_padded[] = {
    0xE4, 0x81, 0x24, 0xC7, 0x82, 0x00, 0x04, 0x00, 0x00, 0x00, 0x02, 0xE8, 0x82, 0x00, 0x18, 0xEA,
    0x07, 0xCF, 0x01, 0x05, 0xF2, 0x02, 0x85, 0x00, 0xEC, 0x81, 0x0C, 0xCF, 0x00, 0xD5, 0x02, 0x01,
    0x02, 0xF2, 0x04, 0x85, 0x00, 0x85, 0x00
};
static const uint8_t conversation[] = {
    0xE5, 0x16, 0xC7, 0x08, 0x00, 0x00, 0x00, 0x01, 0x00, 0x00, 0x00, 0x01, 0xE8, 0x0A, 0xEB, 0x08,
    0xCF, 0x01, 0x05, 0xD4, 0x01, 0x85, 0xF2, 0x00
};
/* What stands before the components of a QUERY and of a UNIDIRECTIONAL with chart A. */
static const uint8_t query_head[] = { 0xE2, 0x28, 0xC7, 0x04, 0x00, 0x00, 0x00, 0x01, 0xE8, 0x20 };
static const uint8_t unidirectional_head[] = { 0xE1, 0x24, 0xC7, 0x00, 0xE8, 0x20 };
static const uint8_t no_component[] = { 0xE2, 0x08, 0xC7, 0x04, 0x00, 0x00, 0x00, 0x01, 0xE8, 0x00 };
static const uint8_t dialogue[] = {
    0xE2, 0x0A, 0xC7, 0x04, 0x00, 0x00, 0x00, 0x01, 0xF9, 0x00, 0xE8, 0x00
};

/* Table 6 of N.S0010, from octet 81 on; it reserves all others. */
static const char *const names[] = {
    "UnrecognizedMIN", "UnrecognizedESN", "MSID/HLRMismatch", "OperationSequenceProblem",
    "ResourceShortage", "OperationNotSupported", "TrunkUnavailable", "ParameterError",
    "SystemFailure", "UnrecognizedParameterValue", "FeatureInactive", "MissingParameter",
    "UnrecognizedTMSI", "TMSI/VLRMismatch"
};

/* What a reading shows, in the order of its helpers. */
struct shown {
    unsigned type, id_count, id_first, id_second, code_first, code_second, all, named, other;
};

static uint16_t table[ROADQUILL_NUMBERS];
static uint16_t package_table[ROADQUILL_PACKAGE_NUMBERS];
static uint64_t summaries[ROADQUILL_COMPONENTS];
static uint8_t output[64];
static int wrong;

static void same(const char *what, unsigned long got, unsigned long expected)
{
    if (got != expected) {
        printf("header: %s is %lu, and must be %lu\n", what, got, expected);
        wrong = 1;
    }
}

static void refused(const char *what, uint64_t got, unsigned long answer, unsigned long detail)
{
    same(what, roadquill_answer(got), answer);
    same("its detail", roadquill_detail(got), detail);
}

/* Reads, takes the result apart, and writes what was read, which gives the component with its
 * lengths in the shortest form. */
static void trip(const uint8_t *component, size_t octets, uint8_t specifier, struct shown expected,
                 const uint8_t *shortest, size_t shortest_octets)
{
    uint64_t got = roadquill_read(component, octets, specifier, table, ROADQUILL_NUMBERS);

    same("the answer", roadquill_answer(got), ROADQUILL_ACCEPTED);
    same("the type", roadquill_type(got), expected.type);
    same("the count of ID octets", roadquill_id_count(got), expected.id_count);
    same("the first ID octet", roadquill_id_first(got), expected.id_first);
    same("the second ID octet", roadquill_id_second(got), expected.id_second);
    same("the first octet of the code", roadquill_code_first(got), expected.code_first);
    same("the second octet of the code", roadquill_code_second(got), expected.code_second);
    same("the count of all", roadquill_all(got), expected.all);
    same("the count of named", roadquill_named(got), expected.named);
    same("the count of other", roadquill_other(got), expected.other);

    table[4] = 0xFFFF;  /* the writer does not look at it */
    memset(output, 0, sizeof output);
    got = roadquill_write(roadquill_type(got), roadquill_id_count(got), roadquill_id_first(got),
                          roadquill_id_second(got), roadquill_code_first(got),
                          roadquill_code_second(got), roadquill_all(got), table, ROADQUILL_NUMBERS,
                          component, octets, output, octets);
    same("the writer's answer", roadquill_answer(got), ROADQUILL_ACCEPTED);
    same("the octet count", roadquill_octets_written(got), shortest_octets);
    same("the octets", memcmp(output, shortest, shortest_octets) == 0, 1);
}

/* Of a component whose lengths are shortest. */
static void same_trip(const uint8_t *component, size_t octets, uint8_t specifier,
                      struct shown expected)
{
    trip(component, octets, specifier, expected, component, octets);
}

static void trips(void)
{
    const struct shown of_chart = { ROADQUILL_INVOKE, 1, 5, 0, 4, 0, 5, 5, 0 };
    const struct shown of_result = { ROADQUILL_RESULT, 1, 5, 0, 26, 0, 1, 0, 1 };
    const struct shown of_error = { ROADQUILL_ERROR, 1, 5, 0, 0x81, 0, 0, 0, 0 };
    const struct shown of_reject = { ROADQUILL_REJECT, 0, 0, 0, 1, 2, 2, 0, 2 };
    const struct shown of_two_ids = { ROADQUILL_INVOKE, 2, 5, 6, 37, 0, 6, 4, 2 };
    const struct shown of_one = { ROADQUILL_INVOKE, 1, 5, 0, 32, 0, 3, 3, 0 };
    const struct shown of_three = { ROADQUILL_INVOKE, 1, 5, 0, 32, 0, 5, 5, 0 };

    same_trip(chart, sizeof chart, 0, of_chart);
    trip(padded, sizeof padded, 0, of_chart, chart, sizeof chart);
    same_trip(result, sizeof result, 26, of_result);
    same_trip(error, sizeof error, 4, of_error);
    same_trip(reject, sizeof reject, 4, of_reject);
    same_trip(two_ids, sizeof two_ids, 0, of_two_ids);
    same_trip(by_one, sizeof by_one, 0, of_one);
    same_trip(by_three, sizeof by_three, 0, of_three);
}

static void entries(void)
{
    const uint16_t *last = table + 4 * ROADQUILL_ENTRY_NUMBERS;

    same("the numbers of an entry", ROADQUILL_ENTRY_NUMBERS, 5);
    same("the numbers of a table", COUNT(table), 320);
    roadquill_read(chart, sizeof chart, 0, table, ROADQUILL_NUMBERS);
    same("the start of ChannelData", table[2], 13);
    same("the length of ChannelData", table[3], 0);
    same("the place of ChannelData", table[4], 11);
    same("the number of TargetCellID", last[0], 3);
    same("the start of TargetCellID", last[2], 30);
    same("the place of TargetCellID", last[4], 28);
    roadquill_read(padded, sizeof padded, 0, table, ROADQUILL_NUMBERS);
    same("the start of a padded TargetCellID", last[2], 43);
    same("the length of a padded TargetCellID", last[3], 2);
    same("the place of a padded TargetCellID", last[4], 40);
}

static void refused_readings(void)
{
    const uint8_t overrun[] = { 0xE9, 0x81, 0x05 };
    const uint8_t ended[] = { 0xE9, 0x00 };
    const uint8_t left_over[] = { 0xEA, 0x07, 0xCF, 0x01, 0x05, 0xF2, 0x00, 0x85, 0x00 };
    uint8_t other[sizeof error];

    refused("the answer to a table too short",
            roadquill_read(chart, sizeof chart, 0, table, ROADQUILL_NUMBERS - 1), ROADQUILL_TABLE, 0);
    refused("the answer to E9", roadquill_read(chart, 1, 0, table, ROADQUILL_NUMBERS),
            ROADQUILL_LENGTH, 1);
    refused("the answer to E9 81", roadquill_read(overrun, 2, 0, table, ROADQUILL_NUMBERS),
            ROADQUILL_LENGTH, 1);
    refused("the answer to E9 81 05",
            roadquill_read(overrun, sizeof overrun, 0, table, ROADQUILL_NUMBERS),
            ROADQUILL_OVERRUN, 0);
    refused("the answer to E9 00", roadquill_read(ended, sizeof ended, 0, table, ROADQUILL_NUMBERS),
            ROADQUILL_ENDED, 2);
    refused("the answer to 85 00 behind the set",
            roadquill_read(left_over, sizeof left_over, 4, table, ROADQUILL_NUMBERS),
            ROADQUILL_LEFT_OVER, 7);
    memcpy(other, error, sizeof other);
    other[5] = 0xD5;
    refused("the answer to an error with a problem",
            roadquill_read(other, sizeof other, 0, table, ROADQUILL_NUMBERS), ROADQUILL_PROBLEM, 5);
    refused("the answer to a page with none of its group",
            roadquill_read(by_none, sizeof by_none, 0, table, ROADQUILL_NUMBERS),
            ROADQUILL_MISSING, 8);
    refused("the answer to an ESN of three octets",
            roadquill_read(short_esn, sizeof short_esn, 0, table, ROADQUILL_NUMBERS),
            ROADQUILL_WRONG_SIZE, 13);
}

static void refused_writings(void)
{
    refused("the writer's answer to a table too short",
            roadquill_write(ROADQUILL_RESULT, 1, 5, 0, 4, 0, 1, table, ROADQUILL_ENTRY_NUMBERS - 1,
                            chart, sizeof chart, output, sizeof output), ROADQUILL_TABLE, 0);
    refused("the answer to a result with no parameter",
            roadquill_write(ROADQUILL_RESULT, 1, 5, 0, 4, 0, 0, table, 0, chart, 0, output,
                            sizeof output), ROADQUILL_MISSING, 5);
    refused("the answer to a reject with two ID octets",
            roadquill_write(ROADQUILL_REJECT, 2, 5, 6, 1, 1, 0, table, 0, chart, 0, output,
                            sizeof output), ROADQUILL_ID, 0);
    roadquill_read(by_three, sizeof by_three, 0, table, ROADQUILL_NUMBERS);
    refused("the writer's answer to a page with none of its group",
            roadquill_write(ROADQUILL_INVOKE, 1, 5, 0, 32, 0, 2, table, ROADQUILL_NUMBERS, by_three,
                            sizeof by_three, output, sizeof output), ROADQUILL_MISSING, 8);
    table[ROADQUILL_ENTRY_NUMBERS + 3] = 3;
    refused("the writer's answer to an ESN of three octets",
            roadquill_write(ROADQUILL_INVOKE, 1, 5, 0, 32, 0, 2, table, ROADQUILL_NUMBERS, by_three,
                            sizeof by_three, output, sizeof output), ROADQUILL_WRONG_SIZE, 1);
    refused("the writer's answer to no type",
            roadquill_write(0xED, 1, 5, 0, 1, 1, 0, table, 0, chart, 0, output, sizeof output),
            ROADQUILL_TYPE, 0);
}

/* Into a buffer of so many octets; those that the name leaves stay. */
static void name_into(uint8_t code, const char *name, size_t octets)
{
    uint8_t buffer[2 * ROADQUILL_ERROR_NAME_OCTETS], expected[sizeof buffer];
    size_t needed = strlen(name);
    uint64_t got;

    memset(buffer, 0x5A, sizeof buffer);
    memset(expected, 0x5A, sizeof expected);
    if (octets >= needed)
        memcpy(expected, name, needed);
    got = roadquill_error_name(code, buffer, octets);
    same("the answer to a name", roadquill_answer(got),
         octets < needed ? ROADQUILL_OUTPUT : ROADQUILL_ACCEPTED);
    same("the octets of a name", roadquill_octets_written(got), needed);
    same("what stands behind them in the result", (unsigned long)(got >> 40), 0);
    same("a name", memcmp(buffer, expected, sizeof buffer) == 0, 1);
}

static void every_name(void)
{
    unsigned code;
    size_t octets, longest = 0;

    for (code = 0; code < 256; code++) {
        const char *name = code - 0x81 < COUNT(names) ? names[code - 0x81] : "";

        for (octets = 0; octets <= ROADQUILL_ERROR_NAME_OCTETS + 1; octets++)
            name_into((uint8_t)code, name, octets);
        longest = strlen(name) > longest ? strlen(name) : longest;
    }
    same("the longest name", ROADQUILL_ERROR_NAME_OCTETS, longest);
}

/* What a call finds in its lent buffers. */
static void lend(void)
{
    memset(package_table, 0x5A, sizeof package_table);
    memset(summaries, 0x5A, sizeof summaries);
    memset(output, 0x5A, sizeof output);
}

/* Whether so many octets from here on are as they were lent. */
static int untouched(const void *from, size_t octets)
{
    const uint8_t *place = (const uint8_t *)from;

    while (octets > 0 && place[octets - 1] == 0x5A)
        octets--;
    return octets == 0;
}

/* That a component inside has its own part of the table and its own summary, as alone. */
static void component_inside(const uint8_t *package, size_t place, size_t octets, uint8_t specifier,
                             size_t index)
{
    const uint16_t *part = package_table + ROADQUILL_NUMBERS * index;
    uint64_t alone = roadquill_read(package + place, octets, specifier, table, ROADQUILL_NUMBERS);
    size_t i, filled = ROADQUILL_ENTRY_NUMBERS * roadquill_all(alone);

    same("a summary", summaries[index] == alone, 1);
    for (i = 0; i < filled; i++) {
        size_t kind = i % ROADQUILL_ENTRY_NUMBERS;

        same("a number of a component inside", part[i],
             table[i] + (kind == 2 || kind == 4 ? (unsigned long)place : 0));
    }
    same("what stands behind its numbers",
         untouched(part + filled, sizeof *part * (ROADQUILL_NUMBERS - filled)), 1);
}

/* Reads a package, takes the result apart, and writes it again in its shortest form. */
static uint64_t package_trip(const uint8_t *package, size_t octets, uint64_t specifiers,
                             const uint8_t *shortest, size_t shortest_octets)
{
    uint64_t got, written;
    unsigned count, ids;

    lend();
    got = roadquill_read_package(package, octets, specifiers, package_table, COUNT(package_table),
                                 summaries, COUNT(summaries));
    same("the answer to a package", roadquill_answer(got), ROADQUILL_ACCEPTED);
    same("the package type", roadquill_package_type(got), package[0]);
    same("octets 6 and 7", (unsigned long)(got >> 48), 0);
    count = roadquill_component_count(got);
    ids = roadquill_transaction_octets(got);
    same("the summaries behind the count",
         untouched(summaries + count, sizeof *summaries * (COUNT(summaries) - count)), 1);
    written = roadquill_write_package(roadquill_package_type(got),
                                      package + roadquill_transaction_place(got), ids, summaries,
                                      count, specifiers, package_table, COUNT(package_table),
                                      package, octets, output, shortest_octets);
    same("the package writer's answer", roadquill_answer(written), ROADQUILL_ACCEPTED);
    same("the package's octet count", roadquill_octets_written(written), shortest_octets);
    same("the package's octets", memcmp(output, shortest, shortest_octets) == 0, 1);
    same("what stands behind them",
         untouched(output + shortest_octets, sizeof output - shortest_octets), 1);
    return got;
}

static void package_trips(void)
{
    uint8_t query[sizeof query_head + sizeof chart];
    uint64_t got;

    memcpy(query, query_head, sizeof query_head);
    memcpy(query + sizeof query_head, chart, sizeof chart);
    got = package_trip(query, sizeof query, 0, query, sizeof query);
    same("the components of a query", roadquill_component_count(got), 1);
    same("its transaction ID octets", roadquill_transaction_octets(got), 4);
    same("their place", roadquill_transaction_place(got), 4);
    same("the start of ChannelData in a package", package_table[2], 23);
    component_inside(query, BEHIND_ONE, sizeof chart, 0, 0);

    package_trip(response, sizeof response, 4, response, sizeof response);
    got = package_trip(conversation, sizeof conversation, 58, conversation, sizeof conversation);
    same("the transaction ID octets of a conversation", roadquill_transaction_octets(got), 8);
    component_inside(conversation, BEHIND_TWO, sizeof error, 58, 0);
}

/* The first component's specifier is 26 and the second's 4. */
static void two_in_a_package(void)
{
    uint64_t got = package_trip(two_inside, sizeof two_inside, 0x041A, two_inside,
                                sizeof two_inside);

    same("the components of two", roadquill_component_count(got), 2);
    component_inside(two_inside, BEHIND_ONE, sizeof result, 26, 0);
    component_inside(two_inside, BEHIND_ONE + sizeof result, sizeof reject, 4, 1);
    got = package_trip(two_padded, sizeof two_padded, 0x041A, two_inside, sizeof two_inside);
    same("the place of padded IDs", roadquill_transaction_place(got), 7);
    component_inside(two_padded, 15, sizeof result, 26, 0);
    component_inside(two_padded, 15 + sizeof result, sizeof reject + 1, 4, 1);
}

static void package_refused(const char *what, const uint8_t *package, size_t octets,
                            uint64_t specifiers, unsigned long answer, unsigned long detail)
{
    lend();
    refused(what, roadquill_read_package(package, octets, specifiers, package_table,
                                         COUNT(package_table), summaries, COUNT(summaries)),
            answer, detail);
    same("the table after a refusal", untouched(package_table, sizeof package_table), 1);
    same("the summaries after a refusal", untouched(summaries, sizeof summaries), 1);
}

static void refused_packages(void)
{
    uint8_t one_way[sizeof unidirectional_head + sizeof chart];

    memcpy(one_way, unidirectional_head, sizeof unidirectional_head);
    memcpy(one_way + sizeof unidirectional_head, chart, sizeof chart);
    package_refused("chart A in a UNIDIRECTIONAL", one_way, sizeof one_way, 0, ROADQUILL_PACKAGE, 6);
    package_refused("an error of 13 in a CONVERSATION", conversation, sizeof conversation, 13,
                    ROADQUILL_PACKAGE, BEHIND_TWO);
    package_refused("no component", no_component, sizeof no_component, 0, ROADQUILL_COUNT, 8);
    package_refused("a dialogue portion", dialogue, sizeof dialogue, 0, ROADQUILL_LAYOUT, 8);
    package_refused("a component alone", chart, sizeof chart, 0, ROADQUILL_LAYOUT, 0);
    package_refused("no octets", chart, 0, 0, ROADQUILL_SIZE, 0);
    package_refused("a result without a row", response, sizeof response, 0x0400, ROADQUILL_NO_ROW, 0);
    lend();
    refused("a package's table too short",
            roadquill_read_package(response, sizeof response, 4, package_table,
                                   COUNT(package_table) - 1, summaries, COUNT(summaries)),
            ROADQUILL_TABLE, 0);
    refused("summaries too few",
            roadquill_read_package(response, sizeof response, 4, package_table,
                                   COUNT(package_table), summaries, COUNT(summaries) - 1),
            ROADQUILL_TABLE, 0);
    same("what was lent too short", untouched(package_table, sizeof package_table)
         && untouched(summaries, sizeof summaries), 1);
}

/* Of a RESPONSE with two components, whose table and summaries are there. */
static void written_refused(const char *what, uint8_t type, size_t id_octets, size_t count,
                            uint64_t specifiers, size_t numbers, size_t room, unsigned long answer,
                            unsigned long detail)
{
    memset(output, 0x5A, sizeof output);
    refused(what, roadquill_write_package(type, two_inside + 4, id_octets, summaries, count,
                                          specifiers, package_table, numbers, two_inside,
                                          sizeof two_inside, output, room), answer, detail);
    same("the output after a refusal", untouched(output, sizeof output), 1);
}

static void refused_packages_written(void)
{
    const size_t all = COUNT(package_table), room = sizeof output;
    const size_t whole = sizeof two_inside;

    package_trip(two_inside, sizeof two_inside, 0x041A, two_inside, sizeof two_inside);
    written_refused("a table too short", 0xE4, 4, 2, 0x041A, all - 1, room, ROADQUILL_TABLE, 0);
    written_refused("no package type", 0xE9, 4, 2, 0x041A, all, room, ROADQUILL_LAYOUT, 0);
    written_refused("three ID octets", 0xE4, 3, 2, 0x041A, all, room, ROADQUILL_LAYOUT, 0);
    written_refused("four in a CONVERSATION", 0xE5, 4, 2, 0x041A, all, room, ROADQUILL_LAYOUT, 0);
    written_refused("nothing to write", 0xE4, 4, 0, 0x041A, all, room, ROADQUILL_COUNT, 0);
    written_refused("a missing parameter", 0xE4, 4, 2, 0x040D, all, room, ROADQUILL_MISSING, 22);
    written_refused("the other's package", 0xE4, 4, 2, 0x3A1A, all, room, ROADQUILL_PACKAGE, 1);
    written_refused("one octet short", 0xE4, 4, 2, 0x041A, all, whole - 1, ROADQUILL_OUTPUT, whole);
}

int main(void)
{
    entries();
    trips();
    refused_readings();
    refused_writings();
    package_trips();
    two_in_a_package();
    refused_packages();
    refused_packages_written();
    every_name();
    return wrong;
}
