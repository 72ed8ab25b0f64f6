/*
 * Roadquill: a proved reader and writer of one ANSI-41 component, INVOKE
 * (LAST), RETURN RESULT (LAST), RETURN ERROR or REJECT, and of whole packages
 * of one to eight components. The library, for x86-64-v2, is
 * crates/roadquill/out/libroadquill.a; it calls memcpy and memset, allocates
 * nothing and keeps nothing between two calls.
 *
 * Octets are those of a component or a package; numbers are the 16-bit numbers
 * of a table; summaries are 64-bit numbers, one for each component of a
 * package. A pointer is never null, also where its count is 0; a table is
 * aligned as uint16_t is, summaries as uint64_t is; and a buffer that a call
 * may change overlaps no other.
 *
 * A component's code is two octets: an INVOKE's specifier, the specifier that
 * is handed in with a RESULT or an ERROR's error octet, each with 0 as the
 * second, or a REJECT's two problem octets.
 *
 * A length is one octet 00 to 7F, 81 and one octet, or 82 and two, high first.
 * The readers take each form for any length that it can say; the writers write
 * the shortest. So what was read, written again from the component or package
 * it was read from, is never longer, and is the same octets exactly when every
 * length was already shortest.
 */
#ifndef ROADQUILL_H
#define ROADQUILL_H

#include <stddef.h>
#include <stdint.h>

#ifdef __cplusplus
extern "C" {
#endif

/* Component types. */
#define ROADQUILL_INVOKE 0xE9
#define ROADQUILL_RESULT 0xEA
#define ROADQUILL_ERROR 0xEB
#define ROADQUILL_REJECT 0xEC

/* Package types; QUERY and CONVERSATION are with permission, unless it is said. */
#define ROADQUILL_UNIDIRECTIONAL 0xE1
#define ROADQUILL_QUERY 0xE2
#define ROADQUILL_QUERY_WITHOUT 0xE3
#define ROADQUILL_RESPONSE 0xE4
#define ROADQUILL_CONVERSATION 0xE5
#define ROADQUILL_CONVERSATION_WITHOUT 0xE6

/* The most that a component has, and that a package has: as many octets, and so many components. */
#define ROADQUILL_OCTETS 4096
#define ROADQUILL_PARAMETERS 64
#define ROADQUILL_COMPONENTS 8

/* The numbers of an entry, and the least that a reader's table has: an entry for each parameter. */
#define ROADQUILL_ENTRY_NUMBERS 5
#define ROADQUILL_NUMBERS (ROADQUILL_PARAMETERS * ROADQUILL_ENTRY_NUMBERS)

/* The least that a package's table has: ROADQUILL_NUMBERS for each component, the first one's first. */
#define ROADQUILL_PACKAGE_NUMBERS (ROADQUILL_COMPONENTS * ROADQUILL_NUMBERS)

/* The octets of the longest name of an error, UnrecognizedParameterValue. */
#define ROADQUILL_ERROR_NAME_OCTETS 26

/*
 * The answer: 0 is accepted, with detail 0; else what is wrong, and the detail
 * says where. Every refusal leaves all lent buffers as found.
 */
enum {
    ROADQUILL_ACCEPTED = 0,
    ROADQUILL_TABLE = 1,        /* table too short: reader under 320 numbers, writer under 5 per entry;
                                   packages, both: under 2,560, or the reader lent under 8 summaries; 0 */
    ROADQUILL_SIZE = 2,         /* input empty or over 4,096 octets; 0 */
    ROADQUILL_TYPE = 3,         /* component type not E9, EA, EB or EC; 0 */
    ROADQUILL_LENGTH = 4,       /* length field of wrong form, or cut by its parent's end; place of that
                                   field */
    ROADQUILL_OVERRUN = 5,      /* reader: contents run past the parent; the element */
    ROADQUILL_ID = 6,           /* component ID not CF, or its length not allowed: INVOKE none to two,
                                   RESULT and ERROR one, REJECT none or one; place of the element,
                                   writer 0 */
    ROADQUILL_OPERATION = 7,    /* reader: an INVOKE's operation code not D1, length not 2, or family
                                   not 9; place of the element */
    ROADQUILL_SET = 8,          /* set identifier not F2; place */
    ROADQUILL_IDENTIFIER = 9,   /* parameter identifier ill formed, or cut by the set's end; its place */
    ROADQUILL_MANY = 10,        /* more than 64 parameters; place of the 65th, writer 0 */
    ROADQUILL_NO_ROW = 11,      /* no row for this operation and component type; reader: the specifier's
                                   place in an INVOKE, else 0; writer 0. An ERROR and a REJECT have no
                                   row, and 11 to 14 and 26 are not asked of them */
    ROADQUILL_AGAIN = 12,       /* a named parameter other than Digits occurs again; place of the earliest
                                   such second, writer its entry */
    ROADQUILL_MISSING = 13,     /* a mandatory parameter or choice is missing, or all members of a group;
                                   first missing number in row order, a group behind the others; a choice
                                   and a group give their first */
    ROADQUILL_BOTH = 14,        /* both members of a choice occur (those of a group may); place of the later,
                                   writer its entry */
    ROADQUILL_TOO_LONG = 15,    /* writer: component or package would pass 4,096 octets; octets it would
                                   need */
    ROADQUILL_ENTRY = 16,       /* writer: number over 16,383, form over 1, or contents outside the source;
                                   the lowest such entry */
    ROADQUILL_OUTPUT = 17,      /* writer: output too short; octets needed. So for an error's name */
                                /* 18 is no answer, of a reader or of a writer, and never will be: it was
                                   a parameter number over 16,383, which no octets say */
    ROADQUILL_LEFT_OVER = 20,   /* reader: octets left over behind an element that has to end with its
                                   parent, the component or F2; the first octet left */
    ROADQUILL_PROBLEM = 21,     /* reader: wrong error or problem element or its length: an ERROR's not D4
                                   with length 1, a REJECT's not D5 with length 2; place of the element */
    ROADQUILL_LAYOUT = 22,      /* package layout: type not E1 to E6 (0), or C7 with the type's count of ID
                                   octets (E1 none; E2, E3, E4 4; E5, E6 8), then E8 and nothing else: the
                                   element, or where it is wanted; or any fault that is 4, 5, 20 or 25 in a
                                   component, of these elements and of the components' lengths in E8, with
                                   their places; writer: type or count of ID octets, 0 */
    ROADQUILL_COUNT = 23,       /* no component in the package, or more than 8; place of E8, writer 0 */
    ROADQUILL_PACKAGE = 24,     /* Table 2 of X.S0004-540 does not let this package carry a component; place
                                   of the first such, writer its index from 0 */
    ROADQUILL_ENDED = 25,       /* reader: an element wanted where the parent has ended; that end */
    ROADQUILL_WRONG_SIZE = 26   /* a named parameter of fixed size has another: ESN 4 octets, MIN 5, MSCID 3,
                                   InterMSCCircuitID, ServingCellID and TargetCellID 2, SystemMyTypeCode 1,
                                   ChannelData none or 3; place of the earliest such, writer its entry.
                                   Asked behind 12 and before 13; what the row does not name is of any
                                   size */
};

/*
 * Reads a component of `octets` octets. A RESULT is of the operation whose
 * specifier is handed in; in reading the other types it plays no part. Where
 * the component is accepted, five numbers for each parameter go to the table in
 * order of occurrence: its number, 0 primitive or 1 constructor, start of
 * contents in the component, length, place of its identifier in the
 * component. Numbers beyond those filled stay.
 *
 * Octet 0 (least significant) of the result is the answer. Refused: octets 1
 * to 4 are the detail, the rest 0. Accepted: octets 1 to 5 are the component
 * type, the first and the second ID octet, the first and the second octet of
 * the code (each 0 where absent). Octets 6 and 7 are a number of 16 bits, least
 * significant octet first: 16,384 times the count of ID octets, plus 128 times
 * the count of all parameters, plus the count of named ones, of which an ERROR
 * and a REJECT have none.
 */
uint64_t roadquill_read(const uint8_t *component, size_t octets, uint8_t specifier,
                        uint16_t *table, size_t numbers);

/*
 * Writes a component of the type with these ID octets, this code (a RESULT
 * has it only to find its row) and so many entries of the table, of five
 * numbers each as the reader fills them; start and length are those of the
 * contents in the source. Only the counted leading octets of the output
 * change. An ID octet that is not counted is not looked at, nor is the second
 * octet of the code but in a REJECT, nor is the fifth number of an entry.
 *
 * Octet 0 (least significant) of the result is the answer. Octets 1 to 4 are
 * the detail or, accepted, the octet count; the rest is 0.
 */
uint64_t roadquill_write(uint8_t type, uint8_t id_count, uint8_t id_first, uint8_t id_second,
                         uint8_t code_first, uint8_t code_second, size_t entries,
                         const uint16_t *table, size_t numbers, const uint8_t *source,
                         size_t source_octets, uint8_t *output, size_t output_octets);

/*
 * Reads a package of `octets` octets. `specifiers` holds eight, the first
 * component's in the least significant octet: a RESULT is of the operation
 * that its own says, and so are an ERROR and a REJECT where Table 2 is asked;
 * an INVOKE names its operation itself. Where the package is accepted,
 * component i (from 0) fills the numbers from ROADQUILL_NUMBERS * i on as
 * roadquill_read fills a table, its starts and places counted from the
 * package's start, and components[i] with its summary, which is what
 * roadquill_read gives for it alone. Numbers and summaries that are not filled
 * stay, between and behind.
 *
 * Asked in this order: 1, 2, 22 up to the end of E8, 23, then each component in
 * turn, of which the first that is refused gives its own answer, then 24. A
 * component's detail is a place in the package, but 3, 13 and a RESULT's 11
 * keep theirs. No INVOKE or RESULT that has a row, and no ERROR or REJECT, is
 * carried by UNIDIRECTIONAL or by what is without permission: such a package
 * is refused.
 *
 * Octet 0 (least significant) of the result is the answer. Refused: octets 1
 * to 4 are the detail, the rest 0. Accepted: octet 1 is the package type, octet
 * 2 the count of transaction ID octets, octets 3 and 4 the place of the first
 * of them, least significant octet first, octet 5 the count of components, the
 * rest 0.
 */
uint64_t roadquill_read_package(const uint8_t *package, size_t octets, uint64_t specifiers,
                                uint16_t *table, size_t numbers, uint64_t *components,
                                size_t summaries);

/*
 * Writes a package of the type with these transaction ID octets and so many
 * components as there are summaries. Of each summary the type, the ID octets
 * and their count, the code and the count of all parameters are used, and its
 * entries are those from ROADQUILL_NUMBERS * i on in the table, with starts and
 * lengths in the source, which all components share. An INVOKE is written with
 * its code; of a RESULT the code is not looked at, and its specifier of the
 * eight finds its row. Table 2 is asked as in reading. Only the counted leading
 * octets of the output change.
 *
 * Asked in this order: 1, 22, 23, then each component in turn as
 * roadquill_write asks, with its details and without 17, then 24, then 15 and
 * 17 of the package.
 *
 * Octet 0 (least significant) of the result is the answer. Octets 1 to 4 are
 * the detail or, accepted, the octet count; the rest is 0.
 */
uint64_t roadquill_write_package(uint8_t type, const uint8_t *ids, size_t id_octets,
                                 const uint64_t *components, size_t summaries,
                                 uint64_t specifiers, const uint16_t *table, size_t numbers,
                                 const uint8_t *source, size_t source_octets, uint8_t *output,
                                 size_t output_octets);

/*
 * Puts the name of an error octet, as Table 6 of N.S0010 has it, at the start
 * of the buffer, in ASCII and with no octet to end it. The octets behind it
 * stay. A code that the table reserves has a name of no octets.
 *
 * Octet 0 (least significant) of the result is the answer, 0 or 17. Octets 1
 * to 4 are the name's count of octets, which is also the detail of a buffer
 * too short; the rest is 0.
 */
uint64_t roadquill_error_name(uint8_t code, uint8_t *name, size_t octets);

/* ---- a result taken apart */

/* Octet `index` of a result, 0 the least significant. */
static inline uint8_t roadquill_octet(uint64_t result, unsigned index)
{
    return (uint8_t)(result >> (8 * index) & 0xFF);
}

/* The answer: 0 accepted. */
static inline unsigned roadquill_answer(uint64_t result)
{
    return roadquill_octet(result, 0);
}

/* The detail of a refusal. */
static inline uint32_t roadquill_detail(uint64_t result)
{
    return (uint32_t)(result >> 8 & 0xFFFFFFFF);
}

/* The octet count of an accepted writing, or of a name. */
static inline uint32_t roadquill_octets_written(uint64_t result)
{
    return roadquill_detail(result);
}

/* Of an accepted reading of a component, or of a component's summary: */

static inline uint8_t roadquill_type(uint64_t result)
{
    return roadquill_octet(result, 1);
}

static inline uint8_t roadquill_id_first(uint64_t result)
{
    return roadquill_octet(result, 2);
}

static inline uint8_t roadquill_id_second(uint64_t result)
{
    return roadquill_octet(result, 3);
}

static inline uint8_t roadquill_code_first(uint64_t result)
{
    return roadquill_octet(result, 4);
}

static inline uint8_t roadquill_code_second(uint64_t result)
{
    return roadquill_octet(result, 5);
}

static inline uint8_t roadquill_id_count(uint64_t result)
{
    return (uint8_t)(result >> 62);
}

/* How many parameters there are, how many of them the row names, and how many not. */
static inline unsigned roadquill_all(uint64_t result)
{
    return (unsigned)(result >> 55 & 0x7F);
}

static inline unsigned roadquill_named(uint64_t result)
{
    return (unsigned)(result >> 48 & 0x7F);
}

static inline unsigned roadquill_other(uint64_t result)
{
    return roadquill_all(result) - roadquill_named(result);
}

/* Of an accepted reading of a package: */

static inline uint8_t roadquill_package_type(uint64_t result)
{
    return roadquill_octet(result, 1);
}

/* How many transaction ID octets there are, and the place of the first. */
static inline unsigned roadquill_transaction_octets(uint64_t result)
{
    return roadquill_octet(result, 2);
}

static inline unsigned roadquill_transaction_place(uint64_t result)
{
    return (unsigned)(result >> 24 & 0xFFFF);
}

static inline unsigned roadquill_component_count(uint64_t result)
{
    return roadquill_octet(result, 5);
}

#ifdef __cplusplus
}
#endif

#endif
