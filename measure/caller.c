/*
 * Calls one function on one component or one package, so many times: what ./bench measures.
 *
 *   caller count FUNCTION CASE ROUNDS [FILE]   so many rounds, and nothing else
 *   caller time FUNCTION CASE [FILE]           nanoseconds a call
 *   caller size CASE [FILE]                    octets, parameters, calls a round
 *   caller stack FUNCTION CASE [FILE]          how deep a call touched the stack at most, in octets
 *
 * FUNCTION is read, write, plain, tuned, compose (the plain C writer), fast (the tuned one) or none. CASE is a name from
 * `make`; or `mixed`: the reads of a stream of the second program, 7 accepted for 3 refused, and for the writers its
 * writes; or `package-` and a name from `make_sequence`, where the functions are those of a package; or `alone-` and such
 * a name: a round calls those of a component on each that the package holds. No buffer is cleared between two calls.
 */
#define _POSIX_C_SOURCE 199309L
#include "roadquill.h"

#include <stdio.h>
#include <stdlib.h>
#include <string.h>
#include <time.h>

extern uint64_t plain_read(const uint8_t *component, size_t octets, uint8_t specifier,
                           uint16_t *table, size_t numbers);
extern uint64_t tuned_read(const uint8_t *component, size_t octets, uint8_t specifier,
                           uint16_t *table, size_t numbers);
extern uint64_t plain_write(uint8_t type, uint8_t id_count, uint8_t id_first, uint8_t id_second,
                            uint8_t code_first, uint8_t code_second, size_t entries,
                            const uint16_t *table, size_t numbers, const uint8_t *source,
                            size_t source_octets, uint8_t *output, size_t output_octets);
extern uint64_t tuned_write(uint8_t type, uint8_t id_count, uint8_t id_first, uint8_t id_second,
                            uint8_t code_first, uint8_t code_second, size_t entries,
                            const uint16_t *table, size_t numbers, const uint8_t *source,
                            size_t source_octets, uint8_t *output, size_t output_octets);
extern uint64_t plain_read_package(const uint8_t *package, size_t octets, uint64_t specifiers,
                                   uint16_t *table, size_t numbers, uint64_t *components, size_t summaries);
extern uint64_t tuned_read_package(const uint8_t *package, size_t octets, uint64_t specifiers,
                                   uint16_t *table, size_t numbers, uint64_t *components, size_t summaries);
extern uint64_t plain_write_package(uint8_t type, const uint8_t *ids, size_t id_octets,
                                    const uint64_t *components, size_t summaries, uint64_t specifiers,
                                    const uint16_t *table, size_t numbers, const uint8_t *source,
                                    size_t source_octets, uint8_t *output, size_t output_octets);

extern uint64_t tuned_write_package(uint8_t type, const uint8_t *ids, size_t id_octets,
                                    const uint64_t *components, size_t summaries, uint64_t specifiers,
                                    const uint16_t *table, size_t numbers, const uint8_t *source,
                                    size_t source_octets, uint8_t *output, size_t output_octets);

#define MOST 2000
#define COMPONENTS 8
#define PACKAGE_NUMBERS (COMPONENTS * ROADQUILL_NUMBERS)

/* A call: a reading of `octets`, and the writing that goes with it. */
struct call {
    const uint8_t *octets;
    size_t count;
    uint8_t specifier;
    uint8_t head[6];  /* type, count of ID octets, ID octets, octets of the code */
    size_t entries;
    const uint16_t *table;
    size_t numbers;
    const uint8_t *source;
    size_t source_octets;
    size_t output_octets;
};

static struct call calls[MOST];
static size_t call_count;
static uint16_t table[4096];
static uint8_t output[16384];
static volatile uint64_t sink;

static void stop(const char *why)
{
    fprintf(stderr, "caller: %s\n", why);
    exit(2);
}

/* ---- components */

static uint8_t made[8192];
static size_t made_count;

static void put(unsigned octet)
{
    made[made_count++] = (uint8_t)octet;
}

static size_t field(size_t length)
{
    return length < 0x80 ? 1 : length < 0x100 ? 2 : 3;
}

static void put_length(size_t length)
{
    if (length >= 0x100) {
        put(0x82);
        put((unsigned)(length >> 8));
    } else if (length >= 0x80) {
        put(0x81);
    }
    put((unsigned)(length & 0xFF));
}

static size_t identifier_size(unsigned number)
{
    return number < 31 ? 1 : number < 128 ? 2 : 3;
}

static void put_identifier(unsigned number)
{
    put(0x80 | (number < 31 ? number : 31));
    if (number >= 128)
        put(0x80 | number >> 7);
    if (number >= 31)
        put(number & 0x7F);
}

/* The element between ID and set: how many octets, and the octets. A REJECT
 * has its first problem octet in the code's low eight bits. */
static size_t code_size(unsigned type)
{
    return type == ROADQUILL_RESULT ? 0 : type == ROADQUILL_ERROR ? 3 : 4;
}

static void put_code(unsigned type, unsigned code)
{
    if (type == ROADQUILL_INVOKE)
        put(0xD1), put(2), put(9), put(code);
    else if (type == ROADQUILL_ERROR)
        put(0xD4), put(1), put(code);
    else if (type == ROADQUILL_REJECT)
        put(0xD5), put(2), put(code & 0xFF), put(code >> 8);
}

/* The octets of a parameter of fixed size, which a row that names it asks for; of the others FREE. */
#define FREE 999

static size_t fixed_size(unsigned number)
{
    static const uint8_t sizes[][2] = {
        { 9, 4 }, { 8, 5 }, { 21, 3 }, { 6, 2 }, { 2, 2 }, { 3, 2 }, { 22, 1 }, { 5, 0 }
    };
    size_t i;

    for (i = 0; i < sizeof sizes / sizeof sizes[0]; i++)
        if (sizes[i][0] == number)
            return sizes[i][1];
    return FREE;
}

/* The lengths of these parameters, and the octets of the set: `each`, and `extra` octets among those that may have
 * them, one more for each and for the first of them what is left. */
static size_t share(size_t *lengths, const unsigned *numbers, size_t count, int rowless, size_t each, size_t extra)
{
    size_t set = 0, some = 0, met = 0, i;

    for (i = 0; i < count; i++)
        some += rowless || fixed_size(numbers[i]) == FREE;
    for (i = 0; i < count; i++) {
        lengths[i] = rowless ? FREE : fixed_size(numbers[i]);
        if (lengths[i] == FREE) {
            lengths[i] = each + extra / some + (met < extra % some);
            met++;
        }
        set += identifier_size(numbers[i]) + field(lengths[i]) + lengths[i];
    }
    return set;
}

/* A component of `total` octets (0: as many as it takes) with these numbers,
 * each with `each` octets of contents or, where a row may hold it to one, of
 * its fixed size; what is left over to `total` goes to the others. */
static void component(unsigned type, unsigned code, const unsigned *numbers, size_t count,
                      size_t each, size_t total)
{
    int rowless = type == ROADQUILL_ERROR || type == ROADQUILL_REJECT;
    size_t lengths[64], set, body, i, extra = 0;

    for (;;) {
        set = share(lengths, numbers, count, rowless, each, extra);
        body = 3 + code_size(type) + 1 + field(set) + set;
        if (total == 0 || 1 + field(body) + body >= total)
            break;
        extra++;
    }
    if (total != 0 && 1 + field(body) + body != total)
        stop("no component of that size");
    made_count = 0;
    put(type);
    put_length(body);
    put(0xCF), put(1), put(5);
    put_code(type, code);
    put(0xF2);
    put_length(set);
    for (i = 0; i < count; i++) {
        put_identifier(numbers[i]);
        put_length(lengths[i]);
        memset(made + made_count, (int)(i & 0x7F), lengths[i]);
        made_count += lengths[i];
    }
}

/* Parameters that a row wants, then `fill`, or where it is 0 numbers that no row names. */
static size_t numbers_of(unsigned *numbers, const unsigned *wanted, size_t wanted_count, size_t count,
                         unsigned fill)
{
    size_t i;

    for (i = 0; i < count; i++)
        numbers[i] = i < wanted_count ? wanted[i] : fill != 0 ? fill : 40 + (unsigned)i;
    return count;
}

/* HandoffBack INVOKE: so many parameters, so many octets. */
static const unsigned back[] = { 5, 6, 8, 2, 3, 1 };

static void make_back(size_t parameters, size_t total)
{
    unsigned numbers[64];

    component(ROADQUILL_INVOKE, 4, numbers, numbers_of(numbers, back, 6, parameters, 0), 0, total);
}

static void make(const char *name)
{
    static const unsigned location[] = { 1, 21, 22 };
    static const unsigned page[] = { 105, 153 };
    unsigned numbers[64];
    size_t count;

    if (strcmp(name, "chart-A") == 0) {
        static const uint8_t chart[] = {
            0xE9, 0x1E, 0xCF, 0x01, 0x05, 0xD1, 0x02, 0x09, 0x04, 0xF2, 0x15,
            0x85, 0x00, 0x86, 0x02, 0x01, 0x07, 0x88, 0x05, 0x21, 0x43, 0x65, 0x87, 0x09,
            0x82, 0x02, 0x00, 0x11, 0x83, 0x02, 0x00, 0x12
        };
        memcpy(made, chart, sizeof chart);
        made_count = sizeof chart;
    } else if (strcmp(name, "padded-A") == 0) {
        /* chart A as a switch that pads writes it: every length as 82 00 .. */
        static const uint8_t chart[] = {
            0xE9, 0x82, 0x00, 0x2E, 0xCF, 0x82, 0x00, 0x01, 0x05, 0xD1, 0x82, 0x00, 0x02, 0x09, 0x04,
            0xF2, 0x82, 0x00, 0x1F, 0x85, 0x82, 0x00, 0x00, 0x86, 0x82, 0x00, 0x02, 0x01, 0x07,
            0x88, 0x82, 0x00, 0x05, 0x21, 0x43, 0x65, 0x87, 0x09,
            0x82, 0x82, 0x00, 0x02, 0x00, 0x11, 0x83, 0x82, 0x00, 0x02, 0x00, 0x12
        };
        memcpy(made, chart, sizeof chart);
        made_count = sizeof chart;
    } else if (strcmp(name, "page") == 0) {
        /* a row with a group: InterSystemPage INVOKE with BillingID, ESN, IMSI and MSCID, and no MIN */
        static const uint8_t chart[] = {
            0xE9, 0x29, 0xCF, 0x01, 0x05, 0xD1, 0x02, 0x09, 0x20, 0xF2, 0x20,
            0x81, 0x07, 0x00, 0x11, 0x05, 0x00, 0x00, 0x2A, 0x01, 0x89, 0x04, 0x01, 0x02, 0x03, 0x04,
            0x9F, 0x81, 0x72, 0x08, 0x21, 0x43, 0x65, 0x87, 0x09, 0x21, 0x43, 0xF5, 0x95, 0x03, 0x00, 0x11, 0x05
        };
        memcpy(made, chart, sizeof chart);
        made_count = sizeof chart;
    } else if (strcmp(name, "272-octets") == 0) {
        make_back(20, 272);
    } else if (strcmp(name, "4096-octets") == 0) {
        make_back(64, 4096);
    } else if (strcmp(name, "61-digits") == 0) {
        count = numbers_of(numbers, location, 3, 64, 4);
        component(ROADQUILL_INVOKE, 15, numbers, count, 3, 0);
    } else if (strcmp(name, "error") == 0) {
        component(ROADQUILL_ERROR, 0x88, back, 5, 3, 0);
    } else if (strcmp(name, "reject") == 0) {
        component(ROADQUILL_REJECT, 0x0302, back, 5, 3, 0);
    } else if (name[0] == 'p') {
        /* so many parameters of three octets, InterSystemSMSPage RESULT */
        count = numbers_of(numbers, page, 2, (size_t)atoi(name + 1), 0);
        component(ROADQUILL_RESULT, 101, numbers, count, 3, 0);
    } else if (name[0] == 'o') {
        /* so many octets, 16 parameters, InterSystemSMSPage RESULT */
        count = numbers_of(numbers, page, 2, 16, 0);
        component(ROADQUILL_RESULT, 101, numbers, count, 0, (size_t)atoi(name + 1));
    } else {
        stop("no such case");
    }
}

/* A call of the component's functions: its reading, and the writing that
 * returns it, its lengths in the shortest form: what the reader shows of it. */
static void add_component(const uint8_t *octets, size_t count)
{
    static uint16_t each[COMPONENTS][ROADQUILL_NUMBERS];
    uint16_t *entries = each[call_count];
    struct call *c = &calls[call_count++];
    uint64_t got;

    c->octets = octets;
    c->count = count;
    c->specifier = 101;
    got = roadquill_read(octets, count, c->specifier, entries, ROADQUILL_NUMBERS);
    if (roadquill_answer(got) != ROADQUILL_ACCEPTED)
        stop("a case is not accepted");
    if (got != plain_read(octets, count, c->specifier, table, ROADQUILL_NUMBERS)
        || got != tuned_read(octets, count, c->specifier, table, ROADQUILL_NUMBERS))
        stop("the readers differ");
    c->head[0] = roadquill_type(got);
    c->head[1] = roadquill_id_count(got);
    c->head[2] = roadquill_id_first(got);
    c->head[3] = roadquill_id_second(got);
    c->head[4] = roadquill_code_first(got);
    c->head[5] = roadquill_code_second(got);
    c->entries = roadquill_all(got);
    c->table = entries;
    c->numbers = ROADQUILL_NUMBERS;
    c->source = octets;
    c->source_octets = count;
    c->output_octets = sizeof output;
}

/* ---- packages */

/* A call of the package's functions: its octets, where its components start and where the last of them ends, and what
 * the reader shows of it, from which it is written again. */
static struct {
    size_t octets;
    size_t count;
    size_t starts[COMPONENTS + 1];
    size_t parameters;
    uint64_t summaries[COMPONENTS];
    uint16_t entries[PACKAGE_NUMBERS];
} package;

static uint64_t summaries[COMPONENTS];
static const uint8_t transaction[] = { 0, 0, 0, 1 };

#define QUERY 0xE2
#define SPECIFIERS 0x6565656565656565  /* of InterSystemSMSPage: no INVOKE looks at them */

/* The components of the sequence, one behind the other in `sequence`: how many octets. */
static size_t make_sequence(const char *name, uint8_t *sequence)
{
    size_t octets = 0, i;

    package.count = strcmp(name, "A") == 0 ? 1 : COMPONENTS;
    for (i = 0; i < package.count; i++) {
        if (strcmp(name, "A") == 0 || strcmp(name, "8A") == 0)
            make("chart-A");
        else if (strcmp(name, "4096") == 0)
            make_back(64, i < 6 ? 510 : 511);  /* with 14 octets around them 4,096 */
        else
            stop("no such package");
        memcpy(sequence + octets, made, made_count);
        package.starts[i] = octets;
        octets += made_count;
    }
    package.starts[i] = octets;
    return octets;
}

/* A QUERY WITH PERMISSION of these components. */
static void make_package(const char *name)
{
    static uint8_t sequence[ROADQUILL_OCTETS];
    size_t octets = make_sequence(name, sequence), i;

    made_count = 0;
    put(QUERY);
    put_length(2 + sizeof transaction + 1 + field(octets) + octets);
    put(0xC7), put(sizeof transaction);
    for (i = 0; i < sizeof transaction; i++)
        put(transaction[i]);
    put(0xE8);
    put_length(octets);
    for (i = 0; i <= package.count; i++)
        package.starts[i] += made_count;
    memcpy(made + made_count, sequence, octets);
    made_count += octets;
    package.octets = made_count;
}

static uint64_t call_package(char function)
{
    switch (function) {
    case 'r':
        return roadquill_read_package(made, package.octets, SPECIFIERS, table, PACKAGE_NUMBERS, summaries, COMPONENTS);
    case 'w':
        return roadquill_write_package(QUERY, transaction, sizeof transaction, package.summaries, package.count,
                                       SPECIFIERS, package.entries, PACKAGE_NUMBERS, made, package.octets, output,
                                       sizeof output);
    case 'p':
        return plain_read_package(made, package.octets, SPECIFIERS, table, PACKAGE_NUMBERS, summaries, COMPONENTS);
    case 't':
        return tuned_read_package(made, package.octets, SPECIFIERS, table, PACKAGE_NUMBERS, summaries, COMPONENTS);
    case 'f':
        return tuned_write_package(QUERY, transaction, sizeof transaction, package.summaries, package.count,
                                   SPECIFIERS, package.entries, PACKAGE_NUMBERS, made, package.octets, output,
                                   sizeof output);
    case 'c':
        return plain_write_package(QUERY, transaction, sizeof transaction, package.summaries, package.count,
                                   SPECIFIERS, package.entries, PACKAGE_NUMBERS, made, package.octets, output,
                                   sizeof output);
    default:
        return 0;
    }
}

/* That a reader answers so, and fills as ours did; and that a writer returns the octets. */

static void check_read(char function, uint64_t got)
{
    if (call_package(function) != got || memcmp(summaries, package.summaries, sizeof summaries) != 0
        || memcmp(table, package.entries, sizeof package.entries) != 0)
        stop("the readers of packages differ");
}

static void check_write(char function)
{
    uint64_t got = call_package(function);

    if (got != (uint64_t)package.octets << 8 || memcmp(output, made, package.octets) != 0)
        stop("a package is not written as it was read");
}

static void add_package(const char *name)
{
    uint64_t got;
    size_t i;

    make_package(name);
    got = call_package('r');
    if (roadquill_answer(got) != ROADQUILL_ACCEPTED)
        stop("a package is not accepted");
    memcpy(package.summaries, summaries, sizeof summaries);
    memcpy(package.entries, table, sizeof package.entries);
    for (i = 0; i < package.count; i++)
        package.parameters += roadquill_all(summaries[i]);
    check_read('p', got);
    check_read('t', got);
    check_write('w');
    check_write('c');
}

/* Its components, each a call of its own. */
static void add_alone(const char *name)
{
    size_t i;

    make_package(name);
    for (i = 0; i < package.count; i++)
        add_component(made + package.starts[i], package.starts[i + 1] - package.starts[i]);
    package.octets = 0;
}

/* ---- the stream of the second program */

static uint8_t *stream;
static size_t stream_octets, stream_at;

static const uint8_t *take(size_t count)
{
    const uint8_t *place = stream + stream_at;

    if (count > stream_octets - stream_at)
        stop("the stream is cut");
    stream_at += count;
    return place;
}

static uint64_t take_number(size_t count)
{
    const uint8_t *place = take(count);
    uint64_t number = 0;

    while (count-- > 0)
        number = number << 8 | place[count];
    return number;
}

/* Whether one more of this answer keeps 7 accepted for 3 refused; a table too short is left out. */
static int wants(size_t *accepted, size_t *refused, unsigned answer)
{
    if (answer == ROADQUILL_TABLE)
        return 0;
    if (answer != ROADQUILL_ACCEPTED)
        return 7 * *refused < 3 * *accepted && ++*refused;
    return ++*accepted;
}

static void load_stream(const char *file)
{
    FILE *f = fopen(file, "rb");
    size_t room = 1 << 24;

    stream = malloc(room);
    if (f == NULL || stream == NULL)
        stop("no stream");
    stream_octets = fread(stream, 1, room, f);
    if (stream_octets == room)
        stop("the stream is too long");
    fclose(f);
}

/* Each takes a case from the stream and gives the answer that it expects. */

static unsigned take_read(struct call *c)
{
    uint64_t result;

    c->specifier = (uint8_t)take_number(1);
    c->count = take_number(4);
    c->octets = take(c->count);
    c->numbers = take_number(4);
    result = take_number(8);
    take(2 * take_number(4));
    return roadquill_answer(result);
}

static unsigned take_write(struct call *c)
{
    uint16_t *numbers;
    uint64_t result;
    size_t i;

    memcpy(c->head, take(sizeof c->head), sizeof c->head);
    c->entries = take_number(8);
    c->numbers = take_number(4);
    numbers = malloc(2 * c->numbers + 2);
    if (numbers == NULL)
        stop("no memory");
    for (i = 0; i < c->numbers; i++)
        numbers[i] = (uint16_t)take_number(2);
    c->table = numbers;
    c->source_octets = take_number(4);
    c->source = take(c->source_octets);
    c->output_octets = take_number(4);
    result = take_number(8);
    take(take_number(4));
    return roadquill_answer(result);
}

/* The name of an error is not measured. */
static void skip_name(void)
{
    take(1 + 4 + 8);
    take(take_number(4));
}

static void add_stream(const char *file, int writes)
{
    size_t accepted = 0, refused = 0;

    load_stream(file);
    for (;;) {
        uint64_t kind = take_number(1);
        struct call c;
        unsigned answer;
        int fits;

        memset(&c, 0, sizeof c);
        if (kind == 'E')
            break;
        if (kind == 'N') {
            skip_name();
            continue;
        }
        answer = kind == 'R' ? take_read(&c) : take_write(&c);
        fits = kind == 'R' ? !writes && c.count <= 4200 : writes && c.output_octets <= sizeof output;
        if (fits && call_count < MOST && wants(&accepted, &refused, answer))
            calls[call_count++] = c;
    }
}

/* ---- calls */

static uint64_t call(char function, const struct call *c)
{
    switch (function) {
    case 'r':
        return roadquill_read(c->octets, c->count, c->specifier, table, ROADQUILL_NUMBERS);
    case 'w':
        return roadquill_write(c->head[0], c->head[1], c->head[2], c->head[3], c->head[4], c->head[5],
                               c->entries, c->table, c->numbers, c->source, c->source_octets, output,
                               c->output_octets);
    case 'p':
        return plain_read(c->octets, c->count, c->specifier, table, ROADQUILL_NUMBERS);
    case 't':
        return tuned_read(c->octets, c->count, c->specifier, table, ROADQUILL_NUMBERS);
    default:
        return 0;
    }
}

/* The C writers have places of their own: what is counted of the others includes the choice between them. */
static uint64_t compose(const struct call *c)
{
    return plain_write(c->head[0], c->head[1], c->head[2], c->head[3], c->head[4], c->head[5], c->entries, c->table,
                       c->numbers, c->source, c->source_octets, output, c->output_octets);
}

static uint64_t fast(const struct call *c)
{
    return tuned_write(c->head[0], c->head[1], c->head[2], c->head[3], c->head[4], c->head[5], c->entries, c->table,
                       c->numbers, c->source, c->source_octets, output, c->output_octets);
}

static uint64_t one(char function, const struct call *c)
{
    switch (function) {
    case 'c':
        return compose(c);
    case 'f':
        return fast(c);
    default:
        return call(function, c);
    }
}

static void rounds(char function, unsigned long count)
{
    size_t i;

    while (count-- > 0) {
        for (i = 0; i < call_count; i++)
            sink += one(function, &calls[i]);
        if (package.octets != 0)
            sink += call_package(function);
    }
}

static size_t calls_a_round(void)
{
    return call_count + (package.octets != 0);
}

static double seconds(void)
{
    struct timespec now;

    clock_gettime(CLOCK_MONOTONIC, &now);
    return (double)now.tv_sec + (double)now.tv_nsec / 1e9;
}

/* The best of several runs of some milliseconds. */
static double nanoseconds(char function)
{
    unsigned long count = 1;
    double best = 1e99;
    int i;

    for (;;) {
        double start = seconds();

        rounds(function, count);
        if (seconds() - start > 0.02)
            break;
        count *= 2;
    }
    for (i = 0; i < 15; i++) {
        double start = seconds(), took;

        rounds(function, count);
        took = (seconds() - start) / (double)count / (double)calls_a_round() * 1e9;
        if (took < best)
            best = took;
    }
    return best;
}

/* ---- the stack */

#define PAINTED 32768

static uintptr_t bottom;

static __attribute__((noinline)) void paint(void)
{
    volatile uint8_t room[PAINTED];
    size_t i;

    for (i = 0; i < PAINTED; i++)
        room[i] = 0xC5;
    bottom = (uintptr_t)room;
}

/* How far below this frame the paint is gone. */
static __attribute__((noinline)) size_t touched(uintptr_t top)
{
    const volatile uint8_t *place = (const volatile uint8_t *)bottom;

    while ((uintptr_t)place < top && *place == 0xC5)
        place++;
    return (size_t)(top - (uintptr_t)place);
}

static __attribute__((noinline)) size_t stack(char function, const struct call *c)
{
    uintptr_t top = (uintptr_t)__builtin_frame_address(0);

    sink += call(function, c);  /* what the linker binds at a first call is not the function's */
    paint();
    sink += call(function, c);
    return touched(top);
}

static __attribute__((noinline)) size_t package_stack(char function)
{
    uintptr_t top = (uintptr_t)__builtin_frame_address(0);

    sink += call_package(function);
    paint();
    sink += call_package(function);
    return touched(top);
}

static size_t deepest(char function)
{
    size_t most = package.octets != 0 ? package_stack(function) : 0, i;

    for (i = 0; i < call_count; i++) {
        size_t one = stack(function, &calls[i]);

        if (one > most)
            most = one;
    }
    return most;
}

static void add(const char *name, const char *file, char function)
{
    if (strcmp(name, "mixed") == 0) {
        add_stream(file, function == 'w' || function == 'f');
    } else if (strncmp(name, "package-", 8) == 0) {
        add_package(name + 8);
    } else if (strncmp(name, "alone-", 6) == 0) {
        add_alone(name + 6);
    } else {
        make(name);
        add_component(made, made_count);
    }
}

static void print_size(void)
{
    if (package.octets != 0)
        printf("%zu %zu 1\n", package.octets, package.parameters);
    else
        printf("%zu %zu %zu\n", calls[0].count, calls[0].entries, call_count);
}

int main(int count, char **words)
{
    const char *what = count > 1 ? words[1] : "";
    int sized = strcmp(what, "size") == 0;
    int at = sized ? 2 : 3;
    char function = count > 2 && !sized ? words[2][0] : 'r';
    const char *name = count > at ? words[at] : "";
    unsigned long times = strcmp(what, "count") == 0 && count > at + 1 ? strtoul(words[++at], NULL, 10) : 0;

    add(name, count > at + 1 ? words[at + 1] : "", function);
    if (strcmp(what, "count") == 0) {
        rounds(function, times);
    } else if (strcmp(what, "time") == 0) {
        printf("%.1f\n", nanoseconds(function));
    } else if (sized) {
        print_size();
    } else if (strcmp(what, "stack") == 0) {
        printf("%zu\n", deepest(function));
    } else {
        stop("no such word");
    }
    return 0;
}
