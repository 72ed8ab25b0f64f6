/*
 * Replays a stream of cases (its form stands at the head of cases.rs in
 * second/src) against the functions that the macros READ, WRITE, READPACKAGE,
 * WRITEPACKAGE and NAME name:
 *
 *   gcc -O2 -Wall -Wextra -DREAD=read_it -DWRITE=write_it -DREADPACKAGE=read_package_it \
 *       -DWRITEPACKAGE=write_package_it -DNAME=name_it replay.c LIBRARY -o replay
 *   ./replay FILE          (or the stream on standard input)
 *
 * A macro that is not given leaves its cases out. Checked for each case: the
 * result, the numbers or octets that change, that all others stay, that the
 * inputs stay, and the canaries before and behind each buffer. Built with
 * -fsanitize=address, touching a canary stops the run too, reads included.
 *
 * Status: 0 all alike, 1 a difference (it is printed), 2 no usable stream.
 */
#include <inttypes.h>
#include <stdint.h>
#include <stdio.h>
#include <stdlib.h>
#include <string.h>

#ifdef __SANITIZE_ADDRESS__
#include <sanitizer/asan_interface.h>
#else
#define ASAN_POISON_MEMORY_REGION(place, count) ((void)(place), (void)(count))
#define ASAN_UNPOISON_MEMORY_REGION(place, count) ((void)(place), (void)(count))
#endif

#ifdef READ
extern uint64_t READ(const uint8_t *component, size_t octets, uint8_t specifier,
                     uint16_t *table, size_t numbers);
#define READ_REPLAYED 1
#else
#define READ_REPLAYED 0
#endif

#ifdef WRITE
extern uint64_t WRITE(uint8_t type, uint8_t id_count, uint8_t id_first, uint8_t id_second,
                      uint8_t code_first, uint8_t code_second, size_t entries,
                      const uint16_t *table, size_t numbers,
                      const uint8_t *source, size_t source_octets,
                      uint8_t *output, size_t output_octets);
#define WRITE_REPLAYED 1
#else
#define WRITE_REPLAYED 0
#endif

#ifdef READPACKAGE
extern uint64_t READPACKAGE(const uint8_t *package, size_t octets, uint64_t specifiers,
                            uint16_t *table, size_t numbers,
                            uint64_t *components, size_t summaries);
#define READPACKAGE_REPLAYED 1
#else
#define READPACKAGE_REPLAYED 0
#endif

#ifdef WRITEPACKAGE
extern uint64_t WRITEPACKAGE(uint8_t type, const uint8_t *ids, size_t id_octets,
                             const uint64_t *components, size_t summaries, uint64_t specifiers,
                             const uint16_t *table, size_t numbers,
                             const uint8_t *source, size_t source_octets,
                             uint8_t *output, size_t output_octets);
#define WRITEPACKAGE_REPLAYED 1
#else
#define WRITEPACKAGE_REPLAYED 0
#endif

#ifdef NAME
extern uint64_t NAME(uint8_t code, uint8_t *name, size_t octets);
#define NAME_REPLAYED 1
#else
#define NAME_REPLAYED 0
#endif

#if !defined READ && !defined WRITE && !defined READPACKAGE && !defined WRITEPACKAGE
#error "give at least one of READ, WRITE, READPACKAGE and WRITEPACKAGE"
#endif

/* The numbers of one component's part of a package's table. */
#define PART 320

#define CANARIES 64

/* The stream and how far it is read. */
static const uint8_t *stream;
static size_t stream_octets;
static size_t stream_at;

/* A lent buffer: canaries, `octets` of use, canaries. `keep` holds what the
 * octets of use must be after the call. */
struct buffer {
    uint8_t *memory;
    uint8_t *use;
    uint8_t *keep;
    size_t octets;
    size_t room;
};

static void stop(const char *why)
{
    fprintf(stderr, "replay: %s at octet %zu of the stream\n", why, stream_at);
    exit(2);
}

static const uint8_t *take(size_t count)
{
    const uint8_t *place = stream + stream_at;

    if (count > stream_octets - stream_at)
        stop("the stream is cut");
    stream_at += count;
    return place;
}

static uint64_t take_number(size_t count)
{
    const uint8_t *place = take(count);
    uint64_t number = 0;

    while (count-- > 0)
        number = number << 8 | place[count];
    return number;
}

static uint8_t canary(size_t index)
{
    return (uint8_t)(0xA5 ^ index * 29);
}

static void make_room(struct buffer *b, size_t octets)
{
    b->octets = octets;
    if (b->memory == NULL || octets > b->room) {
        free(b->memory);
        free(b->keep);
        b->room = 2 * octets + 8192;
        b->memory = malloc(b->room + 2 * CANARIES);
        b->keep = malloc(b->room);
        if (b->memory == NULL || b->keep == NULL)
            stop("no memory");
        b->use = b->memory + CANARIES;
    }
}

/* Keeps a copy of the octets of use. */
static void keep(struct buffer *b)
{
    if (b->octets > 0)
        memcpy(b->keep, b->use, b->octets);
}

static void guard(struct buffer *b)
{
    for (size_t i = 0; i < CANARIES; i++) {
        b->memory[i] = canary(i);
        b->use[b->octets + i] = canary(i + CANARIES);
    }
    ASAN_POISON_MEMORY_REGION(b->memory, CANARIES);
    ASAN_POISON_MEMORY_REGION(b->use + b->octets, CANARIES);
}

static void unguard(struct buffer *b)
{
    ASAN_UNPOISON_MEMORY_REGION(b->memory, CANARIES);
    ASAN_UNPOISON_MEMORY_REGION(b->use + b->octets, CANARIES);
}

static void load(struct buffer *b, const uint8_t *octets, size_t count)
{
    make_room(b, count);
    if (count > 0)
        memcpy(b->use, octets, count);
}

/* Numbers of a stream are little endian whatever the machine is. */
static uint16_t number_at(const uint8_t *place)
{
    return (uint16_t)(place[0] | place[1] << 8);
}

/* What a buffer holds; its memory is aligned for either. */
static uint16_t *numbers_of(uint8_t *octets)
{
    return (uint16_t *)(void *)octets;
}

static uint64_t *summaries_of(uint8_t *octets)
{
    return (uint64_t *)(void *)octets;
}

/* Takes so many numbers of the stream to a place for numbers. */
static void take_numbers(uint16_t *numbers, size_t count)
{
    const uint8_t *place = take(2 * count);

    for (size_t i = 0; i < count; i++)
        numbers[i] = number_at(place + 2 * i);
}

#ifdef WRITE
static void load_numbers(struct buffer *b, const uint8_t *octets, size_t count)
{
    make_room(b, 2 * count);
    for (size_t i = 0; i < count; i++)
        numbers_of(b->use)[i] = number_at(octets + 2 * i);
}
#endif

/* A table as it is before a reading. */
static uint16_t *fill_table(struct buffer *b, size_t numbers)
{
    make_room(b, 2 * numbers);
    uint16_t *table = numbers_of(b->use);
    for (size_t i = 0; i < numbers; i++)
        table[i] = (uint16_t)(i * 40503 + 7);
    return table;
}

/* Summaries as they are before a reading. */
static void fill_summaries(struct buffer *b, size_t count)
{
    make_room(b, 8 * count);
    for (size_t i = 0; i < count; i++)
        summaries_of(b->use)[i] = (i + 1) * UINT64_C(11400714819323198485);
}

/* What an output or a name goes to, as it is before the call. */
static void fill(struct buffer *b, size_t count)
{
    make_room(b, count);
    for (size_t i = 0; i < count; i++)
        b->use[i] = (uint8_t)(i * 167 + 13);
}

static void print_octets(const char *name, const uint8_t *octets, size_t count)
{
    printf("%s (%zu octets):", name, count);
    for (size_t i = 0; i < count; i++)
        printf(" %02X", octets[i]);
    printf("\n");
}

static void print_numbers(const char *name, const uint16_t *numbers, size_t count)
{
    printf("%s (%zu numbers):", name, count);
    for (size_t i = 0; i < count; i++)
        printf(" %u", numbers[i]);
    printf("\n");
}

#if defined READPACKAGE || defined WRITEPACKAGE
static void print_summaries(const char *name, const uint64_t *summaries, size_t count)
{
    printf("%s (%zu summaries):", name, count);
    for (size_t i = 0; i < count; i++)
        printf(" %016" PRIX64, summaries[i]);
    printf("\n");
}
#endif

static void print_results(uint64_t expected, uint64_t got)
{
    printf("expected %016" PRIX64 ": answer %u, detail or count %u\n", expected,
           (unsigned)(expected & 0xFF), (unsigned)(expected >> 8 & 0xFFFFFFFF));
    printf("got      %016" PRIX64 ": answer %u, detail or count %u\n", got,
           (unsigned)(got & 0xFF), (unsigned)(got >> 8 & 0xFFFFFFFF));
}

/* What is wrong with a buffer after the call, or NULL. */
static const char *look_at(struct buffer *b)
{
    for (size_t i = 0; i < CANARIES; i++) {
        if (b->memory[i] != canary(i))
            return "a canary before the buffer changed";
        if (b->use[b->octets + i] != canary(i + CANARIES))
            return "a canary behind the buffer changed";
    }
    if (b->octets > 0 && memcmp(b->use, b->keep, b->octets) != 0)
        return "the contents are not as expected";
    return NULL;
}

static const char *wrong(struct buffer *b, const char *name)
{
    const char *what = look_at(b);

    if (what != NULL)
        printf("%s: %s\n", name, what);
    return what;
}

static void replay_read(uint64_t index)
{
    static struct buffer component, table;
    uint8_t specifier = (uint8_t)take_number(1);
    size_t octets = take_number(4);
    const uint8_t *given = take(octets);
    size_t numbers = take_number(4);
    uint64_t expected = take_number(8);
    size_t changed = take_number(4);
    const uint8_t *after = take(2 * changed);

    if (changed > numbers)
        stop("more numbers change than there are");
#ifdef READ
    load(&component, given, octets);
    uint16_t *table_numbers = fill_table(&table, numbers);
    keep(&component);
    keep(&table);
    for (size_t i = 0; i < changed; i++)
        numbers_of(table.keep)[i] = number_at(after + 2 * i);
    guard(&component);
    guard(&table);
    uint64_t got = READ(component.use, octets, specifier, table_numbers, numbers);
    unguard(&component);
    unguard(&table);
    int differs = got != expected;
    differs |= wrong(&component, "component") != NULL;
    differs |= wrong(&table, "table") != NULL;
    if (differs) {
        printf("case %" PRIu64 ", read, specifier %u\n", index, specifier);
        print_octets("component", given, octets);
        print_results(expected, got);
        print_numbers("table expected", numbers_of(table.keep), numbers);
        print_numbers("table got", table_numbers, numbers);
        exit(1);
    }
#else
    (void)component, (void)table, (void)index, (void)specifier;
    (void)given, (void)expected, (void)after;
#endif
}

static void replay_write(uint64_t index)
{
    static struct buffer table, source, output;
    const uint8_t *head = take(6);
    size_t entries = take_number(8);
    size_t numbers = take_number(4);
    const uint8_t *given_numbers = take(2 * numbers);
    size_t source_octets = take_number(4);
    const uint8_t *given_source = take(source_octets);
    size_t output_octets = take_number(4);
    uint64_t expected = take_number(8);
    size_t changed = take_number(4);
    const uint8_t *after = take(changed);

    if (changed > output_octets)
        stop("more octets change than there are");
#ifdef WRITE
    load_numbers(&table, given_numbers, numbers);
    load(&source, given_source, source_octets);
    fill(&output, output_octets);
    keep(&table);
    keep(&source);
    keep(&output);
    memcpy(output.keep, after, changed);
    guard(&table);
    guard(&source);
    guard(&output);
    const uint16_t *table_numbers = numbers_of(table.use);
    uint64_t got = WRITE(head[0], head[1], head[2], head[3], head[4], head[5], entries,
                         table_numbers, numbers, source.use, source_octets, output.use,
                         output_octets);
    unguard(&table);
    unguard(&source);
    unguard(&output);
    int differs = got != expected;
    differs |= wrong(&table, "table") != NULL;
    differs |= wrong(&source, "source") != NULL;
    differs |= wrong(&output, "output") != NULL;
    if (differs) {
        printf("case %" PRIu64 ", write, %zu entries\n", index, entries);
        print_octets("type, ID count, ID octets, code", head, 6);
        print_numbers("table", numbers_of(table.keep), numbers);
        print_octets("source", given_source, source_octets);
        print_results(expected, got);
        print_octets("output expected", output.keep, output_octets);
        print_octets("output got", output.use, output_octets);
        exit(1);
    }
#else
    (void)table, (void)source, (void)output, (void)index, (void)head, (void)entries;
    (void)given_numbers, (void)given_source, (void)expected, (void)after;
#endif
}

/* What must stand in table and summaries after the call: each component that
 * is shown has changed its part of them. */
static void take_shown(struct buffer *table, size_t numbers, struct buffer *summaries, size_t lent)
{
    size_t shown = take_number(4);

    if (shown > lent || PART * shown > numbers)
        stop("more components are shown than there is room for");
    for (size_t i = 0; i < shown; i++) {
        summaries_of(summaries->keep)[i] = take_number(8);
        size_t changed = take_number(4);
        if (changed > PART)
            stop("more numbers change than a part has");
        take_numbers(numbers_of(table->keep) + PART * i, changed);
    }
}

/* A call of the package reader. */
struct package_read {
    struct buffer package, table, summaries;
    uint64_t specifiers, expected;
    size_t octets, numbers, lent;
};

static void take_package_read(struct package_read *c)
{
    c->specifiers = take_number(8);
    c->octets = take_number(4);
    load(&c->package, take(c->octets), c->octets);
    c->numbers = take_number(4);
    c->lent = take_number(4);
    c->expected = take_number(8);
    fill_table(&c->table, c->numbers);
    fill_summaries(&c->summaries, c->lent);
    keep(&c->package);
    keep(&c->table);
    keep(&c->summaries);
    take_shown(&c->table, c->numbers, &c->summaries, c->lent);
}

#ifdef READPACKAGE
static void print_package_read(struct package_read *c, uint64_t index, uint64_t got)
{
    printf("case %" PRIu64 ", read package, specifiers %016" PRIX64 "\n", index, c->specifiers);
    print_octets("package", c->package.keep, c->octets);
    print_results(c->expected, got);
    print_numbers("table expected", numbers_of(c->table.keep), c->numbers);
    print_numbers("table got", numbers_of(c->table.use), c->numbers);
    print_summaries("components expected", summaries_of(c->summaries.keep), c->lent);
    print_summaries("components got", summaries_of(c->summaries.use), c->lent);
}
#endif

static void replay_read_package(uint64_t index)
{
    static struct package_read c;

    take_package_read(&c);
#ifdef READPACKAGE
    guard(&c.package);
    guard(&c.table);
    guard(&c.summaries);
    uint64_t got = READPACKAGE(c.package.use, c.octets, c.specifiers, numbers_of(c.table.use),
                               c.numbers, summaries_of(c.summaries.use), c.lent);
    unguard(&c.package);
    unguard(&c.table);
    unguard(&c.summaries);
    int differs = got != c.expected;
    differs |= wrong(&c.package, "package") != NULL;
    differs |= wrong(&c.table, "table") != NULL;
    differs |= wrong(&c.summaries, "components") != NULL;
    if (differs) {
        print_package_read(&c, index, got);
        exit(1);
    }
#else
    (void)index;
#endif
}

/* A call of the package writer. */
struct package_write {
    struct buffer ids, summaries, table, source, output;
    uint8_t type;
    uint64_t specifiers, expected;
    size_t id_octets, count, numbers, source_octets, output_octets;
};

/* A table of which each part begins with its numbers from the stream. */
static size_t take_parts(struct buffer *table)
{
    size_t numbers = take_number(4);
    uint16_t *given = fill_table(table, numbers);
    size_t parts = take_number(4);

    for (size_t i = 0; i < parts; i++) {
        size_t count = take_number(4);
        if (count > PART || PART * i + count > numbers)
            stop("more numbers are given than there are");
        take_numbers(given + PART * i, count);
    }
    return numbers;
}

static void take_package_write(struct package_write *c)
{
    c->type = (uint8_t)take_number(1);
    c->id_octets = take_number(4);
    load(&c->ids, take(c->id_octets), c->id_octets);
    c->count = take_number(4);
    make_room(&c->summaries, 8 * c->count);
    for (size_t i = 0; i < c->count; i++)
        summaries_of(c->summaries.use)[i] = take_number(8);
    c->specifiers = take_number(8);
    c->numbers = take_parts(&c->table);
    c->source_octets = take_number(4);
    load(&c->source, take(c->source_octets), c->source_octets);
    c->output_octets = take_number(4);
    fill(&c->output, c->output_octets);
    c->expected = take_number(8);
    keep(&c->ids);
    keep(&c->summaries);
    keep(&c->table);
    keep(&c->source);
    keep(&c->output);
    size_t changed = take_number(4);
    if (changed > c->output_octets)
        stop("more octets change than there are");
    memcpy(c->output.keep, take(changed), changed);
}

#ifdef WRITEPACKAGE
static void print_package_write(struct package_write *c, uint64_t index, uint64_t got)
{
    printf("case %" PRIu64 ", write package, type %02X, specifiers %016" PRIX64 "\n", index, c->type,
           c->specifiers);
    print_octets("transaction IDs", c->ids.keep, c->id_octets);
    print_summaries("components", summaries_of(c->summaries.keep), c->count);
    print_numbers("table", numbers_of(c->table.keep), c->numbers);
    print_octets("source", c->source.keep, c->source_octets);
    print_results(c->expected, got);
    print_octets("output expected", c->output.keep, c->output_octets);
    print_octets("output got", c->output.use, c->output_octets);
}

static uint64_t call_package_write(struct package_write *c)
{
    guard(&c->ids);
    guard(&c->summaries);
    guard(&c->table);
    guard(&c->source);
    guard(&c->output);
    uint64_t got = WRITEPACKAGE(c->type, c->ids.use, c->id_octets, summaries_of(c->summaries.use),
                                c->count, c->specifiers, numbers_of(c->table.use), c->numbers,
                                c->source.use, c->source_octets, c->output.use, c->output_octets);
    unguard(&c->ids);
    unguard(&c->summaries);
    unguard(&c->table);
    unguard(&c->source);
    unguard(&c->output);
    return got;
}
#endif

static void replay_write_package(uint64_t index)
{
    static struct package_write c;

    take_package_write(&c);
#ifdef WRITEPACKAGE
    uint64_t got = call_package_write(&c);
    int differs = got != c.expected;
    differs |= wrong(&c.ids, "transaction IDs") != NULL;
    differs |= wrong(&c.summaries, "components") != NULL;
    differs |= wrong(&c.table, "table") != NULL;
    differs |= wrong(&c.source, "source") != NULL;
    differs |= wrong(&c.output, "output") != NULL;
    if (differs) {
        print_package_write(&c, index, got);
        exit(1);
    }
#else
    (void)index;
#endif
}

static void replay_name(uint64_t index)
{
    static struct buffer name;
    uint8_t code = (uint8_t)take_number(1);
    size_t octets = take_number(4);
    uint64_t expected = take_number(8);
    size_t changed = take_number(4);
    const uint8_t *after = take(changed);

    if (changed > octets)
        stop("more octets change than there are");
#ifdef NAME
    fill(&name, octets);
    keep(&name);
    memcpy(name.keep, after, changed);
    guard(&name);
    uint64_t got = NAME(code, name.use, octets);
    unguard(&name);
    int differs = got != expected;
    differs |= wrong(&name, "name") != NULL;
    if (differs) {
        printf("case %" PRIu64 ", name of error %u\n", index, code);
        print_results(expected, got);
        print_octets("buffer expected", name.keep, octets);
        print_octets("buffer got", name.use, octets);
        exit(1);
    }
#else
    (void)name, (void)index, (void)code, (void)expected, (void)after;
#endif
}

static void read_stream(const char *name)
{
    FILE *file = name != NULL ? fopen(name, "rb") : stdin;
    size_t room = 1 << 20;
    uint8_t *octets = malloc(room);

    if (file == NULL || octets == NULL)
        stop("no stream");
    for (;;) {
        stream_octets += fread(octets + stream_octets, 1, room - stream_octets, file);
        if (stream_octets < room)
            break;
        room *= 2;
        octets = realloc(octets, room);
        if (octets == NULL)
            stop("no memory");
    }
    if (ferror(file))
        stop("reading failed");
    if (file != stdin)
        fclose(file);
    stream = octets;
}

/* How many cases of a kind there were, and whether they were replayed. */
static void print_count(const char *name, uint64_t count, int replayed)
{
    printf("%" PRIu64 " %s %s\n", count, name, replayed ? "alike" : "left out");
}

static const struct {
    char kind;
    const char *name;
    void (*replay)(uint64_t index);
    int replayed;
} kinds[] = {
    { 'R', "reads", replay_read, READ_REPLAYED },
    { 'W', "writes", replay_write, WRITE_REPLAYED },
    { 'P', "reads of packages", replay_read_package, READPACKAGE_REPLAYED },
    { 'Q', "writes of packages", replay_write_package, WRITEPACKAGE_REPLAYED },
    { 'N', "names", replay_name, NAME_REPLAYED }
};

#define KINDS (sizeof kinds / sizeof kinds[0])

static size_t kind_of(uint64_t octet)
{
    for (size_t i = 0; i < KINDS; i++)
        if ((uint8_t)kinds[i].kind == octet)
            return i;
    stop("no such kind of case");
    return KINDS;
}

int main(int count, char **words)
{
    uint64_t counts[KINDS] = { 0 };
    uint64_t octet;

    read_stream(count > 1 ? words[1] : NULL);
    while ((octet = take_number(1)) != 'E') {
        size_t kind = kind_of(octet);
        kinds[kind].replay(counts[kind]++);
    }
    if (stream_at != stream_octets)
        stop("octets behind the end");
    for (size_t i = 0; i < KINDS; i++)
        print_count(kinds[i].name, counts[i], kinds[i].replayed);
    return 0;
}
