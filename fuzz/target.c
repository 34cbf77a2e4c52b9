/* A fuzz target over the archive, for libFuzzer: what holds of every answer without a second implementation to ask.
 *
 * Each buffer that is lent ends where a page begins that can't be touched, so a byte read or written past its end stops the run too.
 *
 * An input has four parts with SPLIT between them: rooms and tally, text, program, record. Those that are missing are empty.
 */
#define _GNU_SOURCE
#include <signal.h>
#include <stdio.h>
#include <stdlib.h>
#include <string.h>
#include <sys/mman.h>
#include <ucontext.h>

#include "grainlantern.h"

#define PAGE 4096
#define LARGEST GRAINLANTERN_LINE_ROOM
#define FILLER 0xA5

typedef struct grainlantern_tally tally_t;

#define CHECK(holds)                                                                   \
    do {                                                                               \
        if (!(holds)) {                                                                \
            fprintf(stderr, "%s:%d: does not hold: %s\n", __FILE__, __LINE__, #holds); \
            abort();                                                                   \
        }                                                                              \
    } while (0)

/* Where the bytes of each kind end; the page that begins there can't be touched. */
static uint8_t *text_end, *program_end, *record_end, *compiled_end, *lines_end, *again_end;
static uint8_t filler[LARGEST];

static uint8_t *new_end(void) {
    uint8_t *start = mmap(NULL, LARGEST + 2 * PAGE, PROT_READ | PROT_WRITE, MAP_PRIVATE | MAP_ANONYMOUS, -1, 0);
    CHECK(start != MAP_FAILED);
    uint8_t *end = start + PAGE + LARGEST;
    CHECK(mprotect(end, PAGE, PROT_NONE) == 0);
    return end;
}

/* Coverage of the archive, which comes without instrumentation: the first byte of each of its blocks of instructions is a trap until the block is
 * first run. The trap lays the byte back and counts the block, which libFuzzer takes for something new. After that the block costs nothing. */
#define MOST_BLOCKS 4096
static struct {
    uint8_t *start;
    uint8_t first_byte;
} blocks[MOST_BLOCKS];
static size_t block_count, blocks_run;
__attribute__((used, section("__libfuzzer_extra_counters"))) static volatile uint8_t counters[MOST_BLOCKS];

static void on_trap(int number, siginfo_t *info, void *context) {
    (void)number;
    (void)info;
    greg_t *place = &((ucontext_t *)context)->uc_mcontext.gregs[REG_RIP];
    *place -= 1;
    size_t low = 0, high = block_count;
    while (low < high) {
        size_t middle = (low + high) / 2;
        if ((uintptr_t)blocks[middle].start < (uintptr_t)*place)
            low = middle + 1;
        else
            high = middle;
    }
    if (low == block_count || (uintptr_t)blocks[low].start != (uintptr_t)*place)
        abort();
    *blocks[low].start = blocks[low].first_byte;
    counters[low] = 1;
    blocks_run++;
}

static void say_coverage(void) {
    fprintf(stderr, "%zu of %zu blocks of the archive's instructions were run\n", blocks_run, block_count);
}

/* Lays traps at the addresses that a file names, in hex and in their order. */
static void lay_traps(const char *name) {
    FILE *file = fopen(name, "r");
    CHECK(file != NULL);
    uintptr_t address;
    while (fscanf(file, "%lx", &address) == 1) {
        CHECK(block_count < MOST_BLOCKS);
        blocks[block_count++].start = (uint8_t *)address;
    }
    fclose(file);
    CHECK(block_count > 0);

    uint8_t *code = (uint8_t *)((uintptr_t)blocks[0].start & ~(uintptr_t)(PAGE - 1));
    size_t code_len = blocks[block_count - 1].start + 1 - code;
    CHECK(mprotect(code, code_len, PROT_READ | PROT_WRITE | PROT_EXEC) == 0);
    struct sigaction action = {.sa_sigaction = on_trap, .sa_flags = SA_SIGINFO};
    CHECK(sigaction(SIGTRAP, &action, NULL) == 0);
    for (size_t i = 0; i < block_count; i++) {
        blocks[i].first_byte = *blocks[i].start;
        *blocks[i].start = 0xCC;
    }
    atexit(say_coverage);
}

int LLVMFuzzerInitialize(int *argc, char ***argv) {
    (void)argc;
    (void)argv;
    const char *named = getenv("GRAINLANTERN_BLOCKS");
    if (named != NULL)
        lay_traps(named);
    memset(filler, FILLER, sizeof filler);
    text_end = new_end();
    program_end = new_end();
    record_end = new_end();
    compiled_end = new_end();
    lines_end = new_end();
    again_end = new_end();
    return 0;
}

/* Bytes to read, right before the page. */
static const uint8_t *laid(uint8_t *end, const uint8_t *bytes, size_t len) {
    uint8_t *start = end - len;
    if (len > 0)
        memcpy(start, bytes, len);
    return start;
}

/* A filled buffer to write to, right before the page, with a few filled bytes before it. */
#define BEFORE 16
static uint8_t *lent(uint8_t *end, size_t len) {
    memset(end - len - BEFORE, FILLER, len + BEFORE);
    return end - len;
}

/* Whether the bytes from a place in the buffer on, and those before the buffer, are as they were. */
static int untouched(const uint8_t *end, size_t len, size_t from) {
    const uint8_t *start = end - len;
    return memcmp(start + from, filler, len - from) == 0 && memcmp(start - BEFORE, filler, BEFORE) == 0;
}

static int zeros(const uint64_t *value, int from) {
    for (int i = from; i < 4; i++)
        if (value[i] != 0)
            return 0;
    return 1;
}

/* Compiles a text for any room, and again for just enough and for one byte less; the program's bytes, 0 for none. */
static size_t check_compile(const uint8_t *text, size_t text_len, size_t room) {
    uint64_t value[4], tight[4];
    uint8_t *program = lent(compiled_end, room);
    uint32_t number = grainlantern_compile(text, text_len, program, room, value);
    CHECK(number <= 8 && zeros(value, 1));
    CHECK((number == 1) == (text_len > GRAINLANTERN_TEXT_LIMIT));
    if (number != 0) {
        CHECK(untouched(compiled_end, room, 0));
        CHECK(value[0] <= text_len);
        CHECK((number >= 2 && number <= 6) || value[0] == 0);
        return 0;
    }
    size_t len = value[0];
    CHECK(len >= 16 && len <= GRAINLANTERN_PROGRAM_ROOM && len % 16 == 0 && len <= room);
    CHECK(untouched(compiled_end, room, len));

    uint8_t *exact = lent(again_end, len);
    CHECK(grainlantern_compile(text, text_len, exact, len, tight) == 0);
    CHECK(tight[0] == len && zeros(tight, 1) && memcmp(exact, program, len) == 0);

    uint8_t *less = lent(again_end, len - 1);
    CHECK(grainlantern_compile(text, text_len, less, len - 1, tight) == 8);
    CHECK(zeros(tight, 0) && untouched(again_end, len - 1, 0));
    return len;
}

static int is_full(const tally_t *tally) {
    return tally->seen == UINT32_MAX || tally->kept == UINT32_MAX || tally->dropped == UINT32_MAX || tally->refused == UINT32_MAX;
}

/* The lines of a kept record: one or two whole ones, or none. */
static void check_lines(const uint8_t *lines, size_t len) {
    size_t ends = 0;
    for (size_t i = 0; i < len; i++) {
        CHECK((lines[i] >= 0x20 && lines[i] <= 0x7E) || lines[i] == '\n');
        ends += lines[i] == '\n';
    }
    CHECK(ends <= 2 && (ends == 0) == (len == 0));
    CHECK(len == 0 || lines[len - 1] == '\n');
}

/* Judges without and with a tally, and for just enough room and one byte less. */
static uint32_t check_judge(const uint8_t *program, size_t program_len, const uint8_t *record, size_t record_len, size_t room, tally_t tally) {
    uint64_t value[4], again[4];
    uint8_t *lines = lent(lines_end, room);
    uint32_t number = grainlantern_judge(program, program_len, record, record_len, lines, room, value);
    CHECK(number <= 1 || (number >= 11 && number <= 20));
    CHECK(zeros(value, number == 1 ? 2 : number == 0 ? 1 : 0));
    CHECK(number > 1 || (value[0] >= 1 && value[0] <= 512));
    CHECK(number != 19 || room < LARGEST);
    size_t len = number == 1 ? value[1] : 0;
    CHECK(len <= room && untouched(lines_end, room, len));
    check_lines(lines, len);

    tally_t before = tally;
    uint8_t *counted = lent(again_end, room);
    uint32_t counted_number = grainlantern_judge_counted(program, program_len, record, record_len, counted, room, &tally, again);
    if (number != 20 && is_full(&before)) {
        CHECK(counted_number == 21 && zeros(again, 0) && untouched(again_end, room, 0));
        CHECK(memcmp(&tally, &before, sizeof tally) == 0);
        return number;
    }
    CHECK(counted_number == number && memcmp(value, again, sizeof value) == 0);
    CHECK(memcmp(counted, lines, room) == 0 && untouched(again_end, room, len));
    CHECK(tally.seen == before.seen + (number < 19));
    CHECK(tally.kept == before.kept + (number == 1));
    CHECK(tally.dropped == before.dropped + (number == 0));
    CHECK(tally.refused == before.refused + (number >= 11 && number <= 18));
    if (number != 1)
        return number;

    uint8_t *exact = lent(again_end, len);
    CHECK(grainlantern_judge(program, program_len, record, record_len, exact, len, again) == 1);
    CHECK(memcmp(value, again, sizeof value) == 0 && memcmp(exact, lines, len) == 0);
    if (len == 0)
        return number;
    uint8_t *less = lent(again_end, len - 1);
    CHECK(grainlantern_judge(program, program_len, record, record_len, less, len - 1, again) == 19);
    CHECK(zeros(again, 0) && untouched(again_end, len - 1, 0));
    return number;
}

/* Walks a run from its front: whole records, then the same answer twice. */
static void check_walk(const uint8_t *run, size_t len) {
    uint64_t value[4], again[4];
    size_t at = 0;
    uint32_t number;
    while ((number = grainlantern_step(run, len, at, value)) == 0) {
        CHECK(value[0] >= 12 && value[0] <= len - at && zeros(value, 1));
        at += value[0];
    }
    CHECK(number == (at == len ? 1 : 2));
    CHECK(value[0] == len - at && zeros(value, 1));
    CHECK(grainlantern_step(run, len, at, again) == number && memcmp(value, again, sizeof value) == 0);
    CHECK(grainlantern_step(run, len, len + 1, again) == 1 && zeros(again, 0));
}

/* A text within `!(` and `)` has the same program and a flip, and the other verdict one step later. */
static void check_negated(const uint8_t *text, size_t text_len, const uint8_t *program, size_t len, const uint8_t *record, size_t record_len) {
    uint8_t negated[GRAINLANTERN_TEXT_LIMIT];
    uint64_t value[4], other[4];
    if (text_len + 3 > sizeof negated)
        return;
    memcpy(negated, "!(", 2);
    memcpy(negated + 2, text, text_len);
    negated[text_len + 2] = ')';
    uint8_t *longer = lent(compiled_end, GRAINLANTERN_PROGRAM_ROOM);
    uint32_t number = grainlantern_compile(negated, text_len + 3, longer, GRAINLANTERN_PROGRAM_ROOM, value);
    CHECK(number == 0 || number == 6 || (number == 7 && len == GRAINLANTERN_PROGRAM_ROOM));
    if (number != 0)
        return;
    static const uint8_t flip[16] = {10};
    CHECK(value[0] == len + 16 && memcmp(longer, program, len) == 0 && memcmp(longer + len, flip, 16) == 0);

    uint32_t verdict = grainlantern_judge(program, len, record, record_len, lines_end - LARGEST, LARGEST, value);
    uint32_t opposite = grainlantern_judge(longer, len + 16, record, record_len, lines_end - LARGEST, LARGEST, other);
    if (verdict > 1) {
        CHECK(opposite == verdict);
        return;
    }
    CHECK(opposite == 1 - verdict && other[0] == value[0] + 1);
}

static const uint8_t SPLIT[4] = {0xFE, 0xED, 0xFA, 0xCE};

/* The part up to the next split, cut off where it would be larger than its place. */
static size_t next_part(const uint8_t **bytes, size_t *left, const uint8_t **part) {
    const uint8_t *split = memmem(*bytes, *left, SPLIT, sizeof SPLIT);
    size_t len = split != NULL ? (size_t)(split - *bytes) : *left;
    size_t passed = split != NULL ? len + sizeof SPLIT : len;
    *part = *bytes;
    *bytes += passed;
    *left -= passed;
    return len < LARGEST ? len : LARGEST;
}

/* A small count, or one that is full or all but full. */
static uint32_t count_of(uint8_t byte) {
    return byte < 0xFE ? byte : UINT32_MAX - (0xFF - byte);
}

int LLVMFuzzerTestOneInput(const uint8_t *bytes, size_t left) {
    const uint8_t *part;
    uint8_t head[8] = {0xFF, 0xFF, 0xFF, 0xFF};
    size_t head_len = next_part(&bytes, &left, &part);
    memcpy(head, part, head_len < sizeof head ? head_len : sizeof head);
    size_t text_len = next_part(&bytes, &left, &part);
    const uint8_t *text = laid(text_end, part, text_len);
    size_t program_len = next_part(&bytes, &left, &part);
    const uint8_t *program = laid(program_end, part, program_len);
    size_t record_len = next_part(&bytes, &left, &part);
    const uint8_t *record = laid(record_end, part, record_len);

    size_t program_room = (head[0] << 8 | head[1]) % (GRAINLANTERN_PROGRAM_ROOM + 64);
    size_t line_room = head[2] << 8 | head[3];
    if (line_room == 0xFFFF)
        line_room = LARGEST;
    tally_t tally = {count_of(head[4]), count_of(head[5]), count_of(head[6]), count_of(head[7])};

    check_walk(record, record_len);
    check_judge(program, program_len, record, record_len, line_room, tally);
    size_t compiled_len = check_compile(text, text_len, program_room);
    if (compiled_len == 0)
        return 0;
    const uint8_t *compiled = laid(program_end, compiled_end - program_room, compiled_len);
    CHECK(check_judge(compiled, compiled_len, record, record_len, line_room, tally) != 20);
    check_negated(text, text_len, compiled, compiled_len, record, record_len);
    return 0;
}
