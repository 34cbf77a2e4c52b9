/*
 * What include/grainlantern.h says of pointers, sizes, limits, numbers, `value` and threads, tried out: each limit at its border, each number by an
 * input that has it. What is expected is the paper's. Built as C99 and as C++ (rust/cases/tests/c_example.rs).
 * Tells each fact that doesn't hold, and exits with 1 if there is one.
 */
#define _POSIX_C_SOURCE 200809L

#include <pthread.h>
#include <stdio.h>
#include <string.h>

#include "grainlantern.h"

#define THREADS 4
#define ROUNDS 2000

static int wrong = 0;

#define HOLDS(fact) \
    do { \
        if (!(fact)) { \
            wrong = 1; \
            fprintf(stderr, "%s:%d: doesn't hold: %s\n", __FILE__, __LINE__, #fact); \
        } \
    } while (0)

/* The paper's record R, and its line. */
static const uint8_t record[] = {
    0x60, 0xB8, 0xD2, 0xCB, 0x00, 0x10, 0x00, 0x04, 0x00, 0x00, 0x00, 0x47, 0x00, 0x03, 0x09, 0x7C, 0x00,
    0x00, 0xFB, 0xF4, 0x00, 0x00, 0x00, 0x01, 0xC0, 0x00, 0x02, 0x01, 0xC0, 0x00, 0x02, 0x02, 0xFF, 0xFF,
    0xFF, 0xFF, 0xFF, 0xFF, 0xFF, 0xFF, 0xFF, 0xFF, 0xFF, 0xFF, 0xFF, 0xFF, 0xFF, 0xFF, 0x00, 0x33, 0x02,
    0x00, 0x00, 0x00, 0x18, 0x40, 0x01, 0x01, 0x00, 0x40, 0x02, 0x0A, 0x02, 0x02, 0x00, 0x03, 0x09, 0x7C,
    0x00, 0x00, 0x0D, 0x05, 0x40, 0x03, 0x04, 0xC0, 0x00, 0x02, 0x01, 0x18, 0x0A, 0x01, 0x02};
static const char line[] = "+|10.1.2.0/24|199036 3333|192.0.2.1|i||||192.0.2.1 199036|1622725323|1\n";
static const char text[] = "-peer 199036";

static uint8_t program[GRAINLANTERN_PROGRAM_ROOM];
static size_t program_len;

/* An answer of a function that was lent `value` filled with ones. */
static int says(uint32_t number, uint32_t wanted, const uint64_t *value, uint64_t first, uint64_t second)
{
    return number == wanted && value[0] == first && value[1] == second && value[2] == 0 && value[3] == 0;
}

static uint64_t *fresh(uint64_t *value)
{
    memset(value, 0xFF, 4 * sizeof *value);
    return value;
}

static int untouched(const uint8_t *buffer, size_t from, size_t to)
{
    while (from < to && buffer[from] == 0xA5)
        from++;
    return from == to;
}

static void compiling(void)
{
    const uint8_t *filter = (const uint8_t *)text;
    uint64_t value[4];

    memset(program, 0xA5, sizeof program);
    HOLDS(says(grainlantern_compile(NULL, 0, NULL, 0, fresh(value)), GRAINLANTERN_WRONG_TOKEN, value, 0, 0));
    HOLDS(says(grainlantern_compile(filter, 12, NULL, 0, fresh(value)), GRAINLANTERN_SHORT_PROGRAM, value, 0, 0));
    HOLDS(says(grainlantern_compile(filter, 6, program, sizeof program, fresh(value)), GRAINLANTERN_WRONG_TOKEN, value, 6, 0));
    HOLDS(untouched(program, 0, sizeof program));
    HOLDS(says(grainlantern_compile(filter, 12, program, sizeof program, fresh(value)), GRAINLANTERN_COMPILED, value, 16, 0));
    HOLDS(untouched(program, 16, sizeof program));
    program_len = (size_t)value[0];
}

/* Compiles a text into all the room that a program needs. */
static int text_says(const char *filter, size_t filter_len, uint32_t wanted, uint64_t first)
{
    static uint8_t room[GRAINLANTERN_PROGRAM_ROOM];
    uint64_t value[4];

    return says(grainlantern_compile((const uint8_t *)filter, filter_len, room, sizeof room, fresh(value)), wanted, value, first, 0);
}

/* Writes a pattern of so many items, which makes one record more, and returns its bytes. */
static size_t pattern(char *filter, size_t items)
{
    size_t at = 9;

    memcpy(filter, "-aspath '", at);
    for (; items > 0; items--) {
        filter[at++] = '.';
        filter[at++] = ' ';
    }
    filter[at++] = '\'';
    return at;
}

static void limits_of_texts(void)
{
    static char filter[GRAINLANTERN_TEXT_LIMIT + 1];
    static uint8_t room[GRAINLANTERN_PROGRAM_ROOM];
    uint64_t value[4];
    size_t len;

    memset(filter, ' ', sizeof filter);
    memcpy(filter, "-loops", 6);
    HOLDS(text_says(filter, GRAINLANTERN_TEXT_LIMIT, GRAINLANTERN_COMPILED, 16));
    HOLDS(text_says(filter, GRAINLANTERN_TEXT_LIMIT + 1, GRAINLANTERN_LONG_TEXT, 0));
    filter[6] = 0x7E;
    HOLDS(text_says(filter, GRAINLANTERN_TEXT_LIMIT, GRAINLANTERN_WRONG_TOKEN, 0));
    filter[6] = 0x7F;
    HOLDS(text_says(filter, GRAINLANTERN_TEXT_LIMIT, GRAINLANTERN_FORBIDDEN_BYTE, 6));
    HOLDS(text_says("-aspath '5'", 11, GRAINLANTERN_COMPILED, 32));
    HOLDS(text_says("-aspath '5'", 10, GRAINLANTERN_OPEN_QUOTE, 8));
    HOLDS(text_says("-loops )", 7, GRAINLANTERN_COMPILED, 16));
    HOLDS(text_says("-loops )", 8, GRAINLANTERN_WRONG_TOKEN, 7));
    HOLDS(text_says("-type 255", 9, GRAINLANTERN_COMPILED, 16));
    HOLDS(text_says("-type 256", 9, GRAINLANTERN_WRONG_OPERAND, 6));
    HOLDS(text_says("-communities 65535:65535", 24, GRAINLANTERN_COMPILED, 32));
    HOLDS(text_says("-communities 65535:65536", 24, GRAINLANTERN_WRONG_OPERAND, 13));

    memset(filter, '!', GRAINLANTERN_LEVEL_LIMIT + 1);
    memcpy(filter + GRAINLANTERN_LEVEL_LIMIT + 1, "-loops", 6);
    HOLDS(text_says(filter + 1, GRAINLANTERN_LEVEL_LIMIT + 6, GRAINLANTERN_COMPILED,
                    GRAINLANTERN_PROGRAM_RECORD_SIZE * (GRAINLANTERN_LEVEL_LIMIT + 1)));
    HOLDS(text_says(filter, GRAINLANTERN_LEVEL_LIMIT + 1 + 6, GRAINLANTERN_DEEP_LEVEL, GRAINLANTERN_LEVEL_LIMIT));

    len = pattern(filter, GRAINLANTERN_WEIGHT_LIMIT);
    HOLDS(text_says(filter, len, GRAINLANTERN_HEAVY_TEXT, 0));
    len = pattern(filter, GRAINLANTERN_WEIGHT_LIMIT - 1);
    HOLDS(text_says(filter, len, GRAINLANTERN_COMPILED, GRAINLANTERN_PROGRAM_ROOM));
    HOLDS(says(grainlantern_compile((const uint8_t *)filter, len, room, sizeof room - 1, fresh(value)), GRAINLANTERN_SHORT_PROGRAM, value, 0, 0));
}

static void judging(void)
{
    static uint8_t lines[GRAINLANTERN_LINE_ROOM];
    struct grainlantern_tally tally = {0, 0, 0, 0};
    struct grainlantern_tally full = {0, 0, UINT32_MAX, 0};
    uint64_t value[4];

    memset(lines, 0xA5, sizeof lines);
    HOLDS(says(grainlantern_judge(NULL, 0, NULL, 0, NULL, 0, fresh(value)), GRAINLANTERN_WRONG_PROGRAM, value, 0, 0));
    HOLDS(says(grainlantern_judge(program, program_len, NULL, 0, NULL, 0, fresh(value)), GRAINLANTERN_WRONG_SIZE, value, 0, 0));
    HOLDS(says(grainlantern_judge(program, program_len, record, sizeof record, NULL, 0, fresh(value)),
               GRAINLANTERN_SHORT_LINES, value, 0, 0));
    HOLDS(says(grainlantern_judge_counted(program, program_len, NULL, 0, NULL, 0, &tally, fresh(value)),
               GRAINLANTERN_WRONG_SIZE, value, 0, 0));
    HOLDS(says(grainlantern_judge_counted(program, program_len, record, sizeof record, lines, 70, &tally, fresh(value)),
               GRAINLANTERN_SHORT_LINES, value, 0, 0));
    HOLDS(says(grainlantern_judge_counted(program, program_len, record, sizeof record, lines, 71, &full, fresh(value)),
               GRAINLANTERN_FULL_TALLY, value, 0, 0));
    HOLDS(full.seen == 0 && full.kept == 0 && full.dropped == UINT32_MAX && full.refused == 0);
    HOLDS(untouched(lines, 0, sizeof lines));
    HOLDS(says(grainlantern_judge_counted(program, program_len, record, sizeof record, lines, sizeof lines, &tally, fresh(value)),
               GRAINLANTERN_KEPT, value, 1, 71));
    HOLDS(memcmp(lines, line, 71) == 0 && untouched(lines, 71, sizeof lines));
    HOLDS(tally.seen == 2 && tally.kept == 1 && tally.dropped == 0 && tally.refused == 1);
}

/* Judges a record with all the room that lines need. */
static int record_says(const uint8_t *bytes, size_t bytes_len, uint32_t wanted, uint64_t first, uint64_t second)
{
    static uint8_t lines[GRAINLANTERN_LINE_ROOM];
    uint64_t value[4];

    return says(grainlantern_judge(program, program_len, bytes, bytes_len, lines, sizeof lines, fresh(value)), wanted, value, first, second);
}

/* The answer where a byte of record R is another one. */
static int slip_says(size_t at, uint8_t byte, uint32_t wanted)
{
    uint8_t slipped[sizeof record];

    memcpy(slipped, record, sizeof record);
    slipped[at] = byte;
    return record_says(slipped, sizeof slipped, wanted, 0, 0);
}

static void numbers_of_records(void)
{
    uint8_t other[16];
    uint64_t value[4];

    HOLDS(slip_says(11, 0x46, GRAINLANTERN_WRONG_SIZE));
    HOLDS(slip_says(11, 0x48, GRAINLANTERN_WRONG_SIZE));
    HOLDS(slip_says(5, 17, GRAINLANTERN_WRONG_KIND));
    HOLDS(slip_says(7, 3, GRAINLANTERN_WRONG_KIND));
    HOLDS(slip_says(23, 2, GRAINLANTERN_WRONG_PEER));
    HOLDS(slip_says(47, 0xFE, GRAINLANTERN_WRONG_FRAME));
    HOLDS(slip_says(49, 0x34, GRAINLANTERN_WRONG_FRAME));
    /* the attributes up to the end of the record, and a byte further */
    HOLDS(slip_says(54, 28, GRAINLANTERN_WRONG_ATTRIBUTES));
    HOLDS(slip_says(54, 29, GRAINLANTERN_WRONG_SECTIONS));
    /* ORIGIN twice */
    HOLDS(slip_says(73, 1, GRAINLANTERN_WRONG_ATTRIBUTES));
    HOLDS(slip_says(58, 3, GRAINLANTERN_WRONG_BODY));
    /* the 10 bytes of AS_PATH as a COMMUNITY, the 4 of NEXT_HOP as an AGGREGATOR */
    HOLDS(slip_says(60, 8, GRAINLANTERN_WRONG_BODY));
    HOLDS(slip_says(73, 7, GRAINLANTERN_WRONG_BODY));
    HOLDS(slip_says(79, 33, GRAINLANTERN_WRONG_PREFIX));
    HOLDS(record_says(record, sizeof record, GRAINLANTERN_KEPT, 1, 71));
    HOLDS(says(grainlantern_compile((const uint8_t *)"-peer 2428", 10, other, sizeof other, fresh(value)), GRAINLANTERN_COMPILED, value, 16, 0));
    HOLDS(says(grainlantern_judge(other, sizeof other, record, sizeof record, NULL, 0, fresh(value)), GRAINLANTERN_DROPPED, value, 1, 0));
}

static void limits_of_records(void)
{
    static uint8_t bytes[GRAINLANTERN_RECORD_LIMIT + 1];
    const size_t rest = GRAINLANTERN_RECORD_LIMIT - GRAINLANTERN_HEADER_SIZE;
    uint64_t value[4];

    /* no record of type 16 is readable at the limit: its message is over 4,096 bytes */
    memcpy(bytes, record, sizeof record);
    bytes[10] = (uint8_t)(rest >> 8);
    bytes[11] = (uint8_t)rest;
    HOLDS(record_says(bytes, GRAINLANTERN_RECORD_LIMIT, GRAINLANTERN_WRONG_FRAME, 0, 0));
    bytes[11]++;
    HOLDS(record_says(bytes, GRAINLANTERN_RECORD_LIMIT + 1, GRAINLANTERN_WRONG_SIZE, 0, 0));
    memset(bytes, 0, GRAINLANTERN_HEADER_SIZE);
    HOLDS(record_says(bytes, GRAINLANTERN_HEADER_SIZE - 1, GRAINLANTERN_WRONG_SIZE, 0, 0));
    HOLDS(record_says(bytes, GRAINLANTERN_HEADER_SIZE, GRAINLANTERN_WRONG_KIND, 0, 0));
    HOLDS(says(grainlantern_step(bytes, GRAINLANTERN_HEADER_SIZE - 1, 0, fresh(value)), GRAINLANTERN_CUT, value, GRAINLANTERN_HEADER_SIZE - 1, 0));
    HOLDS(says(grainlantern_step(bytes, GRAINLANTERN_HEADER_SIZE, 0, fresh(value)), GRAINLANTERN_RECORD, value, GRAINLANTERN_HEADER_SIZE, 0));
}

/* A message of 4,096 bytes that announces 0.0.0.0/0 in each byte that it can: no record has a longer line. */
static void room_of_lines(void)
{
    const size_t prefixes = 4096 - 19 - 4;
    const size_t line_len = 2 + 10 * prefixes - 1 + strlen("|||||||192.0.2.1 199036|1622725323|1\n");
    static uint8_t bytes[12 + 20 + 4096];

    memcpy(bytes, record, 51);
    bytes[10] = (20 + 4096) >> 8;
    bytes[11] = (20 + 4096) & 0xFF;
    bytes[48] = 4096 >> 8;
    bytes[49] = 4096 & 0xFF;
    HOLDS(record_says(bytes, sizeof bytes, GRAINLANTERN_KEPT, 1, line_len));
    /* the paper promises this room, more than the line takes */
    HOLDS(GRAINLANTERN_LINE_ROOM == 65536 && line_len < GRAINLANTERN_LINE_ROOM);
}

static void full_tallies(void)
{
    uint32_t counts[4], after[4];
    uint8_t lines[71];
    uint64_t value[4];
    struct grainlantern_tally tally;
    int i;

    for (i = 0; i < 4; i++) {
        memset(counts, 0, sizeof counts);
        counts[i] = UINT32_MAX;
        memcpy(&tally, counts, sizeof tally);
        HOLDS(says(grainlantern_judge_counted(program, program_len, record, sizeof record, lines, sizeof lines, &tally, fresh(value)),
                   GRAINLANTERN_FULL_TALLY, value, 0, 0));
        memcpy(after, &tally, sizeof tally);
        HOLDS(memcmp(counts, after, sizeof after) == 0);
        counts[i]--;
        memcpy(&tally, counts, sizeof tally);
        HOLDS(says(grainlantern_judge_counted(program, program_len, record, sizeof record, lines, sizeof lines, &tally, fresh(value)),
                   GRAINLANTERN_KEPT, value, 1, 71));
    }
}

static void walking(void)
{
    uint64_t value[4];

    HOLDS(says(grainlantern_step(NULL, 0, 0, fresh(value)), GRAINLANTERN_DONE, value, 0, 0));
    HOLDS(says(grainlantern_step(NULL, 0, SIZE_MAX, fresh(value)), GRAINLANTERN_DONE, value, 0, 0));
    HOLDS(says(grainlantern_step(record, sizeof record, 0, fresh(value)), GRAINLANTERN_RECORD, value, sizeof record, 0));
    HOLDS(says(grainlantern_step(record, sizeof record, sizeof record, fresh(value)), GRAINLANTERN_DONE, value, 0, 0));
    HOLDS(says(grainlantern_step(record, sizeof record - 1, 0, fresh(value)), GRAINLANTERN_CUT, value, sizeof record - 1, 0));
}

/* Judges the record again and again, with a line buffer and a tally of its own. */
static void *judge_on(void *answer)
{
    struct grainlantern_tally *tally = (struct grainlantern_tally *)answer;
    uint8_t lines[128];
    uint64_t value[4];
    int round;

    for (round = 0; round < ROUNDS; round++) {
        memset(lines, 0xA5, sizeof lines);
        grainlantern_judge_counted(program, program_len, record, sizeof record, lines, sizeof lines, tally, value);
        if (memcmp(lines, line, 71) != 0)
            tally->dropped++;
    }
    return answer;
}

static void threads(void)
{
    struct grainlantern_tally tallies[THREADS];
    pthread_t started[THREADS];
    int i;

    memset(tallies, 0, sizeof tallies);
    for (i = 0; i < THREADS; i++)
        HOLDS(pthread_create(&started[i], NULL, judge_on, &tallies[i]) == 0);
    for (i = 0; i < THREADS; i++) {
        HOLDS(pthread_join(started[i], NULL) == 0);
        HOLDS(tallies[i].seen == ROUNDS && tallies[i].kept == ROUNDS && tallies[i].dropped == 0);
    }
}

int main(void)
{
    HOLDS(sizeof(struct grainlantern_tally) == 16);
    HOLDS(sizeof record == 83 && strlen(line) == 71);
    compiling();
    limits_of_texts();
    judging();
    numbers_of_records();
    limits_of_records();
    room_of_lines();
    full_tallies();
    walking();
    threads();
    return wrong;
}
