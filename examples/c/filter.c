/*
 * filter FILTERFILE RECORDFILE: prints the lines of the records that a filter keeps.
 *
 * The C interface of Grainlantern in use: see include/grainlantern.h. Unlike the program grainlantern it reads a whole file, of any
 * size, and tells on standard error how many records it saw, and what is wrong.
 *
 * Exit status: 0 all records were judged; 1 the filter is refused, or something couldn't be read, written or held; 2 all whole
 * records were judged, but bytes are left at the end that are no whole record.
 */
#include <errno.h>
#include <stdio.h>
#include <stdlib.h>
#include <string.h>

#include "grainlantern.h"

#define FAILED 1
#define CUT 2

struct bytes {
    uint8_t *start;
    size_t length;
};

static void fail(const char *what, const char *why)
{
    fflush(stdout);
    fprintf(stderr, "filter: %s: %s\n", what, why);
    exit(FAILED);
}

/* A file of any size, also one whose size isn't known before its end, as a pipe's. */
static struct bytes read_file(const char *name)
{
    struct bytes file = {NULL, 0};
    size_t room = 65536;
    FILE *stream = fopen(name, "rb");

    if (stream == NULL)
        fail(name, strerror(errno));
    for (;;) {
        uint8_t *larger = realloc(file.start, room);

        if (larger == NULL)
            fail(name, "it doesn't fit in memory");
        file.start = larger;
        file.length += fread(file.start + file.length, 1, room - file.length, stream);
        if (ferror(stream))
            fail(name, strerror(errno));
        if (file.length < room)
            break;
        if (room > SIZE_MAX / 2)
            fail(name, "it doesn't fit in memory");
        room *= 2;
    }
    fclose(stream);
    return file;
}

static const char *refusal(uint32_t number)
{
    switch (number) {
    case GRAINLANTERN_LONG_TEXT:
        return "the text is over 4,096 bytes";
    case GRAINLANTERN_FORBIDDEN_BYTE:
        return "a byte that no text may have";
    case GRAINLANTERN_OPEN_QUOTE:
        return "a quote that isn't closed";
    case GRAINLANTERN_WRONG_TOKEN:
        return "something else has to stand here";
    case GRAINLANTERN_WRONG_OPERAND:
        return "an operand that its test doesn't take";
    case GRAINLANTERN_DEEP_LEVEL:
        return "over 32 levels of '(' and '!'";
    case GRAINLANTERN_HEAVY_TEXT:
        return "over 512 records of program";
    default:
        return "the program doesn't fit its buffer";
    }
}

/* The bytes of a filter's program. */
static size_t compile(const char *name, uint8_t *program, size_t room)
{
    struct bytes text = read_file(name);
    uint64_t value[4];
    uint32_t number = grainlantern_compile(text.start, text.length, program, room, value);

    free(text.start);
    if (number != GRAINLANTERN_COMPILED) {
        fprintf(stderr, "filter: %s: refused %lu at %llu: %s\n", name, (unsigned long)number,
                (unsigned long long)value[0], refusal(number));
        exit(FAILED);
    }
    return (size_t)value[0];
}

/* Judges a record, and prints it if it is kept. */
static void judge(const uint8_t *program, size_t program_len, const uint8_t *record, size_t record_len,
                  struct grainlantern_tally *tally)
{
    /* static, since a stack may be too small for it */
    static uint8_t lines[GRAINLANTERN_LINE_ROOM];
    uint64_t value[4];
    uint32_t number =
        grainlantern_judge_counted(program, program_len, record, record_len, lines, sizeof lines, tally, value);

    switch (number) {
    case GRAINLANTERN_KEPT:
        if (fwrite(lines, 1, (size_t)value[1], stdout) != value[1])
            fail("standard output", strerror(errno));
        break;
    case GRAINLANTERN_FULL_TALLY:
        fail("the tally", "4,294,967,295 records were counted, and no more can be");
        break;
    default:
        /* dropped, or refused and counted: with this room and a compiled program 19 and 20 don't come */
        break;
    }
}

int main(int argc, char **argv)
{
    uint8_t program[GRAINLANTERN_PROGRAM_ROOM];
    struct grainlantern_tally tally = {0, 0, 0, 0};
    struct bytes records;
    size_t program_len;
    size_t at = 0;
    uint64_t value[4];
    uint32_t step;

    if (argc != 3) {
        fprintf(stderr, "usage: filter FILTERFILE RECORDFILE\n");
        return FAILED;
    }
    program_len = compile(argv[1], program, sizeof program);
    records = read_file(argv[2]);
    while ((step = grainlantern_step(records.start, records.length, at, value)) == GRAINLANTERN_RECORD) {
        size_t record_len = (size_t)value[0];

        judge(program, program_len, records.start + at, record_len, &tally);
        at += record_len;
    }
    free(records.start);
    if (fflush(stdout) != 0)
        fail("standard output", strerror(errno));
    fprintf(stderr, "filter: %s: seen %lu, kept %lu, dropped %lu, refused %lu\n", argv[2], (unsigned long)tally.seen,
            (unsigned long)tally.kept, (unsigned long)tally.dropped, (unsigned long)tally.refused);
    if (step == GRAINLANTERN_CUT) {
        fprintf(stderr, "filter: %s: cut: the %llu bytes from byte %llu on are no whole record\n", argv[2],
                (unsigned long long)value[0], (unsigned long long)at);
        return CUT;
    }
    return 0;
}
