/*
 * Grainlantern: filters MRT update records (RFC 6396, RFC 4271). For C99 and C++, on x86-64.
 *
 * Link libgrainlantern_c.a, which `rt lib` in crates/grainlantern_c proves and builds, in out/; it needs no other library.
 * examples/c/filter.c is a whole program over these functions. README.md and man/grainlantern.1 have the filter language, the
 * lines and each refusal.
 *
 * A filter text is compiled once into a program, which is bytes in a buffer of yours. Then grainlantern_step walks the bytes of a
 * file from record to record, and grainlantern_judge or grainlantern_judge_counted judges each record with the program and writes
 * the lines of one that is kept.
 *
 * Answers. Each function returns a number, named below, and sets all four places of `value`: first those that the function names,
 * then zeros. Places and numbers that aren't named are kept for later versions. Every input has its answer: any bytes may be handed in as a
 * text, a program, a record or records, of any length.
 *
 * Pointers. A pointer must be good for as many bytes as the length beside it says, `value` for four numbers and `tally` for one
 * struct. Where the length is 0 nothing is read or written through the pointer, and any pointer will do, NULL too. What a call
 * writes to (`program` of grainlantern_compile, `lines`, `tally`, `value`) must overlap nothing else that the call is handed, and
 * no other thread may change what is handed in before the call returns.
 *
 * Nothing is kept between calls: no memory is allocated, and there is no state but what you hand in. So calls may run in
 * several threads at once, each with its own `lines`, `tally` and `value`; they may share a program and records that all only read.
 * grainlantern_compile takes up to 50 KiB of stack (measured, with 32 levels of parentheses), the others less than 4 KiB.
 *
 * A refusal changes no byte of `program` or `lines`. 11 to 18 count in the tally as one seen and one refused; 19, 20 and 21 leave
 * it as it was. A success changes only the bytes that it reports.
 */
#ifndef GRAINLANTERN_H
#define GRAINLANTERN_H

#include <stddef.h>
#include <stdint.h>

#ifdef __cplusplus
extern "C" {
#endif

/* The version, and the same as a number that #if can compare: major x 1,000,000 + minor x 1,000 + patch. */
#define GRAINLANTERN_VERSION "0.1.0"
#define GRAINLANTERN_VERSION_NUMBER 1000

/* The most bytes of a filter text. */
#define GRAINLANTERN_TEXT_LIMIT 4096
/* The most levels of `!` and `(` in a filter text. */
#define GRAINLANTERN_LEVEL_LIMIT 32
/* The most records of a program, and the bytes of each. */
#define GRAINLANTERN_WEIGHT_LIMIT 512
#define GRAINLANTERN_PROGRAM_RECORD_SIZE 16
/* Room in which every program fits, the product of these two. With less, a text may be refused with 8. */
#define GRAINLANTERN_PROGRAM_ROOM 8192
/* The bytes of a record's header. */
#define GRAINLANTERN_HEADER_SIZE 12
/* The most bytes of a record that is judged, its header included. */
#define GRAINLANTERN_RECORD_LIMIT 8192
/* Room in which the lines of every record fit. With less, a record that is kept may be refused with 19. */
#define GRAINLANTERN_LINE_ROOM 65536

/* What grainlantern_compile returns. The first refusal of 1, 2 and 3 that holds is given; then the first token that has 4, 5
 * or 6; then 7 and 8. A place counts bytes from the text's first, which is 0. */
enum grainlantern_compiled {
    GRAINLANTERN_COMPILED = 0,
    GRAINLANTERN_LONG_TEXT = 1,      /* over GRAINLANTERN_TEXT_LIMIT bytes; place 0 */
    GRAINLANTERN_FORBIDDEN_BYTE = 2, /* a byte that is none of 0x20 to 0x7E, tab and LF; the place of the first one */
    GRAINLANTERN_OPEN_QUOTE = 3,     /* a quote isn't closed; its place */
    GRAINLANTERN_WRONG_TOKEN = 4,    /* no continuation allows the token, or the end; its place, or the text's length */
    GRAINLANTERN_WRONG_OPERAND = 5,  /* an operand breaks its test's rule; its place, or its opening quote's */
    GRAINLANTERN_DEEP_LEVEL = 6,     /* a `(` or `!` opens a level past GRAINLANTERN_LEVEL_LIMIT; its place */
    GRAINLANTERN_HEAVY_TEXT = 7,     /* over GRAINLANTERN_WEIGHT_LIMIT program records; place 0 */
    GRAINLANTERN_SHORT_PROGRAM = 8   /* the program doesn't fit the buffer; place 0 */
};

/* What grainlantern_judge and grainlantern_judge_counted return. The first refusal that holds is given, in this order: 20, 21, 11
 * to 18, then the verdict, then 19. */
enum grainlantern_judged {
    GRAINLANTERN_DROPPED = 0,
    GRAINLANTERN_KEPT = 1,
    GRAINLANTERN_WRONG_SIZE = 11,       /* under 12 or over GRAINLANTERN_RECORD_LIMIT bytes, or the length field isn't the rest */
    GRAINLANTERN_WRONG_KIND = 12,       /* the type isn't 16, or the subtype is neither 1 nor 4 */
    GRAINLANTERN_WRONG_PEER = 13,       /* the peer part is cut, or its address family isn't 1 (IPv4) */
    GRAINLANTERN_WRONG_FRAME = 14,      /* the BGP message's marker or length is wrong */
    GRAINLANTERN_WRONG_SECTIONS = 15,   /* the sections of an UPDATE don't fit */
    GRAINLANTERN_WRONG_ATTRIBUTES = 16, /* an attribute overruns, or a code comes twice */
    GRAINLANTERN_WRONG_BODY = 17,       /* the body of ORIGIN, AS_PATH, NEXT_HOP, ATOMIC_AGGREGATE, AGGREGATOR or COMMUNITY is wrong */
    GRAINLANTERN_WRONG_PREFIX = 18,     /* a prefix is wrong */
    GRAINLANTERN_SHORT_LINES = 19,      /* the record is kept, and its lines don't fit the buffer */
    GRAINLANTERN_WRONG_PROGRAM = 20,    /* the program isn't valid; one that grainlantern_compile wrote is */
    GRAINLANTERN_FULL_TALLY = 21        /* a count of the tally is 4,294,967,295 */
};

/* What grainlantern_step returns. */
enum grainlantern_stepped {
    GRAINLANTERN_RECORD = 0,
    GRAINLANTERN_DONE = 1,
    GRAINLANTERN_CUT = 2
};

/* Counts of the records judged. seen is the sum of the other three where all began at 0. */
struct grainlantern_tally {
    uint32_t seen;
    uint32_t kept;
    uint32_t dropped;
    uint32_t refused;
};

/*
 * Compiles a filter text; it needs no 0 at its end.
 *
 * 0 (compiled): value[0] is the program's bytes, whole program records, which stand at the start of `program`; what stood behind them
 * stays. Hand on just these bytes to grainlantern_judge.
 * 1 to 8 (refused): value[0] is the place.
 */
uint32_t grainlantern_compile(const uint8_t *text, size_t text_len,
                              uint8_t *program, size_t program_len,
                              uint64_t value[4]);

/*
 * Judges a record, which is its header and its body, with a program, and writes the lines of one that is kept.
 *
 * 1 (kept): value[0] is the steps that the program took, value[1] the bytes of the lines, which stand at the start of `lines`, end
 * with LF each and have no 0 behind them. A kept record that announces and withdraws nothing has no lines, 0 bytes.
 * 0 (dropped): value[0] is the steps.
 * 11 to 20 (refused).
 */
uint32_t grainlantern_judge(const uint8_t *program, size_t program_len,
                            const uint8_t *record, size_t record_len,
                            uint8_t *lines, size_t lines_len,
                            uint64_t value[4]);

/*
 * The same, and adds one to the tally's seen and one to its kept, dropped or, for 11 to 18, refused. Set the tally to zeros
 * before the first record. 21 is given before the record is looked at; empty the tally and judge the record again.
 */
uint32_t grainlantern_judge_counted(const uint8_t *program, size_t program_len,
                                    const uint8_t *record, size_t record_len,
                                    uint8_t *lines, size_t lines_len,
                                    struct grainlantern_tally *tally,
                                    uint64_t value[4]);

/*
 * Says what stands at the place `at` of a run of records. The walk begins at 0, and goes on at `at` plus the bytes of the record.
 *
 * 0 (a record): value[0] is its bytes, header included: from 12 up, and more than grainlantern_judge reads where the record is
 * that long.
 * 1 (done): nothing is left. A place past the end is done too.
 * 2 (cut): value[0] is the bytes left, which are too few for a header or for the body that the header announces.
 */
uint32_t grainlantern_step(const uint8_t *records, size_t records_len, size_t at,
                           uint64_t value[4]);

#ifdef __cplusplus
}
#endif

#endif
