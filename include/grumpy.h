/* The box: reads, checks, runs, rewrites and stores a rate sheet written in Grumpy, tells how much it can use, and
 * pays a shift by one.
 *
 * Thirteen functions. They keep nothing between calls, ask for no memory of their own but the stack, of which
 * GRUMPY_STACK bytes are enough, and call nothing from outside but memset on x86-64; docs/EMBEDDING.md tells what it
 * is on other machines. They may be called from several threads at once, each with memory of its own. Lengths have
 * 64 bits on every machine.
 *
 * Editions. The first argument of each that takes a sheet is the edition of the language that it is written in:
 * GRUMPY_EDITION_1, or GRUMPY_EDITION_2, which has counted loops, with the words `for` and `by` and the marks
 * `..` and `..=`. A sheet with none of these is answered the same in both. Another number is answered with
 * GRUMPY_NO_EDITION.
 *
 * Lent memory. The caller lends `table` and, to those that run, `work`, of at least the words named below;
 * what they hold before the call does not matter. After the call the required words are zero and all
 * further words are as they were. If a memory is too short the answer is GRUMPY_SHORT_MEMORY, and nothing
 * but the report is changed. `out` may have any length, 0 too: the bytes printed, or those written, are its
 * first ones and the rest is as it was; for a sheet that is refused nothing is printed or written.
 *
 * Memories must not overlap one another, nor the source or the report. A memory of length 0 may have any
 * pointer that is not null and is aligned for its words.
 *
 * All functions return the number, and write the report; those of a shift have reports of their own (see below):
 *
 *     report[0]  the number, one of the constants below
 *     report[1]  the place: a byte of the source, counted from 0; of a stored sheet a line, counted from 1;
 *                0 where the number has none
 *     report[2]  the type of the sheet, if it passed: GRUMPY_INT, GRUMPY_BOOL, ... ; else 0.
 *                Of grumpy_write and grumpy_store the bytes written
 *
 * and those that run also
 *
 *     report[3]  the value, a number in 64-bit two's complement: (int64_t)report[3]; of a float its 64 bits;
 *                0 unless the number is 0
 *     report[4]  the units used
 *     report[5]  the bytes printed
 *
 * and grumpy_profile
 *
 *     report[3]  the units that the sheet can use at most; 0 unless the number is 0
 *
 * A float, of type GRUMPY_FLOAT, is the double with these bits; every not-a-number has the same,
 * 0x7FF8000000000000, and no other float has them:
 *
 *     double value;
 *     memcpy(&value, &report[3], sizeof value);
 *
 * The calling thread has to have the usual control of floats (MXCSR on x86-64): rounding to nearest, no exception
 * trapped, subnormal numbers kept. C programs have it unless they change it.
 *
 * The pay profile. A sheet without loops and without a function that calls itself must finish; grumpy_profile says
 * whether a sheet is one, and counts its units before anything is run: one for each node, of an `if` the dearer
 * branch, for a call also the callee's body. Run with an allowance of at least the count, it uses no more than the
 * count and never ends with GRUMPY_OUT_OF_UNITS, whatever its output is. A sheet that does not pass is refused as
 * by grumpy_check; then comes GRUMPY_ENDLESS, and then GRUMPY_MANY_UNITS.
 *
 * Stored sheets. grumpy_store writes a sheet's stored form, lines of hexadecimal, and grumpy_check_stored and
 * grumpy_run_stored take such lines in the source's stead: any bytes, in any memory. They answer what the sheet
 * that was stored is answered, in the same edition, which the stored form does not name, but for places: the
 * count's line is 1, that of the first token 2, and the end of the sheet is one past the last line. What is no
 * stored form is answered with GRUMPY_NOT_HEXADECIMAL, GRUMPY_WRONG_COUNT or GRUMPY_NOT_ONE_TOKEN; a count that is
 * too large with GRUMPY_MANY_TOKENS at line 1, and tokens of too many bytes in all with GRUMPY_LONG_SOURCE at 0.
 *
 * Two sheets. grumpy_check_pair and grumpy_run_pair take a rule book and a loom's sheet, and read them as the
 * first, one line feed, then the second; the limits hold for the whole. They tell besides, behind the words
 * above (from report[3] on for check, from report[6] on for run):
 *
 *     sheet      which of the two holds the place, 1 or 2; report[1] is then counted in that sheet
 *     begin      where the line around the place begins in that sheet,
 *     end        and where it ends, its line feed not among its bytes
 *
 * A place at the end of a sheet shows the empty part there. Where the number has no place, sheet is 1, and
 * place, begin and end are 0. To print the line of a run, with both sheets at hand:
 *
 *     const uint8_t *sheet = report[6] == 1 ? first : second;
 *     fwrite(sheet + report[7], 1, report[8] - report[7], stdout);
 *
 * A report that is too short is answered with GRUMPY_SHORT_MEMORY, and nothing is changed. Words of the
 * report past these are left alone.
 *
 * A shift. grumpy_shift_begin, then grumpy_shift_feed as often as there is a piece of the input, then
 * grumpy_shift_finish: they call the function `pay` of a rule book once for each line, and sum up. What is
 * known so far lies in the caller's `state`, GRUMPY_SHIFT_STATE words of 64 bits, which has to be handed on as
 * it was left; there may be any number of shifts at once, each with its own. Words that no function here left
 * are read as some state: they do no harm, and what comes of them is fixed, but need not be the report of an input.
 *
 * A line is a loom in four digits, picks and rate in eight each, in hexadecimal with capitals, then a line
 * feed. A line of another shape, one without its line feed at the end, and one with picks or rate above
 * 2147483647 are bad: they are counted, and nothing is run for them. Pieces may be cut anywhere, and have any
 * length, 0 too.
 *
 *     grumpy_shift_begin     report[0] the number, report[1] the place, a byte of the book; what is wrong only with
 *                            something set under it is told at its end
 *     grumpy_shift_feed      report[0] the number
 *     grumpy_shift_finish    report[0] the number, [1] lines, [2] bad lines, [3] to [11] lines that stopped with
 *                            50 to 58, and of all other lines [12] the sum, [13] the least and [14] the largest
 *                            pay, each an (int64_t); 0 where there is none
 *
 * The book is functions only, `pay` from two ints to int among them. With `0` set under it it has to pass, or the
 * answer is its own number; one that passes and is no such book is GRUMPY_NO_BOOK; and one with no room for the
 * longest call under it, with both numbers 2147483647, GRUMPY_LONG_SOURCE or GRUMPY_MANY_TOKENS. Feed asks the book
 * anew, so book and edition have to be those of begin; `table` and `work` may be others for each piece, if they are
 * long enough. After such a refusal of feed the state is as it was; after one of begin it is that of a shift without
 * lines, but for GRUMPY_SHORT_MEMORY, which leaves it alone. With more than GRUMPY_SHIFT_LINES lines the number of
 * feed and finish is GRUMPY_MANY_LINES; the report is then that of the lines up to there, and no byte more changes
 * anything. `out` is what each line prints to, from its front on, over what the line before it left. The report
 * depends on its length, since a line can stop with GRUMPY_OUTPUT_FULL: lend as many bytes to each piece. What lies in
 * them does not matter.
 *
 * Parts. The lines of a shift may be paid in parts, by several states or on several machines, and their reports
 * combined two by two, in any order: grumpy_shift_combine takes two reports as grumpy_shift_finish writes them, of
 * GRUMPY_SHIFT_FINISH_REPORT words each, and writes that of both. Where the first part ends at a line's end it is
 * that of the whole, if they were paid by the same book with the same edition and allowance, and lent an `out` of
 * the same length. Nothing is believed of the words. In this order:
 *
 *     where [0] of one of the two is GRUMPY_NO_EDITION    the number is that, and all other words are 0
 *     where [0] of one of the two is otherwise not 0      the number is GRUMPY_MANY_LINES, all other words 0
 *     where no shift can come to one of the two           the same
 *     where [1] of both together is more than GRUMPY_SHIFT_LINES    the same
 *     else    the number is 0; [1] to [12] are those of both added; [13] and [14] are the lesser and the greater of
 *             both, of parts in which a line was paid, and 0 where none was in either
 *
 * A shift can come to a report exactly where all of this holds of its words, in numbers that do not wrap, [12] to
 * [14] each as an (int64_t):
 *
 *     [1] is at most GRUMPY_SHIFT_LINES
 *     [2] + [3] + .. + [11] is at most [1]; the lines that were paid are [1] less that sum
 *     where no line was paid, [12], [13] and [14] are 0
 *     where some were, [13] and [14] are each from -2147483648 to 2147483647, and [13] is at most [14]
 *     where some were, [14] + (paid - 1) * [13] is at most [12], and [12] is at most [13] + (paid - 1) * [14]
 *
 * By the last, the three are the same where one line was paid, and [12] is [13] + [14] where two were. These are
 * exactly the reports of some lines, each of them bad, stopped or paid an int. So it does not matter which two of
 * three reports are combined first, whatever stands in them.
 *
 * A state or report that is too short is answered with GRUMPY_SHORT_MEMORY, and nothing is changed.
 */
#ifndef GRUMPY_H
#define GRUMPY_H

#include <stdint.h>

#ifdef __cplusplus
extern "C" {
#endif

/* lent memory, in words of 32 bits, and reports, in words of 64 bits */
#define GRUMPY_TABLE 16384
#define GRUMPY_WORK 16384
#define GRUMPY_CHECK_REPORT 3
#define GRUMPY_RUN_REPORT 6
#define GRUMPY_WRITE_REPORT 3
#define GRUMPY_PROFILE_REPORT 4
#define GRUMPY_CHECK_PAIR_REPORT 6
#define GRUMPY_RUN_PAIR_REPORT 9
#define GRUMPY_SHIFT_STATE 21
#define GRUMPY_SHIFT_BEGIN_REPORT 2
#define GRUMPY_SHIFT_FEED_REPORT 1
#define GRUMPY_SHIFT_FINISH_REPORT 15

/* the editions */
#define GRUMPY_EDITION_1 1
#define GRUMPY_EDITION_2 2

/* bytes of stack that a thread which calls these functions should have, where the archive is compiled at -O2 or -O3:
 * worked out from the compiled code (tools/stack, which also sets these figures) and tried on the worst sheets that a
 * search has found, not proved. How much it is at other levels, and for a sheet of few tokens, is in
 * docs/EMBEDDING.md. */
#if defined(__x86_64__)
#define GRUMPY_STACK 393216 /* x86_64-linux-gnu */
#elif defined(__aarch64__)
#define GRUMPY_STACK 360448 /* aarch64-linux-gnu */
#elif defined(__riscv) && __riscv_xlen == 64
#define GRUMPY_STACK 425984 /* riscv64-linux-gnu */
#elif defined(__riscv)
#define GRUMPY_STACK 327680 /* riscv32-unknown-elf */
#elif defined(__s390x__)
#define GRUMPY_STACK 819200 /* s390x-linux-gnu */
#elif defined(__ARM_ARCH_PROFILE) && __ARM_ARCH_PROFILE == 'M'
#define GRUMPY_STACK 393216 /* thumbv7em-none-eabihf and thumbv7em-none-eabi */
#elif defined(__arm__)
#define GRUMPY_STACK 393216 /* armv7-linux-gnueabihf */
#elif defined(__wasm__)
#define GRUMPY_STACK 163840 /* wasm32-unknown-unknown */
#endif

/* the largest source in bytes, the longest stored form of one, the largest allowance in units, and the largest count
 * of a pay sheet */
#define GRUMPY_SOURCE 49152
#define GRUMPY_STORED 99669
#define GRUMPY_ALLOWANCE 1000000
#define GRUMPY_PAY_COUNT 1000000

/* the most lines of a shift */
#define GRUMPY_SHIFT_LINES 65536

/* the numbers */
#define GRUMPY_OK 0               /* passed, or run to a value */
#define GRUMPY_LONG_SOURCE 10     /* the source is too long */
#define GRUMPY_STRANGE_BYTE 11    /* a byte that begins no token */
#define GRUMPY_OPEN_COMMENT 12    /* a comment that is never closed */
#define GRUMPY_LARGE_NUMBER 13    /* a number that is too large to write */
#define GRUMPY_MANY_TOKENS 14     /* more than 1,360 tokens */
#define GRUMPY_LONG_FLOAT 15      /* a number with a point and more than 15 digits */
#define GRUMPY_NOT_A_PROGRAM 20   /* the tokens have no reading; the place is where it goes wrong */
#define GRUMPY_MANY_FUNCTIONS 30  /* a 33rd function, or a ninth parameter */
#define GRUMPY_DEFINED_TWICE 31   /* a function's name is taken */
#define GRUMPY_PARAMETER_TWICE 32 /* a parameter's name is taken */
#define GRUMPY_ILL_TYPED 33       /* no typing rule fits */
#define GRUMPY_MANY_REFS 34       /* a type with more than 15 ref */
#define GRUMPY_NO_BINDING 35      /* a variable with no binding */
#define GRUMPY_NO_FUNCTION 36     /* a call of a function that is not in sight */
#define GRUMPY_WRONG_NUMBER 37    /* a call with too many or too few arguments */
#define GRUMPY_SHORT_MEMORY 40    /* a lent memory or the report is too short */
#define GRUMPY_LARGE_ALLOWANCE 41 /* the allowance is too large */
#define GRUMPY_NO_EDITION 42      /* the edition is neither 1 nor 2 */
#define GRUMPY_ENDLESS 43         /* by the profile: a loop, or a call of the function itself */
#define GRUMPY_LONG_TEXT 44       /* longer than `out`, or a text longer than a source; nothing is written */
#define GRUMPY_MANY_UNITS 45      /* by the profile: more than 1,000,000 units */
#define GRUMPY_MANY_LINES 46      /* a shift of more than 65,536 lines */
#define GRUMPY_NO_BOOK 47         /* no `pay` from two ints to int, or something outside the functions */
#define GRUMPY_OUT_OF_UNITS 50    /* the allowance is used up */
#define GRUMPY_TOO_DEEP 51        /* more than 512 nodes active at once */
#define GRUMPY_OVERFLOW 52        /* an int outside 32 bits */
#define GRUMPY_DIVISION_BY_ZERO 53 /* of ints */
#define GRUMPY_FREED_CELL 54      /* a cell is used after its block has ended */
#define GRUMPY_MANY_CELLS 55      /* 1,024 cells are live already */
#define GRUMPY_NOT_A_BYTE 56      /* putchar of something outside 0 to 255 */
#define GRUMPY_OUTPUT_FULL 57     /* no room for another byte */
#define GRUMPY_ZERO_STEP 58       /* a counted loop with a step of zero */
#define GRUMPY_NOT_HEXADECIMAL 60 /* a line of a stored sheet is not whole hexadecimal; the place is the line */
#define GRUMPY_WRONG_COUNT 61     /* the count of a stored sheet is not that of its lines */
#define GRUMPY_NOT_ONE_TOKEN 62   /* a line of a stored sheet is not exactly one token */

/* the types; 8 more for each ref around one of them: 12 is a float ref, 124 the largest */
#define GRUMPY_INT 1
#define GRUMPY_BOOL 2
#define GRUMPY_UNIT 3
#define GRUMPY_FLOAT 4
#define GRUMPY_REF 8

/* Reads and checks a sheet. */
uint32_t grumpy_check(uint32_t edition,
                      const uint8_t *source, uint64_t source_length,
                      uint32_t *table, uint64_t table_length,
                      uint64_t *report, uint64_t report_length);

/* Reads and checks a sheet, and runs it if it passes. */
uint32_t grumpy_run(uint32_t edition,
                    const uint8_t *source, uint64_t source_length,
                    uint32_t *table, uint64_t table_length,
                    uint32_t *work, uint64_t work_length,
                    uint8_t *out, uint64_t out_length,
                    uint64_t allowance,
                    uint64_t *report, uint64_t report_length);

/* Reads and checks a sheet, and writes it out again if it passes: its tokens as they are spelled, one space
 * between every two, a line feed at the end and no comments. An `out` of GRUMPY_SOURCE bytes is as much as
 * is ever of use. What is written is a sheet with the same meaning; written again it is itself. */
uint32_t grumpy_write(uint32_t edition,
                      const uint8_t *source, uint64_t source_length,
                      uint32_t *table, uint64_t table_length,
                      uint8_t *out, uint64_t out_length,
                      uint64_t *report, uint64_t report_length);

/* Reads and checks a sheet, and counts the units that it can use at most, if it must finish. */
uint32_t grumpy_profile(uint32_t edition,
                        const uint8_t *source, uint64_t source_length,
                        uint32_t *table, uint64_t table_length,
                        uint64_t *report, uint64_t report_length);

/* Reads and checks a sheet, and writes its stored form if it passes: lines of hexadecimal, capitals, each with
 * its line feed, first the count of its tokens in four digits and then each token as it is spelled. An `out` of
 * GRUMPY_STORED bytes is as much as is ever of use. */
uint32_t grumpy_store(uint32_t edition,
                      const uint8_t *source, uint64_t source_length,
                      uint32_t *table, uint64_t table_length,
                      uint8_t *out, uint64_t out_length,
                      uint64_t *report, uint64_t report_length);

/* Check and run of a stored sheet. */
uint32_t grumpy_check_stored(uint32_t edition,
                             const uint8_t *stored, uint64_t stored_length,
                             uint32_t *table, uint64_t table_length,
                             uint64_t *report, uint64_t report_length);

uint32_t grumpy_run_stored(uint32_t edition,
                           const uint8_t *stored, uint64_t stored_length,
                           uint32_t *table, uint64_t table_length,
                           uint32_t *work, uint64_t work_length,
                           uint8_t *out, uint64_t out_length,
                           uint64_t allowance,
                           uint64_t *report, uint64_t report_length);

/* Check and run of two sheets, read as one. */
uint32_t grumpy_check_pair(uint32_t edition,
                           const uint8_t *first, uint64_t first_length,
                           const uint8_t *second, uint64_t second_length,
                           uint32_t *table, uint64_t table_length,
                           uint64_t *report, uint64_t report_length);

uint32_t grumpy_run_pair(uint32_t edition,
                         const uint8_t *first, uint64_t first_length,
                         const uint8_t *second, uint64_t second_length,
                         uint32_t *table, uint64_t table_length,
                         uint32_t *work, uint64_t work_length,
                         uint8_t *out, uint64_t out_length,
                         uint64_t allowance,
                         uint64_t *report, uint64_t report_length);

/* Begins a shift: asks whether the book will do, and sets the state. `allowance` is what each line may use. */
uint32_t grumpy_shift_begin(uint32_t edition,
                            const uint8_t *book, uint64_t book_length,
                            uint32_t *table, uint64_t table_length,
                            uint32_t *work, uint64_t work_length,
                            uint64_t allowance,
                            uint64_t *state, uint64_t state_length,
                            uint64_t *report, uint64_t report_length);

/* One piece more of the input. */
uint32_t grumpy_shift_feed(uint32_t edition,
                           const uint8_t *book, uint64_t book_length,
                           const uint8_t *piece, uint64_t piece_length,
                           uint32_t *table, uint64_t table_length,
                           uint32_t *work, uint64_t work_length,
                           uint8_t *out, uint64_t out_length,
                           uint64_t *state, uint64_t state_length,
                           uint64_t *report, uint64_t report_length);

/* The report of what was fed. The state stays as it is: what is fed after it goes on from there. */
uint32_t grumpy_shift_finish(uint32_t edition,
                             const uint64_t *state, uint64_t state_length,
                             uint64_t *report, uint64_t report_length);

/* The report of two parts together. It reads no sheet, and so takes no edition. */
uint32_t grumpy_shift_combine(const uint64_t *first, uint64_t first_length,
                              const uint64_t *second, uint64_t second_length,
                              uint64_t *report, uint64_t report_length);

#ifdef __cplusplus
}
#endif

#endif
