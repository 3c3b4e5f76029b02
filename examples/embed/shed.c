/* The report of a shed: the looms of a shift, a line each, paid by one rule book.
 *
 *     shed BOOK LINES..
 *
 * The lines are read in pieces, so there is no need to hold them all, nor to look for their ends. Each file is a part
 * of the shift, as of a hall, with a report of its own; the reports are combined. The report goes to standard output,
 * everything else to standard error. The status is 0 where there is a report of all lines, 1 where the book is refused
 * or there are too many lines, and 2 where something cannot be read or written.
 */
#include <errno.h>
#include <inttypes.h>
#include <stdbool.h>
#include <stdio.h>
#include <string.h>

#include "grumpy.h"

/* the edition in which the shed writes its books */
#define EDITION GRUMPY_EDITION_1

static uint32_t table[GRUMPY_TABLE];
static uint32_t work[GRUMPY_WORK];
static uint64_t state[GRUMPY_SHIFT_STATE];
static uint8_t slip[4096];
static uint8_t book[GRUMPY_SOURCE + 1];
static uint8_t piece[4096];
static uint64_t report[GRUMPY_SHIFT_FINISH_REPORT];

/* Reads the book; -1 where that cannot be done. One byte more than it may have is enough to see that it is too
 * long: the box says so. */
static long load(const char *name) {
  FILE *file = fopen(name, "rb");
  if (!file) return -1;
  errno = 0;
  size_t n = fread(book, 1, sizeof book, file);
  bool failed = ferror(file) != 0;
  int why = errno;
  fclose(file);
  errno = why;
  return failed ? -1 : (long)n;
}

/* Feeds the whole file. The number of the last piece, or of the first that is refused; after a line too many no
 * byte more matters. */
static uint32_t feed(size_t length, FILE *lines) {
  uint64_t fed[GRUMPY_SHIFT_FEED_REPORT];
  uint32_t number = GRUMPY_OK;
  size_t n;
  while (number == GRUMPY_OK && (n = fread(piece, 1, sizeof piece, lines)) > 0) {
    number = grumpy_shift_feed(EDITION, book, length, piece, n, table, GRUMPY_TABLE, work, GRUMPY_WORK, slip,
                               sizeof slip, state, GRUMPY_SHIFT_STATE, fed, GRUMPY_SHIFT_FEED_REPORT);
  }
  return number;
}

/* The report of the first part, or of those before and this one. */
static void add(bool first) {
  uint64_t before[GRUMPY_SHIFT_FINISH_REPORT];
  uint64_t part[GRUMPY_SHIFT_FINISH_REPORT];
  memcpy(before, report, sizeof before);
  grumpy_shift_finish(EDITION, state, GRUMPY_SHIFT_STATE, part, GRUMPY_SHIFT_FINISH_REPORT);
  if (first) {
    memcpy(report, part, sizeof report);
  } else {
    grumpy_shift_combine(before, GRUMPY_SHIFT_FINISH_REPORT, part, GRUMPY_SHIFT_FINISH_REPORT, report,
                         GRUMPY_SHIFT_FINISH_REPORT);
  }
}

/* The report; a stop that no line had is not told. Of parts that have too many lines together there are no sums. */
static int tell(bool parts) {
  if (parts && report[0] != GRUMPY_OK) {
    fprintf(stderr, "no report: number %" PRIu64 ", the parts have too many lines together\n", report[0]);
    return 1;
  }
  printf("lines %" PRIu64 "\nbad %" PRIu64 "\n", report[1], report[2]);
  for (int stop = 0; stop < 9; stop++) {
    if (report[3 + stop] > 0) printf("stopped with %d: %" PRIu64 "\n", GRUMPY_OUT_OF_UNITS + stop, report[3 + stop]);
  }
  printf("sum %" PRId64 "\n", (int64_t)report[12]);
  printf("least %" PRId64 "\nlargest %" PRId64 "\n", (int64_t)report[13], (int64_t)report[14]);
  if (fflush(stdout) != 0) {
    perror("standard output");
    return 2;
  }
  if (report[0] != GRUMPY_OK) {
    fprintf(stderr, "number %" PRIu64 ": there are more lines, which are not in the report\n", report[0]);
    return 1;
  }
  return 0;
}

static int shift(size_t length, const char *name, FILE *lines) {
  uint64_t begun[GRUMPY_SHIFT_BEGIN_REPORT];
  uint32_t number = grumpy_shift_begin(EDITION, book, length, table, GRUMPY_TABLE, work, GRUMPY_WORK, GRUMPY_ALLOWANCE,
                                       state, GRUMPY_SHIFT_STATE, begun, GRUMPY_SHIFT_BEGIN_REPORT);
  if (number == GRUMPY_OK) number = feed(length, lines);
  if (number != GRUMPY_OK && number != GRUMPY_MANY_LINES) {
    fprintf(stderr, "no report: number %" PRIu32 " at byte %" PRIu64 " of the book\n", number, begun[1]);
    return 1;
  }
  if (ferror(lines)) {
    perror(name);
    return 2;
  }
  return 0;
}

/* One part more, from its file. */
static int pay(size_t length, const char *name, bool first) {
  FILE *lines = fopen(name, "rb");
  if (!lines) {
    perror(name);
    return 2;
  }
  int status = shift(length, name, lines);
  fclose(lines);
  if (status == 0) add(first);
  return status;
}

int main(int count, char **words) {
  if (count < 3) {
    fprintf(stderr, "use: shed BOOK LINES..\n");
    return 2;
  }
  long length = load(words[1]);
  if (length < 0) {
    perror(words[1]);
    return 2;
  }
  for (int i = 2; i < count; i++) {
    int status = pay((size_t)length, words[i], i == 2);
    if (status != 0) return status;
  }
  return tell(count > 3);
}
