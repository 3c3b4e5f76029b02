/* A box in small: it sets the call of a shift under a rate sheet, as a second sheet, checks and runs the two,
 * prints the slip and says what goes into the wage book.
 *
 *     box SHEET PICKS RATE
 *
 * The slip goes to standard output, everything else to standard error. The status is 0 where the shift is
 * paid, 1 where the sheet is refused or stopped, and 2 where the words do not serve or something cannot be
 * read or written.
 */
#include <errno.h>
#include <inttypes.h>
#include <stdbool.h>
#include <stdio.h>
#include <string.h>

#include "grumpy.h"

/* the edition in which the shed writes its sheets */
#define EDITION GRUMPY_EDITION_1

/* the largest number that a sheet, and so a call, can have */
#define LARGEST 2147483647u

static uint32_t table[GRUMPY_TABLE];
static uint32_t work[GRUMPY_WORK];
static uint8_t slip[4096];
static uint8_t sheet[GRUMPY_SOURCE + 1];

/* the call, with room for its longest and the 0 that C puts behind it */
static char call[sizeof "pay(2147483647,2147483647)"];

/* A word becomes part of a program, so it is read as a number first: pasted as it is, `1)+pay(1` would be a
 * call that nobody meant. Digits only, so there is no sign. */
static bool parse(const char *word, uint32_t *number) {
  uint32_t n = 0;
  if (*word == '\0') return false;
  for (; *word != '\0'; word++) {
    if (*word < '0' || '9' < *word) return false;
    uint32_t digit = (uint32_t)(*word - '0');
    if ((LARGEST - digit) / 10 < n) return false;
    n = 10 * n + digit;
  }
  *number = n;
  return true;
}

/* Reads the sheet; -1 where that cannot be done. One byte more than it may have is enough to see that it is
 * too long: the box says so. */
static long load(const char *name) {
  FILE *file = fopen(name, "rb");
  if (!file) return -1;
  errno = 0;
  size_t n = fread(sheet, 1, GRUMPY_SOURCE + 1, file);
  bool failed = ferror(file) != 0;
  int why = errno;
  fclose(file);
  errno = why;
  return failed ? -1 : (long)n;
}

/* What the box answered, with the line of the sheet that it tells. `spot` is the part of a report that two sheets
 * have besides: the sheet, and where its line begins and ends. Sheet 2 is the call, which the clerk did not write. */
static int refuse(uint32_t number, uint64_t place, const uint64_t *spot) {
  fprintf(stderr, "not paid: number %" PRIu32, number);
  if (number == GRUMPY_LONG_SOURCE) {
    fprintf(stderr, ", the sheet with its call is too long\n");
  } else if (spot[0] == 2) {
    fprintf(stderr, " in the call %s\n", call);
  } else {
    fprintf(stderr, " at byte %" PRIu64 "\n", place);
    fwrite(sheet + spot[1], 1, spot[2] - spot[1], stderr);
    fputc('\n', stderr);
  }
  return 1;
}

static void tell(const uint64_t *report) {
  fprintf(stderr, "number %" PRIu64 "\nplace %" PRIu64 "\ntype %" PRIu64 "\n", report[0], report[1], report[2]);
  fprintf(stderr, "value %" PRId64 "\n", (int64_t)report[3]);
  fprintf(stderr, "units %" PRIu64 "\nprinted %" PRIu64 "\n", report[4], report[5]);
}

static int pay(size_t own, uint32_t picks, uint32_t rate) {
  uint64_t report[GRUMPY_RUN_PAIR_REPORT];
  size_t length = (size_t)sprintf(call, "pay(%" PRIu32 ",%" PRIu32 ")", picks, rate);
  const uint8_t *second = (const uint8_t *)call;

  /* A sheet that passes may still give something else than an int, and its value would be booked as one. */
  uint32_t number =
      grumpy_check_pair(EDITION, sheet, own, second, length, table, GRUMPY_TABLE, report, GRUMPY_CHECK_PAIR_REPORT);
  if (number != GRUMPY_OK) return refuse(number, report[1], report + GRUMPY_CHECK_REPORT);
  if (report[2] != GRUMPY_INT) {
    fprintf(stderr, "not paid: what pay gives is of type %" PRIu64 ", and a wage is an int\n", report[2]);
    return 1;
  }

  number = grumpy_run_pair(EDITION, sheet, own, second, length, table, GRUMPY_TABLE, work, GRUMPY_WORK, slip,
                           sizeof slip, GRUMPY_ALLOWANCE, report, GRUMPY_RUN_PAIR_REPORT);
  if (fwrite(slip, 1, report[5], stdout) != report[5] || fflush(stdout) != 0) {
    perror("standard output");
    return 2;
  }
  tell(report);
  if (number != GRUMPY_OK) return refuse(number, report[1], report + GRUMPY_RUN_REPORT);
  fprintf(stderr, "wage book: %" PRId64 "\n", (int64_t)report[3]);
  return 0;
}

int main(int count, char **words) {
  uint32_t picks, rate;
  if (count != 4) {
    fprintf(stderr, "use: box SHEET PICKS RATE\n");
    return 2;
  }
  if (!parse(words[2], &picks) || !parse(words[3], &rate)) {
    fprintf(stderr, "PICKS and RATE are numbers from 0 to %u\n", LARGEST);
    return 2;
  }
  long own = load(words[1]);
  if (own < 0) {
    perror(words[1]);
    return 2;
  }
  return pay((size_t)own, picks, rate);
}
