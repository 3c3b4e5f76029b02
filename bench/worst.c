/* One call of the box, for bench/worst, which counts its instructions.
 *
 *     worst check SHEET             grumpy_check; what it answered
 *     worst run SHEET ALLOWANCE     grumpy_run; what it answered, and the units used
 *     worst stored FILE             grumpy_check_stored; what it answered
 *     worst shift BOOK LINES        grumpy_shift_feed of all lines at once; what it answered
 */
#include <inttypes.h>
#include <stdio.h>
#include <stdlib.h>
#include <string.h>

#include "grumpy.h"

#define EDITION GRUMPY_EDITION_2

static uint32_t table[GRUMPY_TABLE];
static uint32_t work[GRUMPY_WORK];
static uint8_t out[1 << 16];
static uint8_t first[GRUMPY_STORED + 1];
static uint8_t second[1 << 22];
static uint64_t state[GRUMPY_SHIFT_STATE];
static uint64_t report[GRUMPY_RUN_REPORT];

static size_t load(const char *name, uint8_t *into, size_t room) {
  FILE *file = fopen(name, "rb");
  if (!file) {
    perror(name);
    exit(2);
  }
  size_t length = fread(into, 1, room, file);
  fclose(file);
  return length;
}

int main(int count, char **words) {
  if (count < 3) {
    fprintf(stderr, "use: worst check|run|stored|shift FILE [WORD]\n");
    return 2;
  }
  size_t length = load(words[2], first, sizeof first);
  uint32_t number;
  uint64_t units = 0;
  if (strcmp(words[1], "check") == 0) {
    number = grumpy_check(EDITION, first, length, table, GRUMPY_TABLE, report, GRUMPY_CHECK_REPORT);
  } else if (strcmp(words[1], "stored") == 0) {
    number = grumpy_check_stored(EDITION, first, length, table, GRUMPY_TABLE, report, GRUMPY_CHECK_REPORT);
  } else if (strcmp(words[1], "run") == 0 && count == 4) {
    number = grumpy_run(EDITION, first, length, table, GRUMPY_TABLE, work, GRUMPY_WORK, out, sizeof out,
                        strtoull(words[3], NULL, 10), report, GRUMPY_RUN_REPORT);
    units = report[4];
  } else if (strcmp(words[1], "shift") == 0 && count == 4) {
    size_t lines = load(words[3], second, sizeof second);
    number = grumpy_shift_begin(EDITION, first, length, table, GRUMPY_TABLE, work, GRUMPY_WORK, GRUMPY_ALLOWANCE,
                                state, GRUMPY_SHIFT_STATE, report, GRUMPY_SHIFT_BEGIN_REPORT);
    if (number == GRUMPY_OK) {
      number = grumpy_shift_feed(EDITION, first, length, second, lines, table, GRUMPY_TABLE, work, GRUMPY_WORK, out,
                                 sizeof out, state, GRUMPY_SHIFT_STATE, report, GRUMPY_SHIFT_FEED_REPORT);
    }
  } else {
    fprintf(stderr, "worst: unknown words\n");
    return 2;
  }
  printf("number=%" PRIu32 " units=%" PRIu64 "\n", number, units);
  return 0;
}
