/* The box's side of the bench: one sheet, run again and again by the clock.
 *
 *     box SHEET ALLOWANCE REPEATS   value, units, bytes printed, and the nanoseconds of the shortest run
 *     box SHEET ALLOWANCE print     what the sheet prints, and its value on a line under it
 *     box SHEET ALLOWANCE check     checks the sheet once, and does not run it
 *
 * A sheet that is refused or does not come to a value ends it with a complaint: half a run is no measure.
 */
#define _POSIX_C_SOURCE 200809L
#include <inttypes.h>
#include <stdio.h>
#include <stdlib.h>
#include <string.h>
#include <time.h>

#include "grumpy.h"

static uint32_t table[GRUMPY_TABLE];
static uint32_t work[GRUMPY_WORK];
static uint8_t out[1 << 16];
static uint8_t sheet[GRUMPY_SOURCE + 1];
static uint64_t report[GRUMPY_RUN_REPORT];

static uint64_t now(void) {
  struct timespec t;
  clock_gettime(CLOCK_MONOTONIC, &t);
  return (uint64_t)t.tv_sec * 1000000000u + (uint64_t)t.tv_nsec;
}

/* Ends with a complaint, unless the sheet passed or came to a value. */
static void fine(const char *name, uint32_t number) {
  if (number == GRUMPY_OK) return;
  fprintf(stderr, "%s: number %" PRIu32 " at byte %" PRIu64 "\n", name, number, report[1]);
  exit(1);
}

/* Runs the sheet once; the nanoseconds it took. */
static uint64_t run(const char *name, size_t length, uint64_t allowance) {
  uint64_t began = now();
  uint32_t number = grumpy_run(GRUMPY_EDITION_1, sheet, length, table, GRUMPY_TABLE, work, GRUMPY_WORK, out,
                               sizeof out, allowance, report, GRUMPY_RUN_REPORT);
  uint64_t took = now() - began;
  fine(name, number);
  return took;
}

int main(int count, char **words) {
  if (count != 4) {
    fprintf(stderr, "use: box SHEET ALLOWANCE REPEATS|print|check\n");
    return 2;
  }
  FILE *file = fopen(words[1], "rb");
  if (!file) {
    perror(words[1]);
    return 2;
  }
  size_t length = fread(sheet, 1, sizeof sheet, file);
  fclose(file);

  if (strcmp(words[3], "check") == 0) {
    fine(words[1],
         grumpy_check(GRUMPY_EDITION_1, sheet, length, table, GRUMPY_TABLE, report, GRUMPY_CHECK_REPORT));
    return 0;
  }
  uint64_t allowance = strtoull(words[2], NULL, 10);
  uint64_t best = run(words[1], length, allowance);
  if (strcmp(words[3], "print") == 0) {
    fwrite(out, 1, report[5], stdout);
    printf("\n%" PRId64 "\n", (int64_t)report[3]);
    return 0;
  }
  for (unsigned long left = strtoul(words[3], NULL, 10); left > 1; left--) {
    uint64_t took = run(words[1], length, allowance);
    if (took < best) best = took;
  }
  printf("value=%" PRId64 " units=%" PRIu64 " printed=%" PRIu64 " ns=%" PRIu64 "\n", (int64_t)report[3],
         report[4], report[5], best);
  return 0;
}
