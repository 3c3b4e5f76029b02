/* A gate in small: of a whole sheet that comes in it says how many units it can use at most, if it must finish.
 *
 *     count SHEET
 *
 * Number, place, type and count go to standard output. The status is 0 where the sheet passes the profile, 1 where
 * it is refused, and 2 where it cannot be read.
 */
#include <inttypes.h>
#include <stdio.h>

#include "grumpy.h"

static uint32_t table[GRUMPY_TABLE];
static uint8_t sheet[GRUMPY_SOURCE + 1];

int main(int count, char **words) {
  uint64_t report[GRUMPY_PROFILE_REPORT];
  if (count != 2) {
    fprintf(stderr, "use: count SHEET\n");
    return 2;
  }
  FILE *file = fopen(words[1], "rb");
  if (!file) {
    perror(words[1]);
    return 2;
  }
  size_t length = fread(sheet, 1, sizeof sheet, file);
  fclose(file);

  /* a report that is too short is told, and nothing is changed */
  if (grumpy_profile(GRUMPY_EDITION_1, sheet, length, table, GRUMPY_TABLE, report, GRUMPY_PROFILE_REPORT - 1) !=
      GRUMPY_SHORT_MEMORY)
    return 2;
  uint32_t number =
      grumpy_profile(GRUMPY_EDITION_1, sheet, length, table, GRUMPY_TABLE, report, GRUMPY_PROFILE_REPORT);
  printf("number %" PRIu64 "\nplace %" PRIu64 "\n", report[0], report[1]);
  printf("type %" PRIu64 "\ncount %" PRIu64 "\n", report[2], report[3]);
  return number == GRUMPY_OK ? 0 : 1;
}
