/* Lengths that no memory has: what read() answers where it fails, -1, is 2^64-1 as a size_t, and with the length of a
 * second sheet it wraps to a small number. A sheet over its size is GRUMPY_LONG_SOURCE at 0 whatever it is over by, and
 * none of its bytes is looked at; what comes before that in the table's order comes before it here.
 *
 *     lengths
 *
 * A line for each service. The status is 0 where all is as it should be, and else 1.
 */
#include <inttypes.h>
#include <stdbool.h>
#include <stdint.h>
#include <stdio.h>
#include <string.h>

#include "grumpy.h"

#define EDITION GRUMPY_EDITION_1
#define NO_EDITION 3u

static uint32_t table[GRUMPY_TABLE];
static uint32_t work[GRUMPY_WORK];
static uint64_t state[GRUMPY_SHIFT_STATE];
static uint64_t report[GRUMPY_SHIFT_FINISH_REPORT];
static uint8_t out[16];
static const uint8_t one[] = "def pay(p:int,r:int):int{p}";
static const uint8_t two[] = "pay(1,2)";
static bool wrong;

/* Lengths over a sheet's size, those that wrap to nearly nothing among them. */
static const size_t LONG[] = {SIZE_MAX, SIZE_MAX - 1, SIZE_MAX - sizeof two, SIZE_MAX / 2 + 1, SIZE_MAX / 2,
                              GRUMPY_SOURCE + 1};
#define MANY (sizeof LONG / sizeof *LONG)

static void expect(uint32_t number, uint32_t wanted) {
  if (number == wanted && report[0] == wanted && report[1] == 0) return;
  wrong = true;
  printf("  number %" PRIu32 " at %" PRIu64 ", and not %" PRIu32 " at 0\n", number, report[1], wanted);
}

static uint32_t check_pair(uint32_t edition, size_t a, size_t b, size_t room) {
  return grumpy_check_pair(edition, one, a, two, b, table, room, report, GRUMPY_CHECK_PAIR_REPORT);
}

static uint32_t run_pair(uint32_t edition, size_t a, size_t b, size_t room, uint64_t allowance) {
  return grumpy_run_pair(edition, one, a, two, b, table, room, work, GRUMPY_WORK, out, sizeof out, allowance, report,
                         GRUMPY_RUN_PAIR_REPORT);
}

/* One of two sheets is too long, or both are; and what is told before that. */
static void pairs(void) {
  size_t a = sizeof one - 1, b = sizeof two - 1;
  for (size_t i = 0; i < MANY; i++) {
    expect(check_pair(EDITION, LONG[i], b, GRUMPY_TABLE), GRUMPY_LONG_SOURCE);
    expect(check_pair(EDITION, a, LONG[i], GRUMPY_TABLE), GRUMPY_LONG_SOURCE);
    expect(run_pair(EDITION, LONG[i], b, GRUMPY_TABLE, GRUMPY_ALLOWANCE), GRUMPY_LONG_SOURCE);
    expect(run_pair(EDITION, a, LONG[i], GRUMPY_TABLE, GRUMPY_ALLOWANCE), GRUMPY_LONG_SOURCE);
    for (size_t j = 0; j < MANY; j++) {
      expect(check_pair(EDITION, LONG[i], LONG[j], GRUMPY_TABLE), GRUMPY_LONG_SOURCE);
      expect(run_pair(EDITION, LONG[i], LONG[j], GRUMPY_TABLE, GRUMPY_ALLOWANCE), GRUMPY_LONG_SOURCE);
    }
    expect(check_pair(EDITION, LONG[i], b, GRUMPY_TABLE - 1), GRUMPY_SHORT_MEMORY);
    expect(check_pair(NO_EDITION, LONG[i], b, GRUMPY_TABLE), GRUMPY_NO_EDITION);
    expect(run_pair(NO_EDITION, LONG[i], b, GRUMPY_TABLE - 1, GRUMPY_ALLOWANCE + 1), GRUMPY_SHORT_MEMORY);
    expect(run_pair(NO_EDITION, LONG[i], b, GRUMPY_TABLE, GRUMPY_ALLOWANCE + 1), GRUMPY_LARGE_ALLOWANCE);
    expect(run_pair(NO_EDITION, LONG[i], b, GRUMPY_TABLE, GRUMPY_ALLOWANCE), GRUMPY_NO_EDITION);
  }
  /* and with the lengths that they have the two are paid */
  expect(run_pair(EDITION, a, b, GRUMPY_TABLE, GRUMPY_ALLOWANCE), GRUMPY_OK);
  printf("two sheets\n");
}

static void sheets(void) {
  for (size_t i = 0; i < MANY; i++) {
    expect(grumpy_check(EDITION, one, LONG[i], table, GRUMPY_TABLE, report, GRUMPY_CHECK_REPORT), GRUMPY_LONG_SOURCE);
    expect(grumpy_run(EDITION, one, LONG[i], table, GRUMPY_TABLE, work, GRUMPY_WORK, out, sizeof out, GRUMPY_ALLOWANCE,
                      report, GRUMPY_RUN_REPORT),
           GRUMPY_LONG_SOURCE);
    expect(grumpy_write(EDITION, one, LONG[i], table, GRUMPY_TABLE, out, sizeof out, report, GRUMPY_WRITE_REPORT),
           GRUMPY_LONG_SOURCE);
    expect(grumpy_store(EDITION, one, LONG[i], table, GRUMPY_TABLE, out, sizeof out, report, GRUMPY_WRITE_REPORT),
           GRUMPY_LONG_SOURCE);
    expect(grumpy_profile(EDITION, one, LONG[i], table, GRUMPY_TABLE, report, GRUMPY_PROFILE_REPORT),
           GRUMPY_LONG_SOURCE);
  }
  printf("one sheet\n");
}

/* A book, under which a call is set. */
static void books(void) {
  for (size_t i = 0; i < MANY; i++) {
    expect(grumpy_shift_begin(EDITION, one, LONG[i], table, GRUMPY_TABLE, work, GRUMPY_WORK, GRUMPY_ALLOWANCE, state,
                              GRUMPY_SHIFT_STATE, report, GRUMPY_SHIFT_BEGIN_REPORT),
           GRUMPY_LONG_SOURCE);
    report[1] = 0;
    expect(grumpy_shift_feed(EDITION, one, LONG[i], two, 0, table, GRUMPY_TABLE, work, GRUMPY_WORK, out, sizeof out,
                             state, GRUMPY_SHIFT_STATE, report, GRUMPY_SHIFT_FEED_REPORT),
           GRUMPY_LONG_SOURCE);
  }
  printf("a book\n");
}

int main(void) {
  pairs();
  sheets();
  books();
  return wrong;
}
