/* What a unit costs on a Cortex-M4, in instructions: a sheet out of read-only memory is run with an allowance of 0 and
 * with the whole one, and the difference divided by the units. Under QEMU with `-icount shift=0` an instruction takes a
 * nanosecond of the board's time, which SysTick counts; how many go to a tick is found by a loop of known length. */
#include "board.h"
#include "grumpy.h"

#define LOOP 2000000u

extern const uint8_t sheet[], sheet_end[];

static uint32_t table[GRUMPY_TABLE];
static uint32_t work[GRUMPY_WORK];
static uint8_t out[65536];
static uint64_t report[GRUMPY_RUN_REPORT];

static volatile uint32_t *const systick = (volatile uint32_t *)0xE000E010;

/* It counts down from 24 bits, which is enough for 600 million instructions. */
static void begin(void) {
  systick[1] = 0xFFFFFF;
  systick[2] = 0;
  systick[0] = 5;
}

static uint32_t ticks(void) { return 0xFFFFFF - systick[2]; }

static uint32_t loop_ticks(void) {
  uint32_t n = LOOP;
  begin();
  __asm__ volatile("1: subs %0, %0, #1\n bne 1b" : "+r"(n) : : "cc");
  return ticks();
}

static uint32_t run_ticks(uint64_t allowance) {
  begin();
  grumpy_run(GRUMPY_EDITION_2, sheet, (uint64_t)(sheet_end - sheet), table, GRUMPY_TABLE, work, GRUMPY_WORK, out,
             sizeof out, allowance, report, GRUMPY_RUN_REPORT);
  return ticks();
}

static void say_number(const char *name, uint32_t number) {
  char line[48];
  uint32_t at = sizeof line, length = 0;
  line[--at] = '\n';
  do line[--at] = (char)('0' + number % 10);
  while (number /= 10);
  while (name[length]) length++;
  board_write(BOARD_OUT, (const uint8_t *)name, length);
  board_write(BOARD_OUT, (const uint8_t *)line + at, sizeof line - at);
}

int board_main(void) {
  uint32_t loop = loop_ticks(), none = run_ticks(0), whole = run_ticks(GRUMPY_ALLOWANCE);
  say_number("number ", (uint32_t)report[0]);
  say_number("units ", (uint32_t)report[4]);
  say_number("check ", (uint32_t)((uint64_t)none * 2 * LOOP / loop));
  say_number("run ", (uint32_t)((uint64_t)(whole - none) * 2 * LOOP / loop));
  return 0;
}
