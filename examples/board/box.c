/* A counter box on a bare Cortex-M4. Its rate sheet lies in read-only memory; it is given picks and rate, sets
 * pay(PICKS,RATE) under the sheet, runs it, prints the slip, and tells the value that goes into the wage book. There is
 * no C library but what the compiler itself asks for.
 *
 *     box PICKS RATE
 *
 * The slip goes to standard output and the rest to standard error. The status is 0 where the shift is paid, 1 where the
 * sheet is refused or stopped, and 2 where the words do not serve.
 */
#include "board.h"
#include "grumpy.h"

/* the edition in which the shed writes its sheets */
#define EDITION GRUMPY_EDITION_1

/* the largest number that a sheet, and so a call, can have */
#define LARGEST 2147483647u

extern const uint8_t sheet[], sheet_end[];

static uint32_t table[GRUMPY_TABLE];
static uint32_t work[GRUMPY_WORK];
static uint8_t slip[1024];

static void say(const char *text) {
  uint32_t length = 0;
  while (text[length]) length++;
  board_write(BOARD_ERR, (const uint8_t *)text, length);
}

/* The digits of a number, and behind them a 0; where they begin. */
static char *decimal(uint32_t number, char digits[11]) {
  char *at = digits + 10;
  *at = 0;
  do *--at = (char)('0' + number % 10);
  while (number /= 10);
  return at;
}

static void say_number(const char *before, uint32_t number, const char *behind) {
  char digits[11];
  say(before);
  say(decimal(number, digits));
  say(behind);
}

/* A word becomes part of a program, so it is read as a number first. Digits only, so there is no sign. Where the number
 * ends is told, or 0 where there is none. */
static const char *parse(const char *word, uint32_t *number) {
  uint32_t n = 0, digit;
  if (*word < '0' || '9' < *word) return 0;
  for (; '0' <= *word && *word <= '9'; word++) {
    digit = (uint32_t)(*word - '0');
    if ((LARGEST - digit) / 10 < n) return 0;
    n = 10 * n + digit;
  }
  *number = n;
  return word;
}

/* The words are the program's name, the picks and the rate. */
static int asked(uint32_t *picks, uint32_t *rate) {
  char words[64];
  const char *at = words;
  if (!board_words(words, sizeof words)) return 0;
  while (*at && *at != ' ') at++;
  if (*at++ != ' ' || !(at = parse(at, picks)) || *at++ != ' ') return 0;
  return (at = parse(at, rate)) && *at == 0;
}

static uint32_t put(char *call, uint32_t at, const char *text) {
  while (*text) call[at++] = *text++;
  return at;
}

static uint32_t make_call(char *call, uint32_t picks, uint32_t rate) {
  char digits[11];
  uint32_t at = put(call, 0, "pay(");
  at = put(call, at, decimal(picks, digits));
  at = put(call, at, ",");
  at = put(call, at, decimal(rate, digits));
  return put(call, at, ")");
}

static void say_value(int64_t value) {
  say_number(value < 0 ? "wage book: -" : "wage book: ", (uint32_t)(value < 0 ? -value : value), "\n");
}

/* What the box answered, with the line of the sheet around the place; of two sheets the second is the call. */
static int refuse(uint32_t number, const uint64_t *report, const uint64_t *spot) {
  say_number("not paid: number ", number, "");
  if (spot[0] == 2) {
    say(" in the call\n");
  } else {
    say_number(" at byte ", (uint32_t)report[1], "\n");
    board_write(BOARD_ERR, sheet + spot[1], (uint32_t)(spot[2] - spot[1]));
    say("\n");
  }
  return 1;
}

static int pay(const uint8_t *call, uint32_t length) {
  uint64_t report[GRUMPY_RUN_PAIR_REPORT];
  const uint32_t own = (uint32_t)(sheet_end - sheet);
  uint32_t number =
      grumpy_check_pair(EDITION, sheet, own, call, length, table, GRUMPY_TABLE, report, GRUMPY_CHECK_PAIR_REPORT);
  if (number != GRUMPY_OK) return refuse(number, report, report + GRUMPY_CHECK_REPORT);
  if (report[2] != GRUMPY_INT) {
    say_number("not paid: what pay gives is of type ", (uint32_t)report[2], ", and a wage is an int\n");
    return 1;
  }
  number = grumpy_run_pair(EDITION, sheet, own, call, length, table, GRUMPY_TABLE, work, GRUMPY_WORK, slip, sizeof slip,
                           GRUMPY_ALLOWANCE, report, GRUMPY_RUN_PAIR_REPORT);
  board_write(BOARD_OUT, slip, (uint32_t)report[5]);
  say_number("units ", (uint32_t)report[4], "\n");
  if (number != GRUMPY_OK) return refuse(number, report, report + GRUMPY_RUN_REPORT);
  say_value((int64_t)report[3]);
  return 0;
}

int board_main(void) {
  static char call[sizeof "pay(2147483647,2147483647)"];
  uint32_t picks, rate;
  if (!asked(&picks, &rate)) {
    say("use: box PICKS RATE, which are numbers from 0 to 2147483647\n");
    return 2;
  }
  return pay((const uint8_t *)call, make_call(call, picks, rate));
}
