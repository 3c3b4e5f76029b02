/* How much of a painted stack the deepest sheets take: each kind of node in itself as often as tokens allow. */
#include "cases.h"

#define PAINTED (UINT32_C(1920) << 10)
#define PAINT 0xC7
/* what the painter and the call itself have below the mark */
#define SPARED 256

static uint32_t taken;

__attribute__((noinline)) static void paint(uintptr_t top) {
  volatile uint8_t *at = (volatile uint8_t *)(top - SPARED), *end = (volatile uint8_t *)(top - PAINTED);
  while (at > end) *--at = PAINT;
}

__attribute__((noinline)) static void look(uintptr_t top) {
  volatile uint8_t *at = (volatile uint8_t *)(top - PAINTED);
  while (*at == PAINT) at++;
  taken = (uint32_t)(top - (uintptr_t)at);
}

enum { CHECK, RUN_PAIR, SHIFT_FEED, SERVICES };

__attribute__((noinline)) static uint32_t painted_call(int service) {
  static const uint8_t line[] = "00070001117000000003\n";
  volatile uint8_t here = 0;
  uintptr_t top = (uintptr_t)&here;
  uint32_t number;
  paint(top);
  if (service == CHECK) {
    number = grumpy_check(2, sheet, length, table, GRUMPY_TABLE, report, GRUMPY_CHECK_REPORT);
  } else if (service == RUN_PAIR) {
    number = grumpy_run_pair(2, sheet, length, sheet, 0, table, GRUMPY_TABLE, work, GRUMPY_WORK, out, 0, 100000, report,
                             GRUMPY_RUN_PAIR_REPORT);
  } else {
    number = grumpy_shift_feed(2, sheet, length, line, sizeof line - 1, table, GRUMPY_TABLE, work, GRUMPY_WORK, out, 0,
                               state, GRUMPY_SHIFT_STATE, report, GRUMPY_SHIFT_FEED_REPORT);
  }
  look(top);
  return number;
}

/* `again` so many times and `end`, by itself and as the body of a rule book's function */
static void deep_sheet(const char *again, uint32_t times, const char *end) {
  int service;
  put("deep ");
  put(again);
  for (service = CHECK; service < SERVICES; service++) {
    long_sheet(service == SHIFT_FEED ? "def pay(p:int,r:int):int{" : "", again,
               service == SHIFT_FEED && times > 640 ? times - 16 : times, end);
    if (service == SHIFT_FEED)
      grumpy_shift_begin(2, sheet, length, table, GRUMPY_TABLE, work, GRUMPY_WORK, 1000, state, GRUMPY_SHIFT_STATE,
                         report, GRUMPY_SHIFT_BEGIN_REPORT);
    put(" ");
    put_number(painted_call(service));
    put(":");
    put_number(taken);
  }
  put("\n");
}

void deep(void) {
  deep_sheet("(", 1359, "1.0");
  deep_sheet("{", 1359, "1.0");
  deep_sheet("- ", 1340, "1");
  deep_sheet("not ", 1340, "true");
  deep_sheet("f(", 679, "1");
  deep_sheet("1+(", 440, "1");
  deep_sheet("if ", 1359, "true");
  deep_sheet("if true then 1 else ", 260, "1");
  deep_sheet("let x=", 440, "1");
  deep_sheet("let x=1 in ", 260, "1");
  deep_sheet("while ", 1359, "true");
  deep_sheet("for i in ", 440, "1");
}
