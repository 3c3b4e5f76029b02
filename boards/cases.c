/* CASES random sheets of SEED and some rare ones through all thirteen functions; then the deepest sheets. It needs
 * nothing of a C library but mem*. It prints two lines with a digest, which has to be the same on every machine, and
 * with the numbers that were answered, each with how often; and one line of stack for each deep sheet. */
#include "cases.h"

static void tell(const char *what) {
  uint32_t i;
  put(what);
  put(" digest ");
  put_hex(digest);
  put(" answers");
  for (i = 0; i < 64; i++) {
    if (answers[i]) {
      put(" ");
      put_number(i);
      put(":");
      put_number(answers[i]);
      answers[i] = 0;
    }
  }
  put("\n");
}

static void rare_sheet(const char *before, const char *again, uint32_t times, const char *behind) {
  uint32_t turn;
  long_sheet(before, again, times, behind);
  for (turn = 1; turn < 4; turn++) all_services(2 * turn);
  whole_allowance();
}

/* What chance may not find, so that every number is answered at least once, and what lies next to the limits. */
static void rare_sheets(void) {
  rare_sheet("1", " ", 49152, "");
  rare_sheet("1", " ", 49151, "");
  rare_sheet("1", "#", 1, "");
  rare_sheet("/*", "/*", 3, "*/1");
  rare_sheet("2147483648", "", 0, "");
  rare_sheet("0x80000000", "", 0, "");
  rare_sheet("", "x+", 680, "1");
  rare_sheet("", "1+", 679, "1");
  rare_sheet("1.", "0", 15, "");
  rare_sheet("", "def $%(x:int):int{x}", 33, "1");
  rare_sheet("", "def $%(x:int):int{x}", 32, "aa(1)");
  rare_sheet("def f(", "%:int,", 8, "z:int):int{1}1");
  rare_sheet("", "def f():int{1}", 2, "f()");
  rare_sheet("def f(x:int,", "", 0, "x:int):int{1}1");
  rare_sheet("1+", "true", 1, "");
  rare_sheet("", "ref ", 16, "1");
  rare_sheet("", "ref ", 15, "1.5");
  rare_sheet("f(1)", "", 0, "");
  rare_sheet("putchar(1", ",2", 1, ")");
  rare_sheet("def z(x:int):int{x+x}", "def %(x:int):int{^(^(x))}", 21, "u(1)");
  rare_sheet("def z(x:int):int{x+x}", "def %(x:int):int{^(^(x))}", 9, "c(1)");
}

static void rare_runs(void) {
  rare_sheet("while !(ref true){tt};1", "", 0, "");
  rare_sheet("def f(n:int):int{1+f(n+1)}", "", 0, "f(1)");
  rare_sheet("-2147483647-", "1", 1, "");
  rare_sheet("-2147483647-", "2", 1, "");
  rare_sheet("1/(1-", "1", 1, ")");
  rare_sheet("let r={ref ", "1", 1, "} in !r");
  rare_sheet("def f(n:int):int{let c=ref n in if n<1 then 0 else f(n-1)}", "", 0, "f(100)");
  rare_sheet("let i=ref 0 in while !i<2000{let c=ref 1 in i:= !i+1};!i", "", 0, "");
  rare_sheet("let i=ref 0 in while !i<1100{i:= ! ref(!i+1)};!i", "", 0, "");
  rare_sheet("putchar(256)", "", 0, "");
  rare_sheet("for i in 0..600{let u=putchar(i/3) in tt}", "", 0, "");
  rare_sheet("for i in 1..4 by ", "-", 1, "0{tt}");
  rare_sheet("let x=", "{ref ", 200, "1}");
  rare_sheet("", "(", 1359, "1.0");
  rare_sheet("", "{", 679, "1");
}

static void rare_stored(void) {
  stored_text("0001\n31\n");
  stored_text("0002\n31\n");
  stored_text("0001\n20\n");
  stored_text("0001\n3g\n");
  stored_text("0551\n");
}

void cases(void) {
  uint32_t i;
  begin_calls();
  for (i = 0; i < CASES; i++) {
    random_sheet();
    all_services(i);
  }
  put_number(CASES);
  tell(" random sheets,");
  rare_sheets();
  rare_runs();
  rare_stored();
  large_parts();
  tell("rare sheets,");
#ifndef NO_DEEP
  deep();
#endif
}
