/* Sheets that are the same on every machine: random ones out of a seed, and long ones. */
#include "cases.h"

#define RANDOM_ROOM 6000u

uint8_t sheet[ROOM];
uint32_t length, book;
static uint64_t seed = SEED;

uint32_t chance(uint32_t below) {
  seed = seed * UINT64_C(6364136223846793005) + UINT64_C(1442695040888963407);
  return (uint32_t)(((seed >> 32) * below) >> 32);
}

/* Forms of each type. I, B, F, U and R stand for an expression of type int, bool, float, unit and int ref, and every
 * other byte for itself. The first ones of each list have no such letter: they are taken where a sheet is deep enough.
 * Sight has x and y of int, z of float and r, an int ref. */
static const char *const ints[] = {
    "1", "7", "0", "2147483647", "x", "y", "0x1f", "0b101", "!r", "-x",
    "(I+I)", "(I*I)", "(I/I)", "(I-I)", "I+I", "(2147483647-I)", "(-I)", "{if B then I else I}", "putchar(I)",
    "putchar(65)", "{let x=I in I}", "(let y=I in y*y)", "f(I,I)", "h(I)", "{U;I}", "!R", "{let r=R in U;!r}",
    "{let q=ref R in ! !q}", "{let a={ref I} in !a}", "{let r=ref I in {U};!r+I}"};
static const char *const bools[] = {"true", "false", "x<y", "(I<I)", "(I==I)", "(F<F)", "(B&&B)", "(B||B)", "not B",
                                    "{B}", "not(I<I)"};
static const char *const floats[] = {
    "2.5", "0.1", "3.", "z", "0.0", "999999999999999.", "0.00000000000001",
    "(F+F)", "(F-F)", "(F*F)", "(F/F)", "(-F)", "{if B then F else F}", "g(F)", "{let z=F in F}", "(1.0/3.0)",
    "(0.0/0.0)", "(z*z*z)", "{let z=0.00000000000001 in z*z*z*z*z*z*z*z*z*z*z*z*z*z*z*z*z*z*z*z*z*z*z/3.}"};
static const char *const units[] = {"tt", "r:=x", "r:=I", "{U}", "if B then U else U", "(U)", "R:=I", "(U;U)",
                                    "{let u=putchar(I) in tt}", "while B{U}", "{r:=0;while !r<I{r:= !r+1;U}}",
                                    "for i in I..I{U}", "for i in 1..=I by I{r:=i}", "for i in 0..3{r:= !r+i;U}"};
static const char *const refs[] = {"r", "r", "(ref I)", "{r}", "{ref I}", "(if B then R else R)"};

static void form(const char *text, uint32_t depth);

static void one_of(const char *const *forms, uint32_t count, uint32_t leaves, uint32_t depth) {
  form(forms[chance(depth > 0 ? count : leaves)], depth > 0 ? depth - 1 : 0);
}

#define ONE_OF(forms, leaves) one_of(forms, (uint32_t)(sizeof forms / sizeof *forms), leaves, depth)

static void form(const char *text, uint32_t depth) {
  for (; *text; text++) {
    switch (*text) {
    case 'I': ONE_OF(ints, 10); break;
    case 'B': ONE_OF(bools, 3); break;
    case 'F': ONE_OF(floats, 7); break;
    case 'U': ONE_OF(units, 2); break;
    case 'R': ONE_OF(refs, 2); break;
    default: if (length < RANDOM_ROOM) sheet[length++] = (uint8_t)*text;
    }
  }
}

/* One sheet in three has a byte that is another, one too few, or a piece written over it. */
static void damage(void) {
  static const char *const pieces[] = {"let ", "in ", "(", ")", "{", "}", ";", ":=", "..", "..=", "by ", "for ",
                                       "def ", "1", "x", "/*", "//", "\n", "ref ", "0x", "1.", "if ", "else "};
  uint32_t at = chance(length), i;
  const char *piece;
  switch (chance(9)) {
  case 0: sheet[at] = (uint8_t)chance(256); break;
  case 1:
    length--;
    for (i = at; i < length; i++) sheet[i] = sheet[i + 1];
    break;
  case 2:
    for (piece = pieces[chance(sizeof pieces / sizeof *pieces)]; *piece && at < length; piece++)
      sheet[at++] = (uint8_t)*piece;
    break;
  default: break;
  }
}

void random_sheet(void) {
  static const char *const ends[] = {"I", "F", "B", "U", "R"};
  uint32_t depth = 2 + chance(4);
  length = 0;
  form("def f(x:int,y:int):int{let r=ref x in let z=1.5 in ", 0);
  form(chance(3) ? "x*y+1" : "if x<y then x else !r", 0);
  form("} def g(z:float):float{z*z+0.5} def h(n:int):int{if n<1 then 0 else n+h(n-1)}\n", 0);
  form("def pay(p:int,w:int):int{let x=p in let y=w in let z=2.5 in let r=ref 0 in I}\n", depth - 1);
  book = length;
  form("let x=3 in let y=4 in let z=1.5 in let r=ref 5 in ", 0);
  form(ends[chance(5)], depth);
  damage();
  if (book > length) book = length;
}

/* In what comes again `%` is a letter that changes each time, `$` one that changes when `%` begins anew, and `^` the
 * letter that `%` was before. */
static uint8_t letter(char byte, uint32_t turn) {
  switch (byte) {
  case '%': return (uint8_t)('a' + turn % 26);
  case '^': return (uint8_t)('a' + (turn + 25) % 26);
  case '$': return (uint8_t)('a' + turn / 26);
  default: return (uint8_t)byte;
  }
}

static void add(const char *text, uint32_t turn) {
  for (; *text && length < ROOM; text++) sheet[length++] = letter(*text, turn);
}

void long_sheet(const char *before, const char *again, uint32_t times, const char *behind) {
  uint32_t i;
  length = 0;
  add(before, 0);
  for (i = 0; i < times; i++) add(again, i);
  add(behind, 0);
  book = length / 2;
}
