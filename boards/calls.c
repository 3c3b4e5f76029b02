/* Every function of the box, and all that it answers and leaves in lent memory taken into a digest. */
#include "cases.h"

#define UNTOLD UINT64_C(0xABABABABABABABAB)

uint32_t table[GRUMPY_TABLE + 3], work[GRUMPY_WORK + 3];
uint8_t out[8192];
uint64_t report[16], state[GRUMPY_SHIFT_STATE];
uint64_t digest = UINT64_C(14695981039346656037);
uint32_t answers[64];

static uint8_t stored[8192];
static uint64_t other[GRUMPY_SHIFT_FINISH_REPORT];

static void take(uint64_t word) { digest = (digest ^ word) * UINT64_C(1099511628211); }

static void take_words(const uint32_t *words, uint32_t count) {
  uint32_t i;
  for (i = 0; i < count; i++) {
    if (words[i]) {
      take(i);
      take(words[i]);
    }
  }
}

/* What a call answered and left; the words behind those that are lent are looked at, too. */
static uint32_t heed(uint32_t number) {
  uint32_t i;
  answers[number & 63]++;
  take(number);
  for (i = 0; i < 16; i++) {
    take(report[i]);
    report[i] = UNTOLD;
  }
  take_words(table, GRUMPY_TABLE + 3);
  take_words(work, GRUMPY_WORK + 3);
  for (i = 0; i < 512; i++) take(out[i]);
  return number;
}

static void fill(uint32_t with) {
  uint32_t i;
  for (i = 0; i < GRUMPY_TABLE + 3; i++) table[i] = with;
  for (i = 0; i < GRUMPY_WORK + 3; i++) work[i] = with;
  for (i = 0; i < sizeof out; i++) out[i] = (uint8_t)with;
}

void begin_calls(void) {
  uint32_t i;
  for (i = 0; i < 16; i++) report[i] = UNTOLD;
}

/* What the calls of one sheet are lent: mostly enough, at times too little. */
struct loan {
  uint32_t edition, words, room;
  uint64_t units;
};

#define TABLE table, GRUMPY_TABLE
#define BOTH TABLE, work, GRUMPY_WORK
#define STATE state, GRUMPY_SHIFT_STATE

static void one_sheet(const struct loan *lent) {
  heed(grumpy_check(lent->edition, sheet, length, table, lent->words, report, 2 + chance(3)));
  heed(grumpy_run(lent->edition, sheet, length, BOTH, out, lent->room, lent->units, report, GRUMPY_RUN_REPORT));
  heed(grumpy_profile(lent->edition, sheet, length, TABLE, report, GRUMPY_PROFILE_REPORT));
  heed(grumpy_write(lent->edition, sheet, length, TABLE, out, 16 * lent->room, report, GRUMPY_WRITE_REPORT));
}

static void two_sheets(const struct loan *lent) {
  const uint8_t *rest = sheet + book;
  heed(grumpy_check_pair(lent->edition, sheet, book, rest, length - book, TABLE, report, GRUMPY_CHECK_PAIR_REPORT));
  heed(grumpy_run_pair(lent->edition, sheet, book, rest, length - book, table, lent->words, work, lent->words, out,
                       lent->room, lent->units, report, GRUMPY_RUN_PAIR_REPORT));
}

static void stored_calls(const struct loan *lent, const uint8_t *form, uint32_t bytes) {
  heed(grumpy_check_stored(lent->edition, form, bytes, TABLE, report, GRUMPY_CHECK_REPORT));
  heed(grumpy_run_stored(lent->edition, form, bytes, BOTH, out, lent->room, lent->units, report, GRUMPY_RUN_REPORT));
}

/* The stored form, one in four with a bit that is wrong. It has no byte 0, so its end is seen. */
static void stored_sheet(const struct loan *lent) {
  uint32_t bytes = 0, i;
  if (heed(grumpy_store(lent->edition, sheet, length, TABLE, stored, sizeof stored, report, GRUMPY_WRITE_REPORT)) != 0)
    return;
  while (bytes < sizeof stored && stored[bytes]) bytes++;
  for (i = 0; i < bytes; i++) take(stored[i]);
  if (chance(4) == 0) stored[chance(bytes)] ^= (uint8_t)(1u << chance(7));
  stored_calls(lent, stored, bytes);
  for (i = 0; i < bytes; i++) stored[i] = 0;
}

void stored_text(const char *form) {
  const struct loan lent = {GRUMPY_EDITION_2, GRUMPY_TABLE, 512, 1000};
  uint32_t bytes = 0;
  while (form[bytes]) bytes++;
  stored_calls(&lent, (const uint8_t *)form, bytes);
}

/* A shift of six lines, two of them bad, in two pieces; then its report and one that may be wrong combined. */
static void shift(const struct loan *lent) {
  static const char lines[] = "00070001117000000003\n00080000000000000001\n00097FFFFFFF00000002\n"
                              "0007000111700000000G\n00010000000A0000001F\n0002";
  const uint8_t *piece = (const uint8_t *)lines;
  uint32_t cut = chance(sizeof lines), i, edition = lent->edition;
  heed(grumpy_shift_begin(edition, sheet, book, BOTH, 1 + lent->units / 4, STATE, report, GRUMPY_SHIFT_BEGIN_REPORT));
  heed(grumpy_shift_feed(edition, sheet, book, piece, cut, BOTH, out, lent->room, STATE, report, 1));
  heed(grumpy_shift_feed(edition, sheet, book, piece + cut, sizeof lines - 1 - cut, BOTH, out, lent->room, STATE,
                         report, GRUMPY_SHIFT_FEED_REPORT));
  for (i = 0; i < GRUMPY_SHIFT_STATE; i++) take(state[i]);
  heed(grumpy_shift_finish(edition, STATE, report, GRUMPY_SHIFT_FINISH_REPORT));
  grumpy_shift_finish(edition, STATE, report, GRUMPY_SHIFT_FINISH_REPORT);
  for (i = 0; i < GRUMPY_SHIFT_FINISH_REPORT; i++) other[i] = report[i];
  if (chance(8) == 0) other[chance(15)] = (uint64_t)chance(4) << chance(64);
  heed(grumpy_shift_combine(other, 15, other, 15, report, chance(8) ? 15 : 14));
}

void large_parts(void) {
  uint32_t i;
  for (i = 0; i < GRUMPY_SHIFT_FINISH_REPORT; i++) other[i] = 0;
  for (i = 1; i <= 2; i++) {
    other[1] = other[2] = i * GRUMPY_SHIFT_LINES / 2;
    heed(grumpy_shift_combine(other, 15, other, 15, report, GRUMPY_SHIFT_FINISH_REPORT));
  }
  heed(grumpy_shift_finish(3, STATE, report, GRUMPY_SHIFT_FINISH_REPORT));
}

void all_services(uint32_t turn) {
  struct loan lent;
  lent.edition = chance(32) ? 1 + chance(2) : chance(4);
  lent.words = chance(24) ? GRUMPY_TABLE : chance(GRUMPY_TABLE);
  lent.room = chance(4) ? 512 : chance(40);
  lent.units = turn % 251 ? chance(4000) : 200000 + chance(800002);
  if (turn % 16 == 0) fill(0xDEADBEEFu);
  one_sheet(&lent);
  two_sheets(&lent);
  stored_sheet(&lent);
  if (turn % 4 == 0) shift(&lent);
}

void whole_allowance(void) {
  heed(grumpy_run(2, sheet, length, BOTH, out, 512, GRUMPY_ALLOWANCE, report, GRUMPY_RUN_REPORT));
  heed(grumpy_run(2, sheet, length, BOTH, out, 512, GRUMPY_ALLOWANCE + 1, report, GRUMPY_RUN_REPORT));
}
