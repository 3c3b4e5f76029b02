/* The box behind a pipe, so that it can be held against another interpreter on any machine: the archive
 * is for x86-64, and this small program may run under an emulator.
 *
 * Usage: bridge STACK-BYTES [paint]. Every call is made on a thread with a stack of exactly that size, below
 * which nothing can be written. With `paint` the stack is filled with a pattern before each call, to see
 * afterwards how far down it was written.
 *
 * A request is fourteen words of 64 bits: the service, as in the enum below; the edition; the lengths of source,
 * second source, table, work, output, state and report; the allowance; a seed; how many of the first bytes of the
 * output are to be shown; and the lengths that the box is told of source and second source, which may be more than
 * there are. Then source, second source, state and report as they are. Table, work and output are filled here, with
 * a pattern that the seed says, in which no word is zero: they are long, and going through the pipe would take longer
 * than all else.
 *
 * The answer is ten words: the number returned; how many bytes were changed that were not lent; with `paint` the
 * bytes of stack that the call took and those left below it, else 0 and 0; of table and then of work how many of
 * the first words are zero now, and one more than the first word behind them that is not as it was, or 0; of the
 * output how many bytes there are up to the last one that is not as it was, and how many are shown, which is that or
 * more. Then the bytes shown, the state and the report. All in the machine's own order of bytes.
 */
#define _GNU_SOURCE
#include <pthread.h>
#include <stdio.h>
#include <stdlib.h>
#include <string.h>
#include <sys/mman.h>

#include "../../include/grumpy.h"

/* The last two ask only how many words of state a shift needs, and whether COMBINE is there: it is where the
 * archive has grumpy_shift_combine and this is built with -DCOMBINES. Its two reports come as the sources. */
enum {
  CHECK,
  RUN,
  WRITE,
  CHECK_PAIR,
  RUN_PAIR,
  SHIFT_BEGIN,
  SHIFT_FEED,
  SHIFT_FINISH,
  STORE,
  CHECK_STORED,
  RUN_STORED,
  PROFILE,
  COMBINE,
  STATE_WORDS,
  HAS_COMBINE
};

enum { SOURCE, SECOND, TABLE, WORK, OUT, STATE, REPORT, MEMORIES };

static const size_t width[MEMORIES] = {1, 1, 4, 4, 1, 8, 8};

/* a request: the service, the edition, the length of each memory, the allowance, the seed, what to show, and what is
 * told of the length of each source */
enum { SERVICE, EDITION, LENGTHS, ALLOWANCE = LENGTHS + MEMORIES, SEED, SHOWN, CLAIMED, ASKED = CLAIMED + TABLE };

/* an answer */
enum { NUMBER, SPILT, TAKEN, BELOW, ZEROS, ODD, WORK_ZEROS, WORK_ODD, CHANGED, SHOWS, TOLD };

/* bytes kept before and behind each loan, to see whether they are touched */
#define MARGIN 256
#define MARK 0xA5

struct memory {
  unsigned char *all;
  size_t bytes, room;
};

static void fail(const char *why) {
  fprintf(stderr, "bridge: %s\n", why);
  exit(1);
}

static void get(void *to, size_t n) {
  if (n > 0 && fread(to, 1, n, stdin) != n) fail("the request ends early");
}

static void put(const void *from, size_t n) {
  if (n > 0 && fwrite(from, 1, n, stdout) != n) fail("the answer cannot be written");
}

/* What table, work and output are filled with: bytes that look random, no aligned word of 32 bits being zero. */
#define PATTERN (1 << 18)
#define OFFSETS (1 << 12)
static uint32_t pattern[(PATTERN + OFFSETS) / 4];

static void make_pattern(void) {
  uint64_t at = 0;
  for (size_t i = 0; i < sizeof pattern / sizeof *pattern; i++) {
    uint64_t mixed = at += 0x9E3779B97F4A7C15u;
    mixed = (mixed ^ (mixed >> 30)) * 0xBF58476D1CE4E5B9u;
    mixed = (mixed ^ (mixed >> 27)) * 0x94D049BB133111EBu;
    pattern[i] = (uint32_t)mixed | (mixed >> 63 ? 1 : 1u << 31);
  }
}

/* The pattern for one of these memories. */
static const unsigned char *filling(uint64_t seed, int which) {
  return (const unsigned char *)pattern + (seed >> (16 * (which - TABLE)) & (OFFSETS / 4 - 1)) * 4;
}

/* Makes a loan of n bytes, with fresh margins. */
static void lend(struct memory *m, size_t n) {
  if (n + 2 * MARGIN > m->room) {
    free(m->all);
    m->room = n + 2 * MARGIN;
    m->all = aligned_alloc(64, (m->room + 63) / 64 * 64);
    if (!m->all) fail("no memory");
  }
  m->bytes = n;
  memset(m->all, MARK, MARGIN);
  memset(m->all + MARGIN + n, MARK, MARGIN);
}

/* Fills all memories, from the pipe or with the pattern. */
static void fill_loans(const uint64_t *asked, struct memory *m) {
  for (int k = 0; k < MEMORIES; k++) {
    uint64_t n = asked[LENGTHS + k];
    if (k >= TABLE && k <= OUT && n > PATTERN / width[k]) fail("a loan that is longer than the pattern");
    lend(&m[k], n * width[k]);
    if (k >= TABLE && k <= OUT) memcpy(m[k].all + MARGIN, filling(asked[SEED], k), m[k].bytes);
    else get(m[k].all + MARGIN, m[k].bytes);
  }
}

/* How table or work is left. */
static void look(const struct memory *m, const unsigned char *before, uint64_t *told) {
  const uint32_t *now = (const uint32_t *)(m->all + MARGIN);
  const size_t words = m->bytes / 4;
  static const uint32_t nothing[1024];
  size_t zeros = 0;
  while (zeros + 1024 <= words && memcmp(now + zeros, nothing, sizeof nothing) == 0) zeros += 1024;
  while (zeros < words && now[zeros] == 0) zeros++;
  told[0] = zeros;
  const unsigned char *rest = m->all + MARGIN + 4 * zeros;
  if (memcmp(rest, before + 4 * zeros, m->bytes - 4 * zeros) == 0) return;
  size_t at = zeros;
  while (memcmp(now + at, before + 4 * at, 4) == 0) at++;
  told[1] = at + 1;
}

/* How many bytes of the output there are up to the last one that is not as it was. */
static uint64_t changed_bytes(const struct memory *m, const unsigned char *before) {
  const unsigned char *now = m->all + MARGIN;
  size_t n = m->bytes;
  if (memcmp(now, before, n) == 0) return 0;
  while (now[n - 1] == before[n - 1]) n--;
  return n;
}

static uint64_t touched(const struct memory *m) {
  uint64_t n = 0;
  for (size_t i = 0; i < MARGIN; i++) {
    n += m->all[i] != MARK;
    n += m->all[MARGIN + m->bytes + i] != MARK;
  }
  return n;
}

/* Memory of which no byte can be read or written. */
static uint8_t *untouchable;

/* Where a source lies: one that is told to have bytes and has none, there. */
static uint8_t *source_of(const uint64_t *asked, const struct memory *m, int which) {
  if (asked[LENGTHS + which] == 0 && asked[CLAIMED + which] > 0) return untouchable;
  return m[which].all + MARGIN;
}

static uint64_t call(const uint64_t *asked, struct memory *m) {
  uint64_t length[MEMORIES];
  memcpy(length, asked + LENGTHS, sizeof length);
  memcpy(length, asked + CLAIMED, TABLE * sizeof *length);
  const uint32_t edition = (uint32_t)asked[EDITION];
  const uint64_t allowance = asked[ALLOWANCE];
  uint8_t *source = source_of(asked, m, SOURCE), *second = source_of(asked, m, SECOND);
  uint32_t *table = (uint32_t *)(m[TABLE].all + MARGIN), *work = (uint32_t *)(m[WORK].all + MARGIN);
  uint8_t *out = m[OUT].all + MARGIN;
  uint64_t *state = (uint64_t *)(m[STATE].all + MARGIN), *report = (uint64_t *)(m[REPORT].all + MARGIN);
#define LENT(memory, which) memory, length[which]
  switch (asked[SERVICE]) {
    case CHECK: return grumpy_check(edition, LENT(source, SOURCE), LENT(table, TABLE), LENT(report, REPORT));
    case RUN:
      return grumpy_run(edition, LENT(source, SOURCE), LENT(table, TABLE), LENT(work, WORK), LENT(out, OUT),
                        allowance, LENT(report, REPORT));
    case WRITE:
      return grumpy_write(edition, LENT(source, SOURCE), LENT(table, TABLE), LENT(out, OUT),
                          LENT(report, REPORT));
    case CHECK_PAIR:
      return grumpy_check_pair(edition, LENT(source, SOURCE), LENT(second, SECOND), LENT(table, TABLE),
                               LENT(report, REPORT));
    case RUN_PAIR:
      return grumpy_run_pair(edition, LENT(source, SOURCE), LENT(second, SECOND), LENT(table, TABLE),
                             LENT(work, WORK), LENT(out, OUT), allowance, LENT(report, REPORT));
    case SHIFT_BEGIN:
      return grumpy_shift_begin(edition, LENT(source, SOURCE), LENT(table, TABLE), LENT(work, WORK), allowance,
                                LENT(state, STATE), LENT(report, REPORT));
    case SHIFT_FEED:
      return grumpy_shift_feed(edition, LENT(source, SOURCE), LENT(second, SECOND), LENT(table, TABLE),
                               LENT(work, WORK), LENT(out, OUT), LENT(state, STATE), LENT(report, REPORT));
    case SHIFT_FINISH: return grumpy_shift_finish(edition, LENT(state, STATE), LENT(report, REPORT));
    case STORE:
      return grumpy_store(edition, LENT(source, SOURCE), LENT(table, TABLE), LENT(out, OUT),
                          LENT(report, REPORT));
    case CHECK_STORED:
      return grumpy_check_stored(edition, LENT(source, SOURCE), LENT(table, TABLE), LENT(report, REPORT));
    case RUN_STORED:
      return grumpy_run_stored(edition, LENT(source, SOURCE), LENT(table, TABLE), LENT(work, WORK),
                               LENT(out, OUT), allowance, LENT(report, REPORT));
    case PROFILE:
      return grumpy_profile(edition, LENT(source, SOURCE), LENT(table, TABLE), LENT(report, REPORT));
#ifdef COMBINES
    case COMBINE:
      return grumpy_shift_combine((const uint64_t *)source, length[SOURCE] / 8, (const uint64_t *)second,
                                  length[SECOND] / 8, LENT(report, REPORT));
    case HAS_COMBINE: return 1;
#else
    case HAS_COMBINE: return 0;
#endif
    case STATE_WORDS: return GRUMPY_SHIFT_STATE;
  }
  fail("no such service");
  return 0;
}

/* The stack of the calls, from its lowest word up, and whether it is painted. */
static uint64_t *stack;
static size_t stack_bytes;
static int painted;

#define PAINT 0x9E3779B97F4A7C15u

/* Under the frame that paints there is room for the frame of what fills or looks. */
#define GAP 512

/* Between two calls, reading and writing the pipe takes no more stack than this. */
#define PIPES (1 << 16)

__attribute__((noinline)) static void fill(volatile uint64_t *from, const volatile uint64_t *to) {
  while (from < to) *from++ = PAINT;
}

__attribute__((noinline)) static uint64_t *lowest_written(uint64_t *top) {
  uint64_t *at = stack;
  while (at < top && *at == PAINT) at++;
  return at;
}

/* A call on painted stack: how much it took, and how much it left below. Only what may have been written
 * since the last call is painted again. */
__attribute__((noinline)) static uint64_t measured(const uint64_t *asked, struct memory *m, uint64_t *taken) {
  static uint64_t *clean = NULL; /* all below is as it was painted */
  unsigned char *here = __builtin_frame_address(0);
  uint64_t *top = (uint64_t *)((uintptr_t)(here - GAP) & ~(uintptr_t)63);
  uint64_t *used = top - PIPES / sizeof *top;
  if (used < stack) used = stack;
  fill(clean == NULL ? stack : clean < used ? clean : used, top);
  uint64_t number = call(asked, m);
  clean = lowest_written(top);
  taken[0] = here - (unsigned char *)clean;
  taken[1] = (unsigned char *)clean - (unsigned char *)stack;
  return number;
}

/* Whether a memory that may only be read is as it was. */
static int changed(const struct memory *m, const unsigned char *before) {
  return memcmp(before, m->all + MARGIN, m->bytes) != 0;
}

static unsigned char *copy(const struct memory *m, unsigned char *to) {
  to = realloc(to, m->bytes + 1);
  if (!to) fail("no memory");
  memcpy(to, m->all + MARGIN, m->bytes);
  return to;
}

static void *serve(void *unused) {
  (void)unused;
  static struct memory m[MEMORIES];
  uint64_t asked[ASKED];
  unsigned char *before[TABLE] = {NULL};
  make_pattern();
  while (fread(asked, 8, ASKED, stdin) == ASKED) {
    fill_loans(asked, m);
    for (int k = SOURCE; k < TABLE; k++) before[k] = copy(&m[k], before[k]);
    uint64_t told[TOLD] = {0};
    told[NUMBER] = painted ? measured(asked, m, told + TAKEN) : call(asked, m);
    for (int k = 0; k < MEMORIES; k++) told[SPILT] += touched(&m[k]);
    for (int k = SOURCE; k < TABLE; k++) told[SPILT] += changed(&m[k], before[k]);
    look(&m[TABLE], filling(asked[SEED], TABLE), told + ZEROS);
    look(&m[WORK], filling(asked[SEED], WORK), told + WORK_ZEROS);
    told[CHANGED] = changed_bytes(&m[OUT], filling(asked[SEED], OUT));
    uint64_t shown = asked[SHOWN] < m[OUT].bytes ? asked[SHOWN] : m[OUT].bytes;
    told[SHOWS] = told[CHANGED] > shown ? told[CHANGED] : shown;
    put(told, sizeof told);
    put(m[OUT].all + MARGIN, told[SHOWS]);
    put(m[STATE].all + MARGIN, m[STATE].bytes);
    put(m[REPORT].all + MARGIN, m[REPORT].bytes);
    if (fflush(stdout)) fail("the answer cannot be written");
  }
  for (int k = SOURCE; k < TABLE; k++) free(before[k]);
  for (int k = 0; k < MEMORIES; k++) free(m[k].all);
  return NULL;
}

/* The stack between two stretches that cannot be touched; one of them stands for memory that is not there. */
static void make_stack(size_t bytes) {
  size_t guard = 1 << 20;
  unsigned char *all = mmap(NULL, bytes + 2 * guard, PROT_NONE, MAP_PRIVATE | MAP_ANONYMOUS, -1, 0);
  if (all == MAP_FAILED || mprotect(all + guard, bytes, PROT_READ | PROT_WRITE)) fail("no such stack");
  untouchable = all + guard / 2;
  stack = (uint64_t *)(all + guard);
  stack_bytes = bytes;
}

int main(int count, char **words) {
  painted = count == 3 && strcmp(words[2], "paint") == 0;
  if (count != 2 + painted) fail("the bytes of the stack are wanted, and maybe `paint`");
  make_stack(strtoul(words[1], NULL, 10));
  pthread_attr_t how;
  pthread_t thread;
  if (pthread_attr_init(&how) || pthread_attr_setstack(&how, stack, stack_bytes)) fail("no such stack");
  if (pthread_create(&thread, &how, serve, NULL) || pthread_join(thread, NULL)) fail("no thread");
  return 0;
}
