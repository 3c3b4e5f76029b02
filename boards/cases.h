/* The box on another machine: the same calls everywhere, and all that comes of them in one digest. */
#ifndef CASES_H
#define CASES_H

#include "grumpy.h"

/* how many random sheets there are, and which */
#ifndef CASES
#define CASES 1000
#endif
#ifndef SEED
#define SEED 1
#endif

/* ---- port.c: where the digits go; it calls `cases` and ends */
void put(const char *text);
void put_number(uint32_t number);
void put_hex(uint64_t number);
void cases(void);

/* ---- sheets.c: the sheet at hand, and how many of its bytes are functions */
#define ROOM (GRUMPY_SOURCE + 64)
extern uint8_t sheet[ROOM];
extern uint32_t length, book;

uint32_t chance(uint32_t below);
void random_sheet(void);
/* `before`, then `again` so many times, then `behind` */
void long_sheet(const char *before, const char *again, uint32_t times, const char *behind);

/* ---- calls.c: lent memory, and the calls */
extern uint32_t table[GRUMPY_TABLE + 3], work[GRUMPY_WORK + 3];
extern uint8_t out[8192];
extern uint64_t report[16], state[GRUMPY_SHIFT_STATE];
extern uint64_t digest;
extern uint32_t answers[64];

void begin_calls(void);
/* every service of the sheet at hand; `turn` says how dear the run may be, and whether a shift is paid, too */
void all_services(uint32_t turn);
/* a run with as many units as there can be, and with one more */
void whole_allowance(void);
/* check and run of a stored sheet */
void stored_text(const char *form);
/* as many lines in two parts as a shift may have, and too many; and an edition that there is not */
void large_parts(void);

/* ---- deep.c: how much stack the deepest sheets take */
void deep(void);

#endif
