/* The start of a Cortex-M4: its vectors, its memory, and semihosting. */
#include "board.h"

#include "grumpy.h"

/* The program's stack lies lowest in memory (board.ld), where a step too deep ends in a fault and not in other data.
 * What the program itself takes comes on top of the box's. Faults are dealt with on a stack of their own. */
#ifndef STACK
#define STACK (GRUMPY_STACK + 1024)
#endif
static uint64_t stack[STACK / 8] __attribute__((section(".stack"), used));
static uint64_t fault_stack[128] __attribute__((section(".stack.faults"), used));

extern uint32_t data_from[], data_begin[], data_end[], bss_begin[], bss_end[];

/* what semihosting is asked for */
enum { OPEN = 0x01, WRITE = 0x05, COMMAND_LINE = 0x15, EXIT = 0x20 };

static uint32_t ask(uint32_t what, const void *with) {
  register uint32_t r0 __asm__("r0") = what;
  register const void *r1 __asm__("r1") = with;
  __asm__ volatile("bkpt 0xab" : "+r"(r0) : "r"(r1) : "memory");
  return r0;
}

static uint32_t opened[2];

/* The console, opened to write, is standard output; opened to append it is standard error. */
static void open_console(void) {
  static const char console[] = ":tt";
  const uint32_t to_write[] = {(uint32_t)console, 4, sizeof console - 1};
  const uint32_t to_append[] = {(uint32_t)console, 8, sizeof console - 1};
  opened[BOARD_OUT] = ask(OPEN, to_write);
  opened[BOARD_ERR] = ask(OPEN, to_append);
}

void board_write(int where, const uint8_t *bytes, uint32_t length) {
  const uint32_t asked[] = {opened[where], (uint32_t)bytes, length};
  if (length > 0) ask(WRITE, asked);
}

int board_words(char *words, uint32_t room) {
  const uint32_t asked[] = {(uint32_t)words, room};
  return ask(COMMAND_LINE, asked) == 0;
}

__attribute__((noreturn)) static void end(uint32_t status) {
  const uint32_t asked[] = {0x20026, status}; /* the program has come to its end */
  ask(EXIT, asked);
  for (;;) {
  }
}

__attribute__((noinline, noreturn)) static void begin(void) {
  open_console();
  end((uint32_t)board_main());
}

void reset(void) {
  uint32_t *to;
  const uint32_t *from = data_from;
#ifdef __ARM_FP
  *(volatile uint32_t *)0xE000ED88 |= 0xFu << 20; /* the float unit may be used */
  __asm__ volatile("dsb\n isb");
#endif
  for (to = data_begin; to < data_end;) *to++ = *from++;
  for (to = bss_begin; to < bss_end;) *to++ = 0;
  __asm__ volatile("msr psp, %0\n msr control, %1\n isb" : : "r"(stack + STACK / 8), "r"(2) : "memory");
  begin();
}

static void fault(void) {
  static const char said[] = "a fault: the stack was too short, or memory that is not there was used\n";
  board_write(BOARD_ERR, (const uint8_t *)said, sizeof said - 1);
  end(3);
}

/* the stack to begin with, then where to begin, then what to do for each kind of fault */
__attribute__((section(".vectors"), used)) static const void *const vectors[16] = {
    fault_stack + 128, (const void *)reset, (const void *)fault, (const void *)fault,
    (const void *)fault, (const void *)fault, (const void *)fault};
