/* Where the digits go and where the program begins: as any C program; on a bare Cortex-M by examples/board/start.c; on
 * a bare RISC-V of 32 bits, for which Debian has no C library, by calls of Linux; in WebAssembly by an import. */
#include "cases.h"

#if defined(__wasm__)
__attribute__((import_module("env"), import_name("put"))) void put_bytes(const char *text, uint32_t bytes);
__attribute__((export_name("cases"))) void begin(void) { cases(); }

#elif defined(__ARM_ARCH_PROFILE) && __ARM_ARCH_PROFILE == 'M'
#include "board.h"
static void put_bytes(const char *text, uint32_t bytes) { board_write(BOARD_OUT, (const uint8_t *)text, bytes); }
int board_main(void) {
  cases();
  return 0;
}

#elif defined(__riscv) && __riscv_xlen == 32
static long ask(long number, long a, long b, long c) {
  register long a0 __asm__("a0") = a, a1 __asm__("a1") = b, a2 __asm__("a2") = c, a7 __asm__("a7") = number;
  __asm__ volatile("ecall" : "+r"(a0) : "r"(a1), "r"(a2), "r"(a7) : "memory");
  return a0;
}

static void put_bytes(const char *text, uint32_t bytes) { ask(64, 1, (long)text, (long)bytes); }

/* gcc must not make calls of these out of their own loops */
#define PLAIN __attribute__((optimize("no-tree-loop-distribute-patterns")))
PLAIN void *memset(void *to, int byte, unsigned long count) {
  uint8_t *at = to;
  while (count--) *at++ = (uint8_t)byte;
  return to;
}
PLAIN void *memcpy(void *to, const void *from, unsigned long count) {
  uint8_t *at = to;
  const uint8_t *p = from;
  while (count--) *at++ = *p++;
  return to;
}

void _start(void) {
  __asm__ volatile(".option push\n.option norelax\nla gp, __global_pointer$\n.option pop\nandi sp, sp, -16");
  cases();
  ask(93, 0, 0, 0);
  for (;;) {
  }
}

#else
#include <stdio.h>
static void put_bytes(const char *text, uint32_t bytes) {
  fwrite(text, 1, bytes, stdout);
  fflush(stdout);
}
int main(void) {
  cases();
  return 0;
}
#endif

void put(const char *text) {
  uint32_t bytes = 0;
  while (text[bytes]) bytes++;
  put_bytes(text, bytes);
}

void put_number(uint32_t number) {
  char digits[11];
  uint32_t at = 10;
  digits[10] = 0;
  do digits[--at] = (char)('0' + number % 10);
  while (number /= 10);
  put(digits + at);
}

void put_hex(uint64_t number) {
  char digits[17];
  int i;
  for (i = 0; i < 16; i++) digits[i] = "0123456789abcdef"[number >> (60 - 4 * i) & 15];
  digits[16] = 0;
  put(digits);
}
