/* What start.c gives a program on a bare Cortex-M4, by semihosting: a debugger, or QEMU, does what `bkpt 0xab` asks. A
 * box under a loom has a counter, a dial and a printer in its stead. */
#ifndef BOARD_H
#define BOARD_H

#include <stdint.h>

enum { BOARD_OUT, BOARD_ERR };

/* Writes bytes to the standard output or standard error of whoever debugs the board. */
void board_write(int where, const uint8_t *bytes, uint32_t length);

/* The words that the board was started with, with a blank between every two and a 0 at the end; false where they are
 * longer than `room` allows. */
int board_words(char *words, uint32_t room);

/* The program; it answers the status to end with. */
int board_main(void);

#endif
