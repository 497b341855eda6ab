/* Words on the first serial port, and the end of the boot. */
#ifndef SERIAL_H
#define SERIAL_H

#include <stdint.h>

/* 115,200 baud, eight bits, no parity, no interrupts. */
void open_serial(void);

void say(const char *text);
void say_number(uint64_t number);
void say_address(uint64_t address);

/* A range of addresses, its end not included. */
void say_range(uint64_t base, uint64_t end);

/* Ends the emulator with a number of status.h; a machine without its debug-exit device stands still. */
void end(uint8_t number) __attribute__((noreturn));

#endif
