/*
 * How a boot ends, by the emulator's debug-exit device: a number n written to it ends the emulator with status
 * 2n + 1. No status is 0, which a triple fault gives, and all are below 124, which `timeout` gives. Read by C and
 * by assembly.
 */
#ifndef STATUS_H
#define STATUS_H

#define EXIT_PORT 0xf4

/* A number below 40 is the code of a refusal by the loader: a load's last is 27, status 55. */

/* Said by the loaded program. */
#define END_ENTERED 40   /* 81: all in order */
#define END_REGISTERS 41 /* 83: a register was not zero */
#define END_MEMORY 42    /* 85: its bytes are not at their addresses */
#define END_WINDOW 43    /* 87: the window is still there */

/* Said by the stub, which then jumps nowhere. */
#define END_ENTRY 50    /* 101: loaded, but the entry is not in the lent RAM */
#define END_PROTOCOL 51 /* 103: started by something that is neither PVH nor multiboot2, or without a memory map */
#define END_RANGES 52   /* 105: a memory map with too many ranges */
#define END_MODULE 53   /* 107: no image as a boot module, or one past the identity mapping */
#define END_HEADER 54   /* 109: no approved header on the command line, or not in hexadecimal */
#define END_CODE 55     /* 111: the loader answered with a code that a load does not give */
#define END_ROOM 56     /* 113: the stub or the image is not entirely in free RAM */

#endif
