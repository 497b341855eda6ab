/* The sample unit: where its RAM is, and what its image leaves there. Read by C, assembly and shell. */
#ifndef UNIT_H
#define UNIT_H

/* Two regions of whole pages, with a hole between them. */
#define LOW_BASE 0x10000000
#define LOW_LENGTH 0x1000
#define HIGH_BASE 0x10003000
#define HIGH_LENGTH 0x2000
#define MEMORY_LENGTH (LOW_LENGTH + HIGH_LENGTH)

#define PAYLOAD (LOW_BASE + 0x100)
#ifndef ENTRY
#define ENTRY PAYLOAD
#endif
#define MARK 0x6e6e7552 /* written at HIGH_BASE */
#define FILL_COUNT 0x1800 /* filled at the end of the high region, with FILL_PATTERN */
#define FILL_PATTERN 0x5a

#define SIGNATURE_LENGTH 512

/* How the program ends: a status below 100 is the code of a refusal. */
#define STATUS_ENTERED 100   /* the damaged image was refused; the sound one was entered and found all in order */
#define STATUS_REGISTERS 101 /* entered, with a register that was not zero */
#define STATUS_MEMORY 102    /* entered, but its bytes are not at their addresses */
#define STATUS_DAMAGED 103   /* the damaged image got another answer than it should */
#define STATUS_PLACING 104   /* the regions could not be moved to their addresses */
#define STATUS_ENTRY 105     /* loaded, but the entry is not RAM: the library allows that, this stub does not */

#endif
