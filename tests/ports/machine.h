/* What the driver needs of a machine that has no C library under it. One of machine_*.c gives it. */
#ifndef MACHINE_H
#define MACHINE_H

#include <stddef.h>
#include <stdint.h>

#define ARENAS 8       /* as many slices as one call may be lent */
#define ARENA 24576    /* bytes of each */

/* The end of arena `which`. The ARENA bytes before it can be written; the byte at it must not be touched by a call. */
uint8_t *machine_arena(unsigned which);

/* How many bytes behind an arena's end can be looked at by the driver, to see whether they were touched; 0 where a touch is a
 * fault. */
extern const size_t machine_behind;

/* Appends to the output stream. */
void machine_write(const uint8_t *bytes, size_t len);

/* Called by the machine once it is ready; returns 0 where all checks held. */
int driver(void);

#endif
