/* The rows of bench/bench.c on a Cortex-M: one call of each, with a mark before and after it, for the emulator's log of
 * instructions. rows.h is the part of bench.c that makes the rows; ports/measure cuts it out. */
#include "floor.h"
#include "machine.h"
#include "peer.h"

#include <string.h>

#include "rows.h"

/* Stands in a section of its own, so that it is seen in the log. */
__attribute__((noinline, section(".marks"))) void mark(void)
{
    __asm__ volatile("" ::: "memory");
}

int driver(void)
{
    uint32_t i;
    for (i = 0; i < ROWS; i++) {
        struct input in = prepare(&rows[i]);
        machine_write((const uint8_t *)rows[i].name, strlen(rows[i].name));
        machine_write((const uint8_t *)"\n", 1);
        mark();
        call(&tested, &in);
        mark();
    }
    return 0;
}
