/* A Cortex-M with nothing under it: vectors, and output by semihosting. Where there is a memory protection unit (Cortex-M3, M4),
 * what lies behind each arena cannot be touched; else (Cortex-M0) the driver looks whether it was. */
#include "machine.h"

#define REGISTER(address) (*(volatile uint32_t *)(address))
#define GUARD 4096 /* a page of the emulator, or it is slow */

enum { OPEN = 0x01, WRITE = 0x05, EXIT = 0x18 };
enum { ENDED = 0x20026, FAULTED = 0x20023 };

static uint8_t arenas[ARENAS][ARENA + GUARD] __attribute__((aligned(GUARD)));
static uint32_t out;

#if __ARM_ARCH >= 7
const size_t machine_behind = 0;
#else
const size_t machine_behind = 32;
#endif

static uint32_t ask(uint32_t what, const void *with)
{
    register uint32_t r0 __asm__("r0") = what;
    register const void *r1 __asm__("r1") = with;
    __asm__ volatile("bkpt #0xab" : "+r"(r0) : "r"(r1) : "memory");
    return r0;
}

static void leave(uint32_t why)
{
    for (;;)
        ask(EXIT, (const void *)why);
}

uint8_t *machine_arena(unsigned which)
{
    return arenas[which] + ARENA;
}

void machine_write(const uint8_t *bytes, size_t len)
{
    const uint32_t block[3] = {out, (uint32_t)bytes, (uint32_t)len};
    if (ask(WRITE, block) != 0)
        leave(FAULTED);
}

static void guard(void)
{
#if __ARM_ARCH >= 7
    unsigned i;
#ifdef TRAP_UNALIGNED
    REGISTER(0xE000ED14) |= 8; /* UNALIGN_TRP */
#endif
    for (i = 0; i < ARENAS; i++) {
        REGISTER(0xE000ED9C) = (uint32_t)machine_arena(i) | 0x10 | i; /* base, valid, region */
        REGISTER(0xE000EDA0) = 11 << 1 | 1;                           /* no access, 4096 bytes, on */
    }
    REGISTER(0xE000ED94) = 5; /* on, all else as without it */
    __asm__ volatile("dsb\n isb" ::: "memory");
#endif
}

/* With hard float a double is moved through the float unit, which is off after a reset. */
static void float_unit(void)
{
#ifdef __ARM_FP
    REGISTER(0xE000ED88) |= 15 << 20; /* CPACR: full access */
    __asm__ volatile("dsb\n isb" ::: "memory");
#endif
}

static void start(void)
{
    static const char name[] = "/dev/stdout";
    const uint32_t block[3] = {(uint32_t)name, 5, sizeof name - 1};
    out = ask(OPEN, block);
    float_unit();
    guard();
    leave(driver() == 0 ? ENDED : FAULTED);
}

static void fault(void)
{
    leave(FAULTED);
}

extern uint32_t stack_top[];

__attribute__((section(".vectors"), used)) const void *const vectors[16] = {
    stack_top, (const void *)start, (const void *)fault, (const void *)fault, (const void *)fault, (const void *)fault,
};
