/* What a compiler's own library gives and the kit has none of: the functions that a driver or a call asks for by name. */
#include "machine.h"

void *memcpy(void *to, const void *from, size_t n)
{
    uint8_t *p = to;
    const uint8_t *q = from;
    while (n-- > 0)
        *p++ = *q++;
    return to;
}

void *memmove(void *to, const void *from, size_t n)
{
    uint8_t *p = to;
    const uint8_t *q = from;
    if ((uintptr_t)to <= (uintptr_t)from)
        return memcpy(to, from, n);
    while (n-- > 0)
        p[n] = q[n];
    return to;
}

void *memset(void *to, int byte, size_t n)
{
    uint8_t *p = to;
    while (n-- > 0)
        *p++ = (uint8_t)byte;
    return to;
}

size_t strlen(const char *text)
{
    size_t n = 0;
    while (text[n] != 0)
        n++;
    return n;
}

#if defined(__arm__)
void *__aeabi_memcpy(void *to, const void *from, size_t n)
{
    return memcpy(to, from, n);
}

void *__aeabi_memcpy4(void *to, const void *from, size_t n)
{
    return memcpy(to, from, n);
}

void *__aeabi_memmove(void *to, const void *from, size_t n)
{
    return memmove(to, from, n);
}

void *__aeabi_memset(void *to, size_t n, int byte)
{
    return memset(to, byte, n);
}

void *__aeabi_memclr(void *to, size_t n)
{
    return memset(to, 0, n);
}

void *__aeabi_memclr4(void *to, size_t n)
{
    return memset(to, 0, n);
}
#endif

/* Where the compiler's own library is linked, these are its. */
#ifndef WITH_LIBGCC
#if defined(__arm__)
/* Long division, a bit at a time. */
uint64_t divide64(uint64_t n, uint64_t d, uint64_t *rest)
{
    uint64_t quotient = 0, left = 0;
    int i;
    for (i = 0; i < 64; i++) {
        left = left << 1 | n >> 63;
        n <<= 1;
        quotient <<= 1;
        if (left >= d) {
            left -= d;
            quotient |= 1;
        }
    }
    *rest = left;
    return quotient;
}

/* Quotient in r0, rest in r1. */
uint64_t __aeabi_uidivmod(uint32_t n, uint32_t d)
{
    uint32_t quotient = 0, left = 0;
    int i;
    for (i = 0; i < 32; i++) {
        left = left << 1 | n >> 31;
        n <<= 1;
        quotient <<= 1;
        if (left >= d) {
            left -= d;
            quotient |= 1;
        }
    }
    return (uint64_t)left << 32 | quotient;
}

uint32_t __aeabi_uidiv(uint32_t n, uint32_t d)
{
    return (uint32_t)__aeabi_uidivmod(n, d);
}

/* Quotient in r0 and r1, rest in r2 and r3. */
__attribute__((naked)) void __aeabi_uldivmod(void)
{
    __asm__("push {r6, lr}\n sub sp, #16\n add r6, sp, #8\n str r6, [sp]\n bl divide64\n ldr r2, [sp, #8]\n ldr r3, [sp, #12]\n"
            " add sp, #16\n pop {r6, pc}");
}
#endif
#endif
