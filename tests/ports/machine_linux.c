/* Linux without a C library: each arena ends at a page that may not be touched. */
#include "machine.h"

#if defined(__x86_64__)
enum { WRITE = 1, MMAP = 9, MPROTECT = 10, EXIT = 60 };
__asm__(".globl _start\n_start: xor %ebp, %ebp\n and $-16, %rsp\n call machine_main\n hlt");
static long call(long n, long a, long b, long c, long d, long e, long f)
{
    register long r10 __asm__("r10") = d, r8 __asm__("r8") = e, r9 __asm__("r9") = f;
    __asm__ volatile("syscall" : "+a"(n) : "D"(a), "S"(b), "d"(c), "r"(r10), "r"(r8), "r"(r9) : "rcx", "r11", "memory");
    return n;
}
#elif defined(__arm__)
enum { WRITE = 4, MMAP = 192, MPROTECT = 125, EXIT = 1 };
__asm__(".globl _start\n.thumb_func\n_start: mov r0, sp\n lsrs r0, r0, #3\n lsls r0, r0, #3\n mov sp, r0\n"
        " bl machine_main\n udf #0");
static long call(long n, long a, long b, long c, long d, long e, long f)
{
    register long r7 __asm__("r7") = n, r0 __asm__("r0") = a, r1 __asm__("r1") = b, r2 __asm__("r2") = c, r3 __asm__("r3") = d,
                  r4 __asm__("r4") = e, r5 __asm__("r5") = f;
    __asm__ volatile("svc #0" : "+r"(r0) : "r"(r7), "r"(r1), "r"(r2), "r"(r3), "r"(r4), "r"(r5) : "memory");
    return r0;
}
#elif defined(__aarch64__)
enum { WRITE = 64, MMAP = 222, MPROTECT = 226, EXIT = 93 };
__asm__(".globl _start\n_start: mov x29, xzr\n bl machine_main\n udf #0");
static long call(long n, long a, long b, long c, long d, long e, long f)
{
    register long x8 __asm__("x8") = n, x0 __asm__("x0") = a, x1 __asm__("x1") = b, x2 __asm__("x2") = c, x3 __asm__("x3") = d,
                  x4 __asm__("x4") = e, x5 __asm__("x5") = f;
    __asm__ volatile("svc #0" : "+r"(x0) : "r"(x8), "r"(x1), "r"(x2), "r"(x3), "r"(x4), "r"(x5) : "memory");
    return x0;
}
#elif defined(__riscv)
enum { WRITE = 64, MMAP = 222, MPROTECT = 226, EXIT = 93 };
__asm__(".globl _start\n_start:\n.option push\n.option norelax\n la gp, __global_pointer$\n.option pop\n"
        " andi sp, sp, -16\n call machine_main\n unimp");
static long call(long n, long a, long b, long c, long d, long e, long f)
{
    register long a7 __asm__("a7") = n, a0 __asm__("a0") = a, a1 __asm__("a1") = b, a2 __asm__("a2") = c, a3 __asm__("a3") = d,
                  a4 __asm__("a4") = e, a5 __asm__("a5") = f;
    __asm__ volatile("ecall" : "+r"(a0) : "r"(a7), "r"(a1), "r"(a2), "r"(a3), "r"(a4), "r"(a5) : "memory");
    return a0;
}
#else
#error "no system calls for this machine"
#endif

#define GUARD 65536 /* at least a page, however long one is */
#define NONE 0
#define READ_WRITE 3
#define PRIVATE_ANONYMOUS 0x22

static uint8_t *ends[ARENAS];
const size_t machine_behind = 0;

static void leave(int status)
{
    for (;;)
        call(EXIT, status, 0, 0, 0, 0, 0);
}

uint8_t *machine_arena(unsigned which)
{
    return ends[which];
}

void machine_write(const uint8_t *bytes, size_t len)
{
    while (len > 0) {
        long n = call(WRITE, 1, (long)bytes, (long)len, 0, 0, 0);
        if (n <= 0)
            leave(3);
        bytes += n;
        len -= (size_t)n;
    }
}

__attribute__((used)) void machine_main(void)
{
    size_t size = (ARENA + GUARD - 1) / GUARD * GUARD;
    unsigned i;
    for (i = 0; i < ARENAS; i++) {
        long at = call(MMAP, 0, (long)(size + GUARD), READ_WRITE, PRIVATE_ANONYMOUS, -1, 0);
        if ((unsigned long)at > -4096ul || call(MPROTECT, at + (long)size, GUARD, NONE, 0, 0, 0) != 0)
            leave(3);
        ends[i] = (uint8_t *)at + size;
    }
    leave(driver());
}
