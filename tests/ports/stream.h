/* A part of driver.c: the stream, the slices that calls are lent, and the stack that they take. */

/* ---- the stream */

static uint8_t pending[4096];
static size_t pending_len;

static void flush(void)
{
    machine_write(pending, pending_len);
    pending_len = 0;
}

static void put8(uint8_t byte)
{
    if (pending_len == sizeof pending)
        flush();
    pending[pending_len++] = byte;
}

static void put16(uint16_t number)
{
    put8((uint8_t)number);
    put8((uint8_t)(number >> 8));
}

static void put32(uint32_t number)
{
    put16((uint16_t)number);
    put16((uint16_t)(number >> 16));
}

static void put64(uint64_t number)
{
    put32((uint32_t)number);
    put32((uint32_t)(number >> 32));
}

/* A double as its bits: -0 and +0 differ. */
static uint64_t bits_of(double x)
{
    union {
        double value;
        uint64_t bits;
    } both;
    both.value = x;
    return both.bits;
}

static void begin(uint8_t what, uint32_t len)
{
    put8(what);
    put32(len);
    calls += what != 0;
}

static void check(const char *name, int holds)
{
    uint32_t len = 0;
    while (name[len] != 0)
        len++;
    begin(0, len + 1);
    put8(holds != 0);
    while (*name != 0)
        put8((uint8_t)*name++);
    if (!holds)
        failed = 1;
}

/* A check named after a constant of uss.h: that `got` is it. */
#define SEEN(constant, got) check(#constant, (got) == (constant))

/* ---- slices */

#define BEFORE 16 /* bytes in front of a slice that are looked at after the call */

/* Copies a slice to the end of an arena; of none, gives NULL at each second call. */
static void *lend(unsigned which, const void *bytes, size_t size)
{
    uint8_t *end = machine_arena(which), *at = end - size;
    const uint8_t *from = bytes;
    size_t i;
    for (i = 0; i < BEFORE; i++)
        (at - BEFORE)[i] = (uint8_t)(0xA0 + i);
    for (i = 0; i < size; i++)
        at[i] = from[i];
    for (i = 0; i < machine_behind; i++)
        end[i] = (uint8_t)(0x50 + i);
    return size == 0 && calls % 2 ? NULL : at;
}

/* Whether nothing around a slice was touched. */
static int untouched(unsigned which, size_t size)
{
    const uint8_t *end = machine_arena(which), *at = end - size;
    size_t i;
    for (i = 0; i < BEFORE; i++)
        if ((at - BEFORE)[i] != (uint8_t)(0xA0 + i))
            return 0;
    for (i = 0; i < machine_behind; i++)
        if (end[i] != (uint8_t)(0x50 + i))
            return 0;
    return 1;
}

static size_t slice_bytes(int is_const, size_t size)
{
    return is_const ? 1 : 4 + size + 1;
}

/* A slice that cannot be written: whether it is as it was lent. */
static void same(unsigned which, const void *given, const void *lent, size_t size)
{
    const uint8_t *p = given, *q = lent;
    int kept = untouched(which, size);
    size_t i;
    for (i = 0; i < size; i++)
        kept &= p[i] == q[i];
    put8((uint8_t)kept);
    if (!kept)
        failed = 1;
}

/* A slice that can be written: all of it, also back to where it was copied from. */
static void left(unsigned which, void *given, const void *lent, size_t size)
{
    uint8_t *p = given;
    const uint8_t *q = lent;
    int kept = untouched(which, size);
    size_t i;
    put32((uint32_t)size);
    for (i = 0; i < size; i++) {
        p[i] = q[i];
        put8(q[i]);
    }
    put8((uint8_t)kept);
    if (!kept)
        failed = 1;
}

/* ---- stack: how far below its caller each call writes, where it is measured (-DSTACK, Arm) */

#ifdef STACK
#define PAINTED 2048
static uint32_t deepest[64];
#define PAINT                                                                                                          \
    volatile uint32_t *sp, *p;                                                                                         \
    __asm__ volatile("mov %0, sp" : "=r"(sp));                                                                         \
    for (p = sp - PAINTED / 4; p != sp; p++)                                                                           \
        *p = 0xC5C5C5C5u;
#define LOOK(call)                                                                                                     \
    for (p = sp - PAINTED / 4; p != sp && *p == 0xC5C5C5C5u; p++)                                                      \
        ;                                                                                                              \
    if (deepest[call] < 4 * (uint32_t)(sp - p))                                                                        \
        deepest[call] = 4 * (uint32_t)(sp - p);
#else
#define PAINT
#define LOOK(call)
#endif
