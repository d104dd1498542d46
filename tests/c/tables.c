/* Tables by the macros of uss.h: the same bytes as by hand and as packed at run time, each kind, at the ends of its range. It is
 * compiled as C99 and as C++11, with every warning about a conversion an error. */
#include "uss.h"

#include <stdio.h>
#include <string.h>

static int failed = 0;

static void expect(int good, const char *what)
{
    if (!good) {
        printf("FAILED: %s\n", what);
        failed = 1;
    }
}

/* the fields of a record, as they are written: kind is 2 for a double, and 1 more where it is signed */
typedef struct {
    uint32_t number, kind, access, elements;
    int64_t minimum, maximum;
} fields;

#define EACH(WORD, SIGNED_WORD, DOUBLE, SIGNED_DOUBLE) \
    WORD(0, USS_READ_ONLY, 0, 0, 0), \
    WORD(1, USS_WRITABLE, 1, 0, 65535), \
    WORD(127, USS_READ_ONLY, 3, 65535, 65535), \
    WORD(128, USS_WRITABLE, 4, 255, 256), \
    SIGNED_WORD(1082, USS_WRITABLE, 2, -100, 100), \
    SIGNED_WORD(1083, USS_READ_ONLY, 253, -32768, 32767), \
    SIGNED_WORD(2000, USS_WRITABLE, 0, -1, -1), \
    DOUBLE(2001, USS_READ_ONLY, 0, 0, 4294967295u), \
    DOUBLE(16384, USS_WRITABLE, 254, 65536, 0x80000000u), \
    SIGNED_DOUBLE(16385, USS_WRITABLE, 5, -2147483647 - 1, 2147483647), \
    SIGNED_DOUBLE(31998, USS_READ_ONLY, 0, -65536, -1), \
    SIGNED_DOUBLE(31999, USS_WRITABLE, 0, 0, 0)

static const uint8_t table[] = {EACH(USS_WORD, USS_SIGNED_WORD, USS_DOUBLE, USS_SIGNED_DOUBLE)};

#define PLAIN(number, access, elements, minimum, maximum) {number, 0, access, elements, minimum, maximum}
#define SIGNED(number, access, elements, minimum, maximum) {number, 1, access, elements, minimum, maximum}
#define WIDE(number, access, elements, minimum, maximum) {number, 2, access, elements, minimum, maximum}
#define WIDE_SIGNED(number, access, elements, minimum, maximum) {number, 3, access, elements, minimum, maximum}
static const fields wanted[] = {EACH(PLAIN, SIGNED, WIDE, WIDE_SIGNED)};
#define RECORDS (sizeof wanted / sizeof wanted[0])

/* the first, a signed word with two elements, and the last two, by hand */
static const uint8_t by_hand[4][12] = {
    {0x00, 0x00, 0x00, 0x00, 0, 0, 0, 0, 0, 0, 0, 0},
    {0x08, 0x74, 0xC0, 0x80, 0, 0, 0xFF, 0x9C, 0, 0, 0, 100},
    {0xF9, 0xFD, 0x80, 0x00, 0xFF, 0xFF, 0, 0, 0xFF, 0xFF, 0xFF, 0xFF},
    {0xF9, 0xFF, 0xC0, 0x00, 0, 0, 0, 0, 0, 0, 0, 0}
};

/* a number's four bytes, high byte first */
static void put(uint8_t *p, uint32_t x)
{
    int i;
    for (i = 0; i < 4; i++)
        p[i] = (uint8_t)(x >> (24 - 8 * i));
}

/* a limit or value of a kind as its 32 bits */
static uint32_t bits_of(uint32_t kind, int64_t x)
{
    return kind < 2 ? (uint32_t)x & 0xFFFFu : (uint32_t)x;
}

static void packed_the_same(void)
{
    size_t k;
    expect(sizeof table == USS_RECORD * RECORDS, "twelve bytes a record");
    for (k = 0; k < RECORDS; k++) {
        const fields f = wanted[k];
        uint8_t want[12];
        put(want, f.number << 17 | f.kind << 15 | f.access << 14 | f.elements << 6);
        put(want + 4, bits_of(f.kind, f.minimum));
        put(want + 8, bits_of(f.kind, f.maximum));
        expect(memcmp(table + 12 * k, want, 12) == 0, "a record by its macro is the one that is packed");
    }
    expect(memcmp(table, by_hand[0], 12) == 0, "the first record by hand");
    expect(memcmp(table + 12 * 4, by_hand[1], 12) == 0, "the signed word by hand");
    expect(memcmp(table + 12 * (RECORDS - 2), by_hand[2], 24) == 0, "the last two records by hand");
    puts("packed the same");
}

/* the table passes, with each value at its minimum and then at its maximum; one value fewer does not */
static void passes(void)
{
    static uint32_t low[600], high[600];
    static uint8_t reply[USS_BUFFER];
    const uss_setup setup = {3, 4, 2};
    const uss_words none = {0, 0, 0, 0};
    size_t k, i, n = 0;
    for (k = 0; k < RECORDS; k++)
        for (i = 0; i < (wanted[k].elements == 0 ? 1 : wanted[k].elements); i++, n++) {
            low[n] = bits_of(wanted[k].kind, wanted[k].minimum);
            high[n] = bits_of(wanted[k].kind, wanted[k].maximum);
        }
    expect(uss_slave(setup, table, sizeof table, low, n, none, none, NULL, 0, reply, sizeof reply).number == USS_SHORT, "all at the minimum");
    expect(uss_slave(setup, table, sizeof table, high, n, none, none, NULL, 0, reply, sizeof reply).number == USS_SHORT, "all at the maximum");
    expect(uss_check_table(table, sizeof table, low, n).number == 0 && uss_check_table(table, sizeof table, high, n).number == 0, "no rule is broken");
    expect(uss_slave(setup, table, sizeof table, low, n - 1, none, none, NULL, 0, reply, sizeof reply).number == USS_BAD_VALUES, "one value fewer");
    expect(USS_WORD_VALUE(-100) == 0xFF9C && USS_WORD_VALUE(65535) == 65535 && USS_WORD_VALUE(0) == 0, "values of words");
    puts("passes");
}

int main(void)
{
    packed_the_same();
    passes();
    if (!failed)
        puts("all as expected");
    return failed;
}
