/* Each call once from C: known telegrams (K1 to K6, K9, K10 of document 01), bad use, each rule of a table broken, lines for the
 * receiver (W-201), figures for a panel (W-204), lists of first places and views of a table (W-205). Prints a line for each group. */
#define _DEFAULT_SOURCE
#include "uss.h"

#include <stdio.h>
#include <stdlib.h>
#include <string.h>
#include <sys/mman.h>

static int failed = 0;

static void expect(int good, const char *what)
{
    if (!good) {
        printf("FAILED: %s\n", what);
        failed = 1;
    }
}

/* `len` bytes that end where memory ends: one byte further is a crash. */
static uint8_t *at_the_end(size_t len)
{
    size_t page = 4096;
    uint8_t *p = mmap(NULL, 3 * page, PROT_READ | PROT_WRITE, MAP_PRIVATE | MAP_ANONYMOUS, -1, 0);
    if (p == MAP_FAILED || mprotect(p + 2 * page, page, PROT_NONE) != 0) {
        perror("mmap");
        exit(2);
    }
    memset(p, 0xEE, 2 * page);
    return p + 2 * page - len;
}

static int all_are(const uint8_t *bytes, size_t from, size_t to, uint8_t what)
{
    size_t i;
    for (i = from; i < to; i++)
        if (bytes[i] != what)
            return 0;
    return 1;
}

static int same_words(uss_words a, uss_words b)
{
    return a.w1 == b.w1 && a.w2 == b.w2 && a.w3 == b.w3 && a.w4 == b.w4;
}

static const uint8_t k2[16] = {0x02, 0x0E, 0x03, 0x14, 0x3A, 0, 0, 0, 0, 0, 0, 0x04, 0x7F, 0x20, 0, 0x7A};
static const uint8_t k3[16] = {0x02, 0x0E, 0x03, 0x14, 0x3A, 0, 0, 0, 0, 0x13, 0x88, 0x03, 0x31, 0x20, 0, 0xA8};
static const uint8_t k4[16] = {0x02, 0x0E, 0x03, 0x74, 0x3A, 0, 0, 0, 0, 0, 0, 0x03, 0x31, 0x20, 0, 0x53};
/* parameter 1082, unsigned word, writable, 0 to 65000 */
static const uint8_t record[12] = {0x08, 0x74, 0x40, 0, 0, 0, 0, 0, 0, 0, 0xFD, 0xE8};
static const uss_setup setup = {3, 4, 2};
static const uss_words command = {0x047F, 0x2000, 0, 0};
static const uss_words status = {0x0331, 0x2000, 0, 0};
static const uss_words held = {0x047E, 0x1111, 0x2222, 0x3333};
static const uss_words none = {0, 0, 0, 0};

static void known_telegrams(void)
{
    uint8_t *out = at_the_end(256), *reply = at_the_end(256), damaged[16], broadcast[16];
    uint32_t value = 5000;
    uss_built b;
    uss_answer a;
    uss_reply r;
    uss_words after = {0x047F, 0x2000, 0x2222, 0x3333}, k9_after = {0x047F, 0x1111, 0x2222, 0x3333}, w = {0x0401, 0x2000, 0, 0};

    expect(uss_bcc((const uint8_t *)"\x02\x07\x00\x04\x00\x21\x00\x1C", 8) == 0x3C, "K1, first");
    expect(uss_bcc((const uint8_t *)"\x02\x05\x00\x00\x0C\x06", 6) == 0x0D, "K1, second");

    b = uss_build_task(setup, USS_READ, 1082, 0, 0, command, out, 256);
    expect(b.number == USS_DONE && b.length == 16 && memcmp(out, k2, 16) == 0, "K2 is built");
    expect(all_are(out, 16, 256, 0xEE), "only the telegram is written");

    a = uss_slave(setup, record, 12, &value, 1, held, status, k2, 16, reply, 256);
    expect(a.number == USS_REPLIED && a.length == 16 && memcmp(reply, k3, 16) == 0, "K3 answers K2");
    expect(same_words(a.control, after), "K2's process words are taken, the rest is held");
    expect(all_are(reply, 16, 256, 0xEE) && value == 5000, "only the reply is written");
    r = uss_read_reply(setup, USS_READ, 1082, 0, 0, command, k3, 16);
    expect(r.number == USS_DONE && r.id == USS_ID_WORD && r.value == 5000 && same_words(r.process, status), "K3 is read");

    a = uss_slave(setup, NULL, 0, NULL, 0, held, status, k2, 16, reply, 256);
    expect(a.number == USS_REPLIED && a.length == 16 && memcmp(reply, k4, 16) == 0, "K4 answers K2 without such a parameter");
    r = uss_read_reply(setup, USS_READ, 1082, 0, 0, command, k4, 16);
    expect(r.number == USS_DONE && r.id == USS_ID_ERROR && r.value == USS_NO_PARAMETER, "K4 is read");

    memset(reply, 0xEE, 256);
    memcpy(damaged, k2, 16);
    damaged[15] = 0x7B;
    a = uss_slave(setup, record, 12, &value, 1, held, status, damaged, 16, reply, 256);
    expect(a.number == USS_CHECK && a.length == 0 && same_words(a.control, held), "K5");
    memcpy(damaged, k2, 16);
    damaged[1] = 0x0F;
    a = uss_slave(setup, record, 12, &value, 1, held, status, damaged, 16, reply, 256);
    expect(a.number == USS_COUNT && a.length == 0, "K6");
    expect(all_are(reply, 0, 256, 0xEE), "a refusal writes nothing");

    b = uss_build_broadcast(setup, 6, 0x0401, 0, w, out, 256);
    expect(b.number == USS_DONE && b.length == 16 && out[2] == 0x20, "K9 is built");
    memcpy(broadcast, out, 16);
    a = uss_slave(setup, record, 12, &value, 1, held, status, broadcast, 16, reply, 256);
    expect(a.number == USS_TAKEN && a.length == 0 && same_words(a.control, k9_after), "K9");
    b = uss_build_broadcast(setup, 2, 0xFFFF, 0, command, out, 256);
    memcpy(broadcast, out, 16);
    a = uss_slave(setup, record, 12, &value, 1, held, status, broadcast, 16, reply, 256);
    expect(b.number == USS_DONE && a.number == USS_TAKEN && same_words(a.control, k9_after), "K10");
    expect(all_are(reply, 0, 256, 0xEE), "a broadcast is not answered");

    b = uss_build_mirror(setup, (const uint8_t *)"any", 3, out, 256);
    expect(b.number == USS_DONE && b.length == 7 && out[2] == 0x43, "a mirror is built");
    a = uss_slave(setup, record, 12, &value, 1, held, status, out, 7, reply, 256);
    expect(a.number == USS_MIRRORED && a.length == 7 && memcmp(reply, out, 7) == 0 && same_words(a.control, held), "a mirror comes back");
    puts("known telegrams");
}

/* The index in plain tasks, beside tasks 6 and 9: built, served and read. */
static void indexes(void)
{
    static const uint8_t table[] = {USS_WORD(700, USS_WRITABLE, 2, 0, 65535), USS_WORD(701, USS_WRITABLE, 0, 0, 65535),
                                    USS_DOUBLE(702, USS_WRITABLE, 2, 0, 0xFFFFFFFFu)};
    /* the reply's ID and value; the place that is changed, 5 for none */
    static const struct {
        uint16_t parameter;
        uint8_t task, index;
        uint32_t id, value, place;
    } cases[] = {
        {700, 1, 1, USS_ID_WORD, 11, 5}, {700, 1, 2, USS_ID_ERROR, USS_NO_ELEMENT, 5},
        {700, 6, 1, USS_ID_ELEMENT_WORD, 11, 5}, {700, 6, 2, USS_ID_ERROR, USS_NO_ELEMENT, 5},
        {700, 2, 1, USS_ID_WORD, 99, 1}, {700, 2, 2, USS_ID_ERROR, USS_NO_ELEMENT, 5},
        {700, 14, 1, USS_ID_WORD, 99, 1}, {700, 14, 2, USS_ID_ERROR, USS_NO_ELEMENT, 5},
        {700, 9, 254, USS_ID_ELEMENTS, 2, 5},
        {701, 1, 1, USS_ID_WORD, 12, 5}, {701, 1, 2, USS_ID_ERROR, USS_NO_ARRAY, 5},
        {701, 2, 1, USS_ID_WORD, 99, 2}, {701, 2, 2, USS_ID_ERROR, USS_NO_ARRAY, 5},
        {701, 14, 1, USS_ID_WORD, 99, 2}, {701, 14, 254, USS_ID_ERROR, USS_NO_ARRAY, 5},
        {702, 1, 0, USS_ID_DOUBLE, 13, 5}, {702, 1, 1, USS_ID_DOUBLE, 14, 5},
        {702, 3, 1, USS_ID_DOUBLE, 99, 4}, {702, 3, 2, USS_ID_ERROR, USS_NO_ELEMENT, 5},
        {702, 13, 1, USS_ID_DOUBLE, 99, 4}, {702, 13, 2, USS_ID_ERROR, USS_NO_ELEMENT, 5},
    };
    uint8_t *out = at_the_end(256), *reply = at_the_end(256);
    size_t i, k;

    for (i = 0; i < sizeof cases / sizeof cases[0]; i++) {
        uint16_t parameter = cases[i].parameter;
        uint8_t task = cases[i].task, index = cases[i].index;
        uint32_t values[5] = {10, 11, 12, 13, 14}, value = task == 1 || task == 6 || task == 9 ? 0 : 99;
        uss_built b = uss_build_task(setup, task, parameter, index, value, command, out, 256);
        uss_answer a = uss_slave(setup, table, sizeof table, values, 5, held, status, out, b.length, reply, 256);
        uss_reply r = uss_read_reply(setup, task, parameter, index, value, command, reply, a.length);
        int good = b.number == USS_DONE && a.number == USS_REPLIED && r.number == USS_DONE && r.id == cases[i].id
                   && r.value == cases[i].value;
        char what[60];
        for (k = 0; k < 5; k++)
            good &= values[k] == (k == cases[i].place ? 99 : 10 + k);
        snprintf(what, sizeof what, "task %u of parameter %u, index %u", (unsigned)task, (unsigned)parameter, (unsigned)index);
        expect(good, what);
    }
    puts("indexes");
}

static void short_buffers(void)
{
    uint8_t *small = at_the_end(255), *text = at_the_end(64);
    uint32_t value = 5000;
    const char *want = "telegram listing 1\nbytes 16 lge 14 node 3 normal\nbcc 122\n";
    size_t n = strlen(want), room;

    expect(uss_slave(setup, record, 12, &value, 1, held, status, k2, 16, small, 255).number == USS_SHORT_REPLY, "23");
    expect(uss_build_task(setup, USS_READ, 1082, 0, 0, command, small, 255).number == USS_SHORT_OUT, "32, task");
    expect(uss_build_mirror(setup, k2, 16, small, 255).number == USS_SHORT_OUT, "32, mirror");
    expect(uss_build_broadcast(setup, 2, 0x400, 0, command, small, 255).number == USS_SHORT_OUT, "32, broadcast");
    expect(all_are(small, 0, 255, 0xEE), "nothing is written to a short buffer");
    for (room = 0; room < n; room++)
        expect(uss_list(k2, 16, text + 64 - room, room) == 0, "no room for the listing");
    expect(all_are(text, 0, 64, 0xEE), "nothing is written without room for all");
    expect(uss_list(k2, 16, text + 64 - n, n) == n && memcmp(text + 64 - n, want, n) == 0, "the listing just fits");
    puts("short buffers");
}

/* LGE says more than was received: the bytes end where memory ends. */
static void lying_lengths(void)
{
    uint8_t *got = at_the_end(16), *reply = at_the_end(256), *text = at_the_end(64);
    uint32_t value = 5000;
    int lge;

    for (lge = 0; lge < 256; lge++) {
        uint32_t number;
        memcpy(got, k2, 16);
        got[1] = (uint8_t)lge;
        number = lge == 14 ? USS_REPLIED : lge < 3 || lge > 254 ? USS_LGE : USS_COUNT;
        expect(uss_slave(setup, record, 12, &value, 1, held, status, got, 16, reply, 256).number == number, "slave, LGE lies");
        number = lge == 14 ? USS_DONE : lge < 3 || lge > 254 ? USS_LGE : USS_COUNT;
        expect(uss_read_reply(setup, USS_READ, 1082, 0, 0, command, got, 16).number == number, "reading, LGE lies");
        expect(uss_list(got, 16, text, 64) > 0, "listing, LGE lies");
    }
    puts("lying lengths");
}

static void empty_slices(void)
{
    uint8_t *reply = at_the_end(256), *end = at_the_end(0), *text = at_the_end(64);
    uss_setup areas = {3, 0, 2};

    expect(uss_slave(setup, NULL, 0, NULL, 0, held, status, NULL, 0, reply, 256).number == USS_SHORT, "nothing received");
    expect(uss_slave(setup, NULL, 0, NULL, 0, held, status, NULL, 0, NULL, 0).number == USS_SHORT_REPLY, "nothing at all");
    expect(uss_slave(setup, end, 0, (uint32_t *)(void *)end, 0, held, status, end, 0, end, 0).number == USS_SHORT_REPLY, "empty at the end");
    expect(uss_slave(setup, record, 12, NULL, 0, held, status, k2, 16, reply, 256).number == USS_BAD_VALUES, "no values");
    expect(uss_slave(setup, record, 11, NULL, 0, held, status, k2, 16, reply, 256).number == USS_BAD_TABLE, "half a record");
    expect(uss_build_task(setup, 1, 1, 0, 0, none, NULL, 0).number == USS_SHORT_OUT, "no buffer for a task");
    expect(uss_build_mirror(setup, NULL, 0, NULL, 0).number == USS_NOT_ASKABLE, "no net bytes");
    expect(uss_build_broadcast(areas, 2, 0x400, 0, command, NULL, 0).number == USS_NOT_ASKABLE, "a broadcast without an area");
    expect(uss_read_reply(setup, 1, 1, 0, 0, none, NULL, 0).number == USS_SHORT, "no reply");
    expect(uss_read_reply(setup, 4, 1, 0, 0, none, NULL, 0).number == USS_NOT_ASKABLE, "no such task");
    expect(uss_list(NULL, 0, NULL, 0) == 0, "no buffer for a listing");
    expect(uss_list(NULL, 0, text, 64) == 38 && memcmp(text, "telegram listing 1\nbytes 0 refused 10\n", 38) == 0, "a listing of nothing");
    expect(uss_bcc(NULL, 0) == 0, "the XOR of nothing");
    expect(all_are(reply, 0, 256, 0xEE), "nothing was written");
    puts("empty slices");
}

/* 1000: two words, 0 to 10; 1082: a signed word, -100 to 100 */
static const uint8_t two_records[24] = {
    USS_WORD(1000, USS_WRITABLE, 2, 0, 10),
    USS_SIGNED_WORD(1082, USS_WRITABLE, 0, -100, 100)
};

/* Record k of a table of many: number k, 8 elements, 0 to 0. */
static void put_many(uint8_t *table, size_t k)
{
    memset(table + 12 * k, 0, 12);
    table[12 * k] = (uint8_t)(k / 128);
    table[12 * k + 1] = (uint8_t)(k % 128 * 2);
    table[12 * k + 2] = 2;
}

static int tells(uss_table_check c, uint32_t number, uint32_t rule, uint32_t record_at, uint32_t place)
{
    return c.number == number && c.rule == rule && c.record == record_at && c.place == place;
}

/* Each rule by one slip in a table at the end of memory. */
static void broken_rules(void)
{
    static const struct {
        size_t at;
        uint8_t byte, next;
        uint32_t rule;
    } slips[] = {
        {12, 0x07, 0xD0, USS_RULE_NUMBER_ORDER},  /* 1000 again */
        {12, 0xFA, 0x00, USS_RULE_HIGH_NUMBER},   /* 32000 */
        {14, 0xFF, 0xC0, USS_RULE_MANY_ELEMENTS}, /* 255 */
        {14, 0xC0, 0x01, USS_RULE_SPARE_BIT},
        {16, 0xFF, 0xFF, USS_RULE_UPPER_HALF},    /* -100 of 32 bits */
        {18, 0x00, 0x9C, USS_RULE_LIMIT_ORDER}    /* 156 to 100 */
    };
    uint8_t *table = at_the_end(24), *many = at_the_end(12 * 513);
    uint32_t *values = (uint32_t *)(void *)at_the_end(12);
    size_t i;

    memcpy(table, two_records, 24);
    values[0] = 0;
    values[1] = 10;
    values[2] = 0xFF9C;
    expect(tells(uss_check_table(table, 24, values, 3), 0, USS_RULE_KEPT, 0, 0), "no rule is broken");
    expect(tells(uss_check_table(NULL, 0, NULL, 0), 0, USS_RULE_KEPT, 0, 0), "a table of nothing");
    expect(tells(uss_check_table(table + 1, 23, values, 3), USS_BAD_TABLE, USS_RULE_PART_RECORD, 1, 0), "half a record");
    expect(tells(uss_check_table(table, 24, values, 2), USS_BAD_VALUES, USS_RULE_VALUE_COUNT, 2, 3), "a value too few");
    values[2] = 0xFF9B;
    expect(tells(uss_check_table(table, 24, values, 3), USS_BAD_VALUES, USS_RULE_OUTSIDE_LIMITS, 1, 2), "-101");
    values[1] = 11;
    expect(tells(uss_check_table(table, 24, values, 3), USS_BAD_VALUES, USS_RULE_OUTSIDE_LIMITS, 0, 1), "the first of two");
    for (i = 0; i < sizeof slips / sizeof slips[0]; i++) {
        memcpy(table, two_records, 24);
        table[slips[i].at] = slips[i].byte;
        table[slips[i].at + 1] = slips[i].next;
        expect(tells(uss_check_table(table, 24, values, 3), USS_BAD_TABLE, slips[i].rule, 1, 0), "a slip in the second record");
    }
    for (i = 0; i < 513; i++)
        put_many(many, i);
    expect(tells(uss_check_table(many, 12 * 513, values, 3), USS_BAD_TABLE, USS_RULE_MANY_RECORDS, 512, 0), "513 records");
    expect(tells(uss_check_table(many, 12 * 512, values, 3), USS_BAD_VALUES, USS_RULE_VALUE_COUNT, 512, 4096), "4096 places");
    many[12 * 500 + 3] = 0x40;
    expect(tells(uss_check_table(many, 12 * 512, values, 3), USS_BAD_TABLE, USS_RULE_MANY_PLACES, 511, 0), "4097 places");
    puts("broken rules");
}

/* ---- lists of first places, views of a table */

/* 700: one value; 701: three; 702: one; 703: an array of one; 704: two */
static const uint8_t five_records[60] = {
    USS_WORD(700, USS_WRITABLE, 0, 0, 99),
    USS_SIGNED_WORD(701, USS_READ_ONLY, 3, -100, 100),
    USS_DOUBLE(702, USS_WRITABLE, 0, 0, 4294967295),
    USS_SIGNED_DOUBLE(703, USS_WRITABLE, 1, -70000, 70000),
    USS_WORD(704, USS_WRITABLE, 2, 0, 65535)
};
static const uint16_t five_places[5] = {0, 1, 4, 5, 6};

/* `count` 16-bit numbers that end where memory ends. */
static uint16_t *places_at_the_end(const uint16_t *from, size_t count)
{
    uint16_t *places = (uint16_t *)(void *)at_the_end(2 * count);
    if (from != NULL)
        memcpy(places, from, 2 * count);
    return places;
}

static void filled_lists(void)
{
    uint8_t *table = at_the_end(60), *many = at_the_end(12 * 513), *end = at_the_end(0);
    uint16_t *places = places_at_the_end(NULL, 5), *long_list = places_at_the_end(NULL, 513);
    size_t i;
    int good = 1;

    memcpy(table, five_records, 60);
    expect(uss_fill_places(table, 60, places, 5) == USS_DONE && memcmp(places, five_places, 10) == 0, "a list is filled");
    expect(all_are((uint8_t *)(places - 20), 0, 40, 0xEE), "nothing before it is written");
    expect(uss_fill_places(table, 60, places, 5) == USS_DONE && memcmp(places, five_places, 10) == 0, "and filled again");
    memset(places, 0xEE, 10);
    expect(uss_fill_places(table, 60, places + 1, 4) == USS_BAD_PLACES, "a list too short");
    expect(uss_fill_places(table, 48, places, 5) == USS_BAD_PLACES, "a list too long");
    expect(uss_fill_places(NULL, 0, places, 5) == USS_BAD_PLACES, "a list for no records");
    expect(uss_fill_places(table, 60, NULL, 0) == USS_BAD_PLACES, "no list for five records");
    expect(uss_fill_places(table + 1, 59, places, 5) == USS_BAD_TABLE, "half a record");
    table[51] |= 1;
    expect(uss_fill_places(table, 60, places, 5) == USS_BAD_TABLE && uss_fill_places(table, 60, NULL, 0) == USS_BAD_TABLE, "21 before 25");
    expect(all_are((uint8_t *)places, 0, 10, 0xEE), "a refusal writes nothing to a list");
    expect(uss_fill_places(NULL, 0, NULL, 0) == USS_DONE && uss_fill_places(end, 0, (uint16_t *)(void *)end, 0) == USS_DONE,
           "an empty list for an empty table");

    for (i = 0; i < 513; i++)
        put_many(many, i);
    expect(uss_fill_places(many, 12 * 513, long_list, 513) == USS_BAD_TABLE && all_are((uint8_t *)long_list, 0, 1026, 0xEE), "513 records");
    expect(uss_fill_places(many, 12 * 512, long_list + 1, 512) == USS_DONE, "512 records");
    for (i = 0; i < 512; i++)
        good &= long_list[1 + i] == 8 * i;
    expect(good && all_are((uint8_t *)long_list, 0, 2, 0xEE), "places up to 4088");
    many[12 * 500 + 3] = 0x40;
    expect(uss_fill_places(many, 12 * 512, long_list + 1, 512) == USS_BAD_TABLE, "4097 places");
    puts("filled lists");
}

/* Each task with a right list as without one; each wrong list refused, and nothing written. */
static void lent_lists(void)
{
    static const uint32_t given[8] = {5, 0xFF9C, 0, 100, 70000, 0xFFFFFFFF, 6000, 6001};
    static const uss_setup bad = {32, 4, 2};
    uint8_t *table = at_the_end(60), *telegram = at_the_end(16), *reply = at_the_end(256), other[256];
    uint32_t *values = (uint32_t *)(void *)at_the_end(32), others[8];
    uint16_t *places = places_at_the_end(five_places, 5), six[6] = {0, 1, 4, 5, 6, 8};
    uss_answer a, b;
    uint32_t parameter, task, index;
    size_t i;

    memcpy(table, five_records, 60);
    for (parameter = 699; parameter < 706; parameter++)
        for (task = 0; task < 16; task++)
            for (index = 0; index < 4; index++) {
                uint32_t value = 7 + index;
                uint8_t net[12] = {0};
                net[0] = (uint8_t)(task << 4 | parameter >> 8);
                net[1] = (uint8_t)parameter;
                net[3] = (uint8_t)index;
                net[7] = (uint8_t)value;
                net[8] = 4;
                memcpy(telegram, "\x02\x0E\x03", 3);
                memcpy(telegram + 3, net, 12);
                telegram[15] = uss_bcc(telegram, 15);
                memcpy(values, given, 32);
                memcpy(others, given, 32);
                memset(reply, 0xEE, 256);
                memset(other, 0xEE, 256);
                a = uss_slave_listed(setup, table, 60, values, 8, places, 5, held, status, telegram, 16, reply, 256);
                b = uss_slave(setup, table, 60, others, 8, held, status, telegram, 16, other, 256);
                expect(a.number == USS_REPLIED && a.number == b.number && a.length == b.length && same_words(a.control, b.control)
                       && memcmp(reply, other, 256) == 0 && memcmp(values, others, 32) == 0, "with a list as without");
            }
    expect(memcmp(places, five_places, 10) == 0, "a list is only read");

    memcpy(telegram, k2, 16);
    memcpy(values, given, 32);
    memset(reply, 0xEE, 256);
    for (i = 0; i < 5; i++) {
        places[i] ^= 1;
        a = uss_slave_listed(setup, table, 60, values, 8, places, 5, held, status, telegram, 16, reply, 256);
        expect(a.number == USS_BAD_PLACES && a.length == 0 && same_words(a.control, held), "one entry is wrong");
        places[i] ^= 0x8001;
        expect(uss_slave_listed(setup, table, 60, values, 8, places, 5, held, status, NULL, 0, NULL, 0).number == USS_BAD_PLACES, "25 before 23");
        places[i] = five_places[i];
    }
    expect(uss_slave_listed(setup, table, 60, values, 8, places, 4, held, status, telegram, 16, reply, 256).number == USS_BAD_PLACES,
           "a list too short");
    expect(uss_slave_listed(setup, table, 60, values, 8, six, 6, held, status, telegram, 16, reply, 256).number == USS_BAD_PLACES,
           "a list too long");
    expect(uss_slave_listed(setup, table, 60, values, 8, NULL, 0, held, status, telegram, 16, reply, 256).number == USS_BAD_PLACES,
           "an empty list is not no list");
    expect(uss_slave_listed(setup, NULL, 0, NULL, 0, six, 1, held, status, telegram, 16, reply, 256).number == USS_BAD_PLACES,
           "a list for no records");
    expect(uss_slave_listed(bad, table, 59, values, 7, NULL, 0, held, status, NULL, 0, NULL, 0).number == USS_BAD_SETUP, "20 first");
    expect(uss_slave_listed(setup, table, 59, values, 7, NULL, 0, held, status, NULL, 0, NULL, 0).number == USS_BAD_TABLE, "then 21");
    expect(uss_slave_listed(setup, table, 60, values, 7, NULL, 0, held, status, NULL, 0, NULL, 0).number == USS_BAD_VALUES, "then 22");
    expect(uss_slave_listed(setup, table, 60, values, 8, NULL, 0, held, status, NULL, 0, NULL, 0).number == USS_BAD_PLACES, "then 25");
    expect(uss_slave_listed(setup, table, 60, values, 8, places, 5, held, status, NULL, 0, NULL, 0).number == USS_SHORT_REPLY, "then 23");
    expect(uss_slave_listed(setup, table, 60, values, 8, places, 5, held, status, NULL, 0, reply, 256).number == USS_SHORT, "then 10");
    expect(all_are(reply, 0, 256, 0xEE) && memcmp(values, given, 32) == 0, "a refusal writes nothing");
    a = uss_slave_listed(setup, NULL, 0, NULL, 0, NULL, 0, held, status, k2, 16, reply, 256);
    expect(a.number == USS_REPLIED && a.length == 16 && memcmp(reply, k4, 16) == 0, "an empty list with an empty table");
    puts("lent lists");
}

static uss_view standing(uint32_t number, uint32_t at)
{
    uss_view v;
    v.number = number;
    v.at = at;
    return v;
}

static int stands(uss_view v, uint32_t number, uint32_t at)
{
    return v.number == number && v.at == at;
}

static int is_record(uss_record r, uint32_t parameter, uint32_t is_double, uint32_t is_signed, uint32_t writable, uint32_t elements,
                     uint32_t minimum, uint32_t maximum)
{
    return r.there == 1 && r.parameter == parameter && r.is_double == is_double && r.is_signed == is_signed && r.writable == writable
           && r.elements == elements && r.minimum == minimum && r.maximum == maximum;
}

static int is_none(uss_record r)
{
    return (r.there | r.parameter | r.is_double | r.is_signed | r.writable | r.elements | r.minimum | r.maximum) == 0;
}

static void views(void)
{
    static const uint32_t numbers[] = {1, 21, 22, 0x80000000u, 0xFFFFFFFFu};
    static const uint32_t far[] = {5, 6, 511, 512, 513, 0x15555556u, 0x80000000u, 0xFFFFFFFFu};
    uint8_t *table = at_the_end(60), *many = at_the_end(12 * 513);
    uss_view v;
    size_t i;

    memcpy(table, five_records, 60);
    v = uss_view_open(table, 60);
    expect(stands(v, USS_DONE, 0), "a view is opened");
    expect(is_record(uss_view_show(table, 60, v), 700, 0, 0, 1, 0, 0, 99), "the first record");
    expect(is_record(uss_view_show(table, 60, v), 700, 0, 0, 1, 0, 0, 99), "it is shown as often as it is asked for");
    v = uss_view_step(table, 60, v);
    expect(stands(v, USS_DONE, 1) && is_record(uss_view_show(table, 60, v), 701, 0, 1, 0, 3, 0xFF9C, 100), "the second");
    v = uss_view_step(table, 60, v);
    expect(is_record(uss_view_show(table, 60, v), 702, 1, 0, 1, 0, 0, 0xFFFFFFFFu), "the third");
    v = uss_view_step(table, 60, v);
    expect(is_record(uss_view_show(table, 60, v), 703, 1, 1, 1, 1, 0xFFFEEE90u, 70000), "the fourth");
    v = uss_view_step(table, 60, v);
    expect(stands(v, USS_DONE, 4) && is_record(uss_view_show(table, 60, v), 704, 0, 0, 1, 2, 0, 65535), "the last");
    v = uss_view_step(table, 60, v);
    expect(stands(v, USS_DONE, 5) && is_none(uss_view_show(table, 60, v)), "the end");
    expect(stands(uss_view_step(table, 60, v), USS_DONE, 5), "there is no step behind the end");

    for (i = 0; i < sizeof far / sizeof far[0]; i++) {
        v = standing(0, far[i]);
        expect(is_none(uss_view_show(table, 60, v)) && stands(uss_view_step(table, 60, v), 0, far[i]), "a place that is none");
        expect(is_none(uss_view_show(NULL, 0, v)) && stands(uss_view_step(NULL, 0, v), 0, far[i]), "a place in no table");
    }
    for (i = 0; i < sizeof numbers / sizeof numbers[0]; i++) {
        v = standing(numbers[i], 2);
        expect(is_none(uss_view_show(table, 60, v)) && stands(uss_view_step(table, 60, v), numbers[i], 2), "a number that is not 0");
    }
    memset(many, 0xFF, 12);
    expect(stands(uss_view_open(many, 12), USS_BAD_TABLE, 0), "a record of FF");
    expect(is_record(uss_view_show(many, 12, standing(0, 0)), 32767, 1, 1, 1, 255, 0xFFFFFFFFu, 0xFFFFFFFFu), "its fields, by a forged view");
    expect(is_none(uss_view_show(table + 1, 59, standing(0, 4))) && stands(uss_view_step(table + 1, 59, standing(0, 4)), 0, 4), "part of a record");

    expect(stands(uss_view_open(NULL, 0), USS_DONE, 0) && is_none(uss_view_show(NULL, 0, standing(0, 0))), "a view of an empty table");
    expect(stands(uss_view_open(table + 1, 59), USS_BAD_TABLE, 0), "half a record");
    table[51] |= 1;
    v = uss_view_open(table, 60);
    expect(stands(v, USS_BAD_TABLE, 0) && is_none(uss_view_show(table, 60, v)), "a bad last record: nothing is shown");
    expect(stands(uss_view_step(table, 60, v), USS_BAD_TABLE, 0), "and there is no step");

    for (i = 0; i < 513; i++)
        put_many(many, i);
    expect(stands(uss_view_open(many, 12 * 513), USS_BAD_TABLE, 0), "513 records");
    v = uss_view_open(many, 12 * 512);
    for (i = 0; i < 512; i++) {
        expect(stands(v, USS_DONE, (uint32_t)i) && is_record(uss_view_show(many, 12 * 512, v), (uint32_t)i, 0, 0, 0, 8, 0, 0), "512 records");
        v = uss_view_step(many, 12 * 512, v);
    }
    expect(stands(v, USS_DONE, 512) && is_none(uss_view_show(many, 12 * 512, v)), "the end of 512");
    expect(is_none(uss_view_show(many, 12 * 513, v)) && stands(uss_view_step(many, 12 * 513, v), USS_DONE, 512), "no record behind 512");
    many[12 * 500 + 3] = 0x40;
    expect(stands(uss_view_open(many, 12 * 512), USS_BAD_TABLE, 0), "4097 places");
    puts("views");
}

/* ---- the receiver */

static const uss_receiver disarmed = {0}, armed = {1};

static uss_receiver in_state(uint32_t state)
{
    uss_receiver r;
    r.state = state;
    return r;
}

static int gives(uss_received r, uint64_t taken, uint32_t length, uint32_t state)
{
    return r.taken == taken && r.length == length && r.receiver.state == state;
}

/* The bytes as items from a place on; where they end. */
static size_t put_items(uint16_t *items, size_t at, const uint8_t *bytes, size_t len)
{
    size_t i;
    for (i = 0; i < len; i++)
        items[at + i] = bytes[i];
    return at + len;
}

/* A pause and then bytes, in one call over a page of EE that ends where memory ends, as the items do. */
static uss_received after_pause(const uint8_t *bytes, size_t len, uint8_t *page, size_t page_len)
{
    static uint16_t *end = NULL;
    if (end == NULL)
        end = (uint16_t *)(void *)at_the_end(2 * 300) + 300;
    if (page_len > 0)
        memset(page, 0xEE, page_len);
    *(end - len - 1) = USS_PAUSE;
    put_items(end - len, 0, bytes, len);
    return uss_receive(disarmed, end - len - 1, len + 1, page, page_len);
}

static void received_telegrams(void)
{
    uint8_t *page = at_the_end(256), *bytes = at_the_end(20);
    uint16_t items[64];
    uss_received r;
    size_t i, n;

    r = after_pause(k2, 16, page, 256);
    expect(gives(r, 17, 16, 0) && memcmp(page, k2, 16) == 0 && all_are(page, 16, 256, 0xEE), "a whole telegram");
    n = put_items(items, 0, k3, 16);
    expect(gives(uss_receive(r.receiver, items, n, page, 256), 16, 0, 0) && memcmp(page, k2, 16) == 0, "it is handed out once");
    expect(gives(uss_receive(disarmed, items, n, page, 256), 16, 0, 0) && memcmp(page, k2, 16) == 0, "it starts disarmed");

    memset(page, 0xEE, 256);
    items[0] = USS_PAUSE;
    r = uss_receive(disarmed, items, 1, page, 256);
    expect(gives(r, 1, 0, 1), "a pause arms");
    for (i = 0; i < 16; i++) {
        items[0] = k2[i];
        r = uss_receive(r.receiver, items, 1, page, 256);
        expect(gives(r, 1, i == 15 ? 16 : 0, i == 15 ? 0 : (uint32_t)i + 2), "a single item");
        expect(memcmp(page, k2, i + 1) == 0 && all_are(page, i + 1, 256, 0xEE), "a single item is written to its place");
        expect(gives(uss_receive(r.receiver, NULL, 0, page, 256), 0, 0, r.receiver.state), "an empty call between two items");
    }
    memset(page, 0xEE, 256);
    r.receiver = uss_pause(r.receiver);
    expect(r.receiver.state == 1, "a pause after a telegram");
    for (i = 0; i < 16; i++) {
        r = uss_receive_bytes(r.receiver, k2 + i, 1, page, 256);
        expect(gives(r, 1, i == 15 ? 16 : 0, i == 15 ? 0 : (uint32_t)i + 2), "a single byte");
        expect(memcmp(page, k2, i + 1) == 0 && all_are(page, i + 1, 256, 0xEE), "a single byte is written to its place");
    }
    memcpy(bytes, k2, 16);
    memcpy(bytes + 16, k3, 4);
    expect(gives(uss_receive_bytes(armed, bytes, 20, page, 256), 16, 16, 0), "bytes behind a telegram are not taken");
    expect(gives(uss_receive_bytes(armed, bytes + 1, 19, page, 256), 19, 0, 0), "bytes that are no telegram are taken");

    items[0] = USS_PAUSE;
    n = put_items(items, put_items(items, 1, k2, 16), k3, 16);
    expect(gives(uss_receive(disarmed, items, n, page, 256), 17, 16, 0), "two back to back: the first");
    expect(gives(uss_receive(disarmed, items + 17, n - 17, page, 256), 16, 0, 0), "two back to back: the second is lost");
    items[17] = 65535; /* a pause too */
    n = put_items(items, 18, k3, 16);
    expect(gives(uss_receive(disarmed, items, n, page, 256), 17, 16, 0), "with a pause between: the first");
    expect(gives(uss_receive(disarmed, items + 17, n - 17, page, 256), 17, 16, 0) && memcmp(page, k3, 16) == 0, "and the second");
    n = put_items(items, 1, k2, 7);
    items[n] = 65535;
    items[n + 1] = USS_PAUSE;
    n = put_items(items, n + 2, k3, 16);
    expect(gives(uss_receive(disarmed, items, 9, page, 256), 9, 0, 1), "a pause inside drops and arms");
    expect(gives(uss_receive(disarmed, items, n, page, 256), 26, 16, 0) && memcmp(page, k3, 16) == 0, "the next one comes out");
    puts("received telegrams");
}

static void received_bytes_that_are_none(void)
{
    uint8_t *page = at_the_end(256), t[256];
    uint32_t lge, first;
    uss_received r;

    memset(t, 0x11, 256);
    for (first = 0; first < 256; first++) {
        t[0] = (uint8_t)first;
        r = after_pause(t, 1, page, 256);
        expect(gives(r, 2, 0, first == 2 ? 2 : 0) && all_are(page, first == 2, 256, 0xEE), "only 02 opens");
    }
    t[0] = 0x02;
    for (lge = 0; lge < 256; lge++) {
        int good = lge >= 3 && lge <= 254;
        t[1] = (uint8_t)lge;
        r = after_pause(t, 2, page, 256);
        expect(gives(r, 3, 0, good ? 3 : 0) && page[0] == 0x02 && page[1] == (good ? lge : 0xEE), "LGE 3 to 254 goes on");
        r = after_pause(t, 256, page, 256);
        expect(good ? gives(r, lge + 3, lge + 2, 0) : gives(r, 257, 0, 0), "LGE + 2 bytes come out");
        expect(memcmp(page, t, good ? lge + 2 : 1) == 0 && all_are(page, good ? lge + 2 : 1, 256, 0xEE), "and no other is written");
    }
    memcpy(t, k2, 16);
    memmove(t + 1, t, 16);
    expect(gives(after_pause(t, 17, page, 256), 18, 0, 0) && all_are(page, 1, 256, 0xEE), "02 02: the second is no start");
    t[0] = 0xFF;
    expect(gives(after_pause(t, 17, page, 256), 18, 0, 0) && all_are(page, 0, 256, 0xEE), "a byte before the 02");
    puts("received bytes that are no telegram");
}

/* A telegram that a page does not take disarms at its LGE; nothing is written past a page's end, nor past 256. */
static void pages_of_other_lengths(void)
{
    static const uint8_t five[5] = {0x02, 0x03, 0x03, 0x55, 0x57}, six[6] = {0x02, 0x04, 0x03, 0x55, 0x66, 0x36};
    uint8_t longest[257], *page;

    page = at_the_end(5);
    expect(gives(after_pause(five, 5, page, 5), 6, 5, 0) && memcmp(page, five, 5) == 0, "5 bytes on a page of 5");
    expect(gives(after_pause(six, 6, page, 5), 7, 0, 0) && page[0] == 0x02 && all_are(page, 1, 5, 0xEE), "6 bytes on a page of 5");
    page = at_the_end(4);
    expect(gives(after_pause(five, 5, page, 4), 6, 0, 0) && page[0] == 0x02 && all_are(page, 1, 4, 0xEE), "5 bytes on a page of 4");
    page = at_the_end(2);
    expect(gives(after_pause(five, 2, page, 2), 3, 0, 0) && page[0] == 0x02 && page[1] == 0xEE, "a page of 2");
    page = at_the_end(1);
    expect(gives(after_pause(five, 1, page, 1), 2, 0, 2) && page[0] == 0x02, "a page of 1 takes the 02");
    expect(gives(after_pause(five, 2, page, 1), 3, 0, 0) && page[0] == 0x02, "a page of 1 takes no more");
    expect(gives(after_pause(five, 1, NULL, 0), 2, 0, 0), "a page of nothing");
    expect(gives(uss_receive_bytes(armed, five, 5, NULL, 0), 5, 0, 0), "a page of nothing, bytes");
    memset(longest, 0x33, 257);
    longest[0] = 0x02;
    longest[1] = 255;
    page = at_the_end(300);
    expect(gives(after_pause(longest, 257, page, 300), 258, 0, 0) && all_are(page, 1, 300, 0xEE), "257 bytes on a page of 300");
    page[1] = 255;
    expect(gives(uss_receive_bytes(in_state(255), longest + 2, 2, page, 300), 2, 0, 0) && page[255] == 0x33 && page[256] == 0xEE, "LGE changed to 255");
    longest[1] = 254;
    page = at_the_end(255);
    expect(gives(after_pause(longest, 256, page, 255), 257, 0, 0) && all_are(page, 1, 255, 0xEE), "256 bytes on a page of 255");
    longest[1] = 253;
    expect(gives(after_pause(longest, 255, page, 255), 256, 255, 0) && memcmp(page, longest, 255) == 0, "255 bytes on a page of 255");
    puts("pages of other lengths");
}

/* Numbers that no call gave back, and a page that somebody changed. */
static void other_states(void)
{
    static const uint32_t none_of_these[] = {257, 258, 65536, 0x80000000u, 0xFFFFFFFFu};
    uint8_t *page = at_the_end(256), *end = at_the_end(0), byte = 0x77;
    uint16_t item = 0x77, pause = USS_PAUSE;
    uint32_t i;

    for (i = 0; i < sizeof none_of_these / sizeof none_of_these[0]; i++) {
        uss_receiver strange = in_state(none_of_these[i]);
        expect(gives(uss_receive(strange, NULL, 0, page, 256), 0, 0, 0), "a strange state, no items");
        expect(gives(uss_receive_bytes(strange, NULL, 0, page, 256), 0, 0, 0), "a strange state, no bytes");
        expect(gives(uss_receive(strange, &item, 1, page, 256), 1, 0, 0), "a strange state, an item");
        expect(gives(uss_receive(strange, &pause, 1, page, 256), 1, 0, 1), "a strange state, a pause");
        expect(gives(uss_receive_bytes(strange, &byte, 1, page, 256), 1, 0, 0), "a strange state, a byte");
        expect(uss_pause(strange).state == 1, "a strange state, a pause by itself");
    }
    for (i = 0; i <= 256; i++) {
        expect(gives(uss_receive(in_state(i), NULL, 0, page, 256), 0, 0, i), "a state is kept");
        expect(gives(uss_receive_bytes(in_state(i), end, 0, page, 256), 0, 0, i), "a state is kept, of bytes");
        expect(gives(uss_receive(in_state(i), NULL, 0, page + 246, 10), 0, 0, i <= 11 ? i : 0), "more bytes than the page has");
        expect(gives(uss_receive(in_state(i), &pause, 1, page, 256), 1, 0, 1) && uss_pause(in_state(i)).state == 1, "a pause arms each");
    }
    expect(gives(uss_receive(armed, NULL, 0, NULL, 0), 0, 0, 1), "nothing at all, armed");
    expect(gives(uss_receive(disarmed, NULL, 0, NULL, 0), 0, 0, 0), "nothing at all, disarmed");
    expect(gives(uss_receive_bytes(in_state(2), end, 0, end, 0), 0, 0, 0), "nothing at all, and a byte held");
    expect(all_are(page, 0, 256, 0xEE), "nothing was written");
    expect(gives(uss_receive(in_state(11), &item, 1, page + 246, 10), 1, 0, 0) && all_are(page, 0, 256, 0xEE), "a full page");
    page[247] = 9;
    expect(gives(uss_receive(in_state(10), &item, 1, page + 246, 10), 1, 0, 11) && page[255] == 0x77, "its last byte, no telegram's");
    page[247] = 8;
    expect(gives(uss_receive(in_state(10), &item, 1, page + 246, 10), 1, 10, 0), "its last byte, a telegram's");
    page[1] = 253;
    expect(gives(uss_receive_bytes(in_state(256), &byte, 1, page, 256), 1, 0, 0) && page[255] == 0x77, "the 256th, LGE changed to 253");
    page[1] = 255;
    expect(gives(uss_receive(in_state(256), &item, 1, page, 256), 1, 0, 0), "the 256th, LGE changed to 255");
    page[1] = 254;
    expect(gives(uss_receive(in_state(256), &item, 1, page, 256), 1, 256, 0), "the 256th of 256");
    puts("other states");
}

/* A telegram of 16 bytes whose LGE reads 254 waits for more; the pause behind it ends that, and the next one is answered. */
static void received_and_answered(void)
{
    uint8_t *page = at_the_end(256), *reply = at_the_end(256);
    uint16_t items[34];
    uint32_t value = 5000;
    uss_received r;
    uss_answer a;

    items[0] = items[17] = USS_PAUSE;
    put_items(items, 1, k2, 16);
    put_items(items, 18, k2, 16);
    items[2] = 254;
    r = uss_receive(disarmed, items, 17, page, 256);
    expect(gives(r, 17, 0, 17), "LGE 254: more is waited for");
    r = uss_receive(r.receiver, items + 17, 17, page, 256);
    expect(gives(r, 17, 16, 0) && memcmp(page, k2, 16) == 0, "the next telegram comes out by its last byte");
    a = uss_slave(setup, record, 12, &value, 1, held, status, page, r.length, reply, 256);
    expect(a.number == USS_REPLIED && a.length == 16 && memcmp(reply, k3, 16) == 0, "and is answered");
    items[33] ^= 1;
    r = uss_receive(disarmed, items + 17, 17, page, 256);
    a = uss_slave(setup, record, 12, &value, 1, held, status, page, r.length, reply, 256);
    expect(gives(r, 17, 16, 0) && a.number == USS_CHECK, "a wrong BCC comes out too, and is the slave's to refuse");
    puts("received and answered");
}

/* A figure's number, raw word and double, the double by its bits: negative zero is another one. */
static int shows(uss_figure f, uint32_t number, uint32_t raw, double value)
{
    return f.number == number && f.raw == raw && memcmp(&f.value, &value, sizeof value) == 0;
}

static void figures(void)
{
    uss_reply r;

    expect(shows(uss_show_hertz(0x4000, 50), 0, 0, 50.0) && shows(uss_show_percent(0x4000), 0, 0, 100.0), "4000 is the reference");
    expect(shows(uss_show_hertz(0xC000, 50), 0, 0, -50.0) && shows(uss_show_percent(0xC000), 0, 0, -100.0), "the word is signed");
    expect(shows(uss_show_hertz(0x8000, 650), 0, 0, -1300.0) && shows(uss_show_percent(0x8000), 0, 0, -200.0), "-32768");
    expect(shows(uss_show_hertz(0xFFFF, 1), 0, 0, -1.0 / 16384) && shows(uss_show_percent(0xFFFF), 0, 0, -100.0 / 16384), "-1");
    expect(shows(uss_show_hertz(0, 650), 0, 0, 0.0) && shows(uss_show_percent(0), 0, 0, 0.0), "0 is positive zero");
    expect(shows(uss_show_hertz(0x7FFF, 649), 0, 0, 21265783.0 / 16384) && shows(uss_show_hertz(1, 1), 0, 0, 1.0 / 16384), "32767 and 1");
    expect(shows(uss_show_hertz(0x4000, 0), USS_BAD_REFERENCE, 0, 0.0) && shows(uss_show_hertz(0x4000, 651), USS_BAD_REFERENCE, 0, 0.0)
           && shows(uss_show_hertz(0x4000, 0xFFFFFFFFu), USS_BAD_REFERENCE, 0, 0.0)
           && shows(uss_show_hertz(0x4000, 65536 + 50), USS_BAD_REFERENCE, 0, 0.0), "a reference out of range, and no figure");
    expect(shows(uss_show_raw(0x8000), 0, 0x8000, 0.0) && shows(uss_show_raw(0), 0, 0, 0.0), "the raw word as it came");

    /* from a reply to a panel: the actual value of K3 is half the reference */
    r = uss_read_reply(setup, USS_READ, 1082, 0, 0, command, k3, 16);
    expect(r.number == USS_DONE && shows(uss_show_hertz(r.process.w2, 50), 0, 0, 25.0), "K3 shows 25 Hz");
    puts("figures");
}

static void layouts(void)
{
    expect(sizeof(uss_setup) == 3 && sizeof(uss_words) == 8 && sizeof(uss_receiver) == 4 && sizeof(uss_received) == 16
           && sizeof(uss_answer) == 16 && sizeof(uss_built) == 8 && sizeof(uss_reply) == 20 && sizeof(uss_table_check) == 16
           && sizeof(uss_view) == 8 && sizeof(uss_record) == 32 && sizeof(uss_figure) == 16, "sizes");
    expect(offsetof(uss_received, taken) == 0 && offsetof(uss_received, length) == 8 && offsetof(uss_received, receiver) == 12
           && offsetof(uss_receiver, state) == 0, "places of the receiver");
    expect(offsetof(uss_answer, control) == 8 && offsetof(uss_reply, process) == 12, "places");
    expect(offsetof(uss_view, number) == 0 && offsetof(uss_view, at) == 4, "places of a view");
    expect(offsetof(uss_record, there) == 0 && offsetof(uss_record, parameter) == 4 && offsetof(uss_record, is_double) == 8
           && offsetof(uss_record, is_signed) == 12 && offsetof(uss_record, writable) == 16 && offsetof(uss_record, elements) == 20
           && offsetof(uss_record, minimum) == 24 && offsetof(uss_record, maximum) == 28, "places of a record");
    expect(offsetof(uss_figure, raw) == 4 && offsetof(uss_figure, value) == 8, "places of a figure");
    puts("layouts");
}

int main(void)
{
    layouts();
    known_telegrams();
    indexes();
    short_buffers();
    lying_lengths();
    empty_slices();
    broken_rules();
    filled_lists();
    lent_lists();
    views();
    received_telegrams();
    received_bytes_that_are_none();
    pages_of_other_lengths();
    other_states();
    received_and_answered();
    figures();
    if (!failed)
        puts("all as expected");
    return failed;
}
