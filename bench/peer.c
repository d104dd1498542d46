/* A careful slave, master and receiver in C99 (document 01, W-201, W-205), with few instructions as its one aim beside being right.
 * Compiled with LISTED it is the slave with a list and nothing else, so that neither slave is longer for the other.
 *
 * What makes it short:
 *   - A record's head is one number. Numbers rise strictly just when each head is above the head before it with every bit
 *     below its number set; so 31999 is asked of the last record alone.
 *   - A value inside its limits shows that the minimum is at most the maximum, and that a word's value and minimum fit when
 *     its maximum does. What fails is judged again, slowly, by `judge`: 21 or 22.
 *   - Each record needs a place. What is left over for arrays is known from the counts, so a record without array asks for
 *     no room.
 *   - The search goes by halves, since the numbers of a good table rise. Only a table with arrays needs a sum to find a
 *     record's first place, and where there is a list none does. A list is compared with the heads, one after the other; where
 *     there are no arrays, with 0, 1, 2 and so on.
 *   - The receiver goes run by run. Disarmed it looks for a pause alone; inside a telegram it knows before the first byte where
 *     the bytes end at the latest, and of a byte asks only whether it is a pause. Bytes without pauses it moves as they are.
 */
#ifdef LISTED
#define peer_bcc listed_bcc
#endif
#include "peer.h"

#include <string.h>

/* A record: head, minimum, maximum. The head's fields. */
#define RECORD 12u
#define BELOW_NUMBER 0x1FFFFu
#define DOUBLE 0x10000u
#define SIGNED 0x8000u
#define WRITABLE 0x4000u
#define ELEMENTS 0x3FC0u
#define SPARE 0x3Fu

#define MOST_RECORDS 512u
#define MOST_PLACES 4096u
#define NUMBERS 32000u
#define BIT10 0x400u

/* ---- bytes and words, high byte first: moved whole, and turned where the machine has its low byte first. Compilers make one
 * or two instructions of that, which they do not always do of single bytes. */

static inline int low_byte_first(void)
{
    const union {
        uint16_t word;
        uint8_t bytes[2];
    } probe = {1};
    return probe.bytes[0] == 1;
}

static inline uint32_t turned(uint32_t w)
{
    return low_byte_first() ? w >> 24 | (w >> 8 & 0xFF00u) | (w << 8 & 0xFF0000u) | w << 24 : w;
}

static inline uint32_t get16(const uint8_t *p)
{
    return (uint32_t)p[0] << 8 | p[1];
}

static inline uint32_t get32(const uint8_t *p)
{
    uint32_t w;
    memcpy(&w, p, sizeof w);
    return turned(w);
}

static inline uint64_t get64(const uint8_t *p)
{
    return (uint64_t)get32(p) << 32 | get32(p + 4);
}

static inline void put16(uint8_t *p, uint32_t w)
{
    p[0] = (uint8_t)(w >> 8);
    p[1] = (uint8_t)w;
}

static inline void put32(uint8_t *p, uint32_t w)
{
    w = turned(w);
    memcpy(p, &w, sizeof w);
}

/* ---- XOR */

/* Four and eight bytes in the machine's order. */
static inline uint32_t raw32(const uint8_t *p)
{
    uint32_t w;
    memcpy(&w, p, sizeof w);
    return w;
}

static inline uint64_t raw64(const uint8_t *p)
{
    uint64_t w;
    memcpy(&w, p, sizeof w);
    return w;
}

/* The XOR of a number's bytes. */
static inline uint8_t fold(uint64_t x)
{
    uint32_t y = (uint32_t)(x >> 32) ^ (uint32_t)x;
    y ^= y >> 16;
    y ^= y >> 8;
    return (uint8_t)y;
}

uint8_t peer_bcc(const uint8_t *p, size_t n)
{
    uint64_t x = 0, y = 0;
    for (; n >= 32; p += 32, n -= 32) {
        x ^= raw64(p) ^ raw64(p + 16);
        y ^= raw64(p + 8) ^ raw64(p + 24);
    }
    x ^= y;
    if (n & 16) {
        x ^= raw64(p) ^ raw64(p + 8);
        p += 16;
    }
    if (n & 8) {
        x ^= raw64(p);
        p += 8;
    }
    if (n & 4) {
        x ^= raw32(p);
        p += 4;
    }
    if (n & 2) {
        x ^= (uint64_t)p[0] ^ p[1];
        p += 2;
    }
    if (n & 1)
        x ^= p[0];
    return fold(x);
}

/* ---- four words as one number, the first in the lowest bits */

static inline uint64_t packed(uss_words w)
{
    return w.w1 | (uint64_t)w.w2 << 16 | (uint64_t)w.w3 << 32 | (uint64_t)w.w4 << 48;
}

static inline uss_words unpacked(uint64_t x)
{
    uss_words w;
    w.w1 = (uint16_t)x;
    w.w2 = (uint16_t)(x >> 16);
    w.w3 = (uint16_t)(x >> 32);
    w.w4 = (uint16_t)(x >> 48);
    return w;
}

static inline uint32_t swapped(uint32_t two)
{
    return two >> 16 | two << 16;
}

/* The words with the first n, 1 to 4, taken from p. */
static uint64_t take_words(uint64_t words, const uint8_t *p, uint32_t n)
{
    if (n == 1)
        return (words & ~(uint64_t)0xFFFF) | get16(p);
    if (n == 4)
        return swapped(get32(p)) | (uint64_t)swapped(get32(p + 4)) << 32;
    words = (words >> 32 << 32) | swapped(get32(p));
    if (n == 3)
        words = (words & 0xFFFF0000FFFFFFFFu) | (uint64_t)get16(p + 4) << 32;
    return words;
}

/* Writes the first n words, 0 to 4, and gives their XOR in `*sum`; the end. */
static uint8_t *put_words(uint8_t *p, uint64_t words, uint32_t n, uint64_t *sum)
{
    if (n >= 2) {
        put32(p, swapped((uint32_t)words));
        *sum ^= (uint32_t)words;
        p += 4;
        if (n == 2)
            return p;
        words >>= 32;
        if (n == 4) {
            put32(p, swapped((uint32_t)words));
            *sum ^= words;
            return p + 4;
        }
    } else if (n == 0) {
        return p;
    }
    put16(p, (uint32_t)words);
    *sum ^= (uint16_t)words;
    return p + 2;
}

/* Writes a parameter area of 3 or 4 words, the head and a value; the end. */
static uint8_t *put_area(uint8_t *p, uint32_t pkw, uint32_t head, uint32_t value)
{
    put32(p, head);
    if (pkw == 3) {
        put16(p + 4, value);
        return p + 6;
    }
    put32(p + 4, value);
    return p + 8;
}

/* ---- set-up: 20 and 30 */

static int fits(uss_setup s)
{
    if (s.node > 31)
        return 0;
    if (s.pkw == 3 || s.pkw == 4)
        return s.pzd <= 4;
    return s.pkw == 0 && s.pzd >= 1 && s.pzd <= 4;
}

static size_t telegram_len(uss_setup s)
{
    return 4 + 2u * (s.pkw + s.pzd);
}

/* The first process word of a telegram of this length. */
static inline const uint8_t *process_of(uss_setup s, const uint8_t *t)
{
    return t + 3 + 2u * s.pkw;
}

/* ---- frame: 10 to 14, in this order; 0 where none applies */

static uint32_t frame_fault(const uint8_t *t, size_t n)
{
    if (n < 5)
        return USS_SHORT;
    if (t[0] != 0x02)
        return USS_START;
    if (t[1] < 3 || t[1] > 254)
        return USS_LGE;
    if (n != t[1] + 2u)
        return USS_COUNT;
    if (peer_bcc(t, n) != 0)
        return USS_CHECK;
    return 0;
}

/* ---- table and values: 21 and 22 */

static inline uint32_t elements_of(uint32_t head)
{
    return head >> 6 & 0xFF;
}

static inline uint32_t places_of(uint32_t head)
{
    uint32_t elements = elements_of(head);
    return elements + (elements == 0);
}

/* A record's limits as unsigned numbers: a value is inside if, flipped, it is at most `range` above `min`. The sign of a signed
 * word is flipped; doubles stay as they are, since their distance from the minimum wraps. */
struct span {
    uint32_t flip, min, range;
};

/* Whether the limits are in order. Where a word's maximum fits, its minimum does. */
static inline int limits_ok(uint32_t head, uint64_t limits, struct span *s)
{
    uint32_t min = (uint32_t)(limits >> 32), max = (uint32_t)limits, flip = 0;
    if (head & DOUBLE) {
        if (head & SIGNED ? (int32_t)min > (int32_t)max : min > max)
            return 0;
    } else {
        flip = head & SIGNED;
        min ^= flip;
        max ^= flip;
        if (min > max || max > 0xFFFF)
            return 0;
    }
    s->flip = flip;
    s->min = min;
    s->range = max - min;
    return 1;
}

/* 21 or 22 where something is wrong with a record or its values: goes on with the table, from this record on. */
static uint32_t judge(const uint8_t *record, const uint8_t *end, int64_t last, size_t places)
{
    for (; record != end; record += RECORD) {
        uint32_t head = get32(record);
        struct span s;
        if ((int64_t)head <= last || head >> 17 >= NUMBERS || head & SPARE || elements_of(head) == 0xFF
            || !limits_ok(head, get64(record + 4), &s))
            return USS_BAD_TABLE;
        places += places_of(head);
        last = head | BELOW_NUMBER;
    }
    return places > MOST_PLACES ? USS_BAD_TABLE : USS_BAD_VALUES;
}

/* Whether the one value of a record without array is inside its limits, and these are in order. */
static inline int one_ok(uint32_t head, uint64_t limits, uint32_t value)
{
    uint32_t min = (uint32_t)(limits >> 32), max = (uint32_t)limits;
    if (head & DOUBLE) {
        if (head & SIGNED)
            return (int32_t)value <= (int32_t)max && (int32_t)min <= (int32_t)value;
        return value <= max && min <= value;
    }
    if (max > 0xFFFF)
        return 0;
    if (head & SIGNED)
        return (value ^ 0x8000u) <= (max ^ 0x8000u) && (min ^ 0x8000u) <= (value ^ 0x8000u);
    return value <= max && min <= value;
}

/* The same of an array with n elements: where its values end, or NULL. Eight values at a time, without a way out between them,
 * can be compiled to vectors. */
static const uint32_t *array_end(uint32_t head, uint64_t limits, const uint32_t *values, uint32_t n)
{
    struct span s;
    if (!limits_ok(head, limits, &s))
        return NULL;
    for (; n >= 8; n -= 8, values += 8) {
        uint32_t i, out = 0;
        for (i = 0; i < 8; i++)
            out |= (values[i] ^ s.flip) - s.min > s.range;
        if (out != 0)
            return NULL;
    }
    for (; n > 0; n--, values++)
        if ((*values ^ s.flip) - s.min > s.range)
            return NULL;
    return values;
}

/* The one pass over table and values: 0, 21 or 22. The inner loop takes records without array, the outer one the arrays. */
static uint32_t content_fault(const uint8_t *table, const uint8_t *end, const uint32_t *values, size_t value_count,
                              size_t records)
{
    const uint8_t *record = table;
    const uint32_t *value = values;
    int64_t last = -1;                   /* the last head, with every bit below its number set */
    size_t more = value_count - records; /* places beyond one for each record */

    if (value_count < records)
        goto wrong;
    for (;;) {
        uint32_t head = 0, n;
        uint64_t limits = 0;
        const uint32_t *past;
        for (; record != end; record += RECORD) {
            head = get32(record);
            limits = get64(record + 4);
            if ((int64_t)head <= last)
                goto wrong;
            if (head & (ELEMENTS | SPARE))
                break;
            if (!one_ok(head, limits, *value))
                goto wrong;
            value++;
            last = head | BELOW_NUMBER;
        }
        if (record == end)
            break;
        n = elements_of(head);
        if (head & SPARE || n == 0xFF || n - 1 > more)
            goto wrong;
        past = array_end(head, limits, value, n);
        if (past == NULL)
            goto wrong;
        value = past;
        more -= n - 1;
        last = head | BELOW_NUMBER;
        record += RECORD;
    }
    if (last >> 17 >= (int64_t)NUMBERS || value_count - more > MOST_PLACES)
        return USS_BAD_TABLE;
    return more == 0 ? 0 : USS_BAD_VALUES;
wrong:
    return judge(record, end, last, value == values ? 0 : (size_t)(value - values));
}

/* ---- parameter tasks */

/* Tasks by their bits. */
#define IN(set, task) ((set) >> (task) & 1)
#define READS (1u << 1 | 1u << 6 | 1u << 9)
#define WORD_CHANGES (1u << 2 | 1u << 14 | 1u << 7 | 1u << 12)
#define DOUBLE_CHANGES (1u << 3 | 1u << 13 | 1u << 8 | 1u << 11)
#define CHANGES (WORD_CHANGES | DOUBLE_CHANGES)
#define TASKS (READS | CHANGES)
#define ELEMENT_TASKS (1u << 6 | 1u << 7 | 1u << 12 | 1u << 8 | 1u << 11) /* their replies have an element's ID */

/* The record of a good table with the number that PKE and IND name, or `end`. */
static const uint8_t *find(uint32_t pke_ind, const uint8_t *table, size_t records, const uint8_t *end)
{
    uint32_t base = pke_ind >> 16 & 0x7FF, page = (pke_ind >> 11 & 0xE) | (pke_ind >> 15 & 1);
    uint32_t number = 2000 * page + base, highest = number << 17 | BELOW_NUMBER;
    if (base >= 2000 || records == 0)
        return end;
    while (records > 1) {
        size_t half = records / 2;
        if (get32(table + half * RECORD) <= highest)
            table += half * RECORD;
        records -= half;
    }
    return get32(table) >> 17 == number ? table : end;
}

#ifdef LISTED
/* Whether a list has the first place of each record of a good table: 25 where it has not. */
static int list_ok(const uint8_t *table, size_t records, size_t value_count, const uint16_t *places, size_t place_count)
{
    size_t place = 0, k;
    uint32_t other = 0;
    if (place_count != records)
        return 0;
    if (value_count == records) { /* without a way out, this can be compiled to vectors */
        for (k = 0; k < records; k++)
            other |= places[k] ^ (uint32_t)k;
        return other == 0;
    }
    for (k = 0; k < records; k++) {
        if (places[k] != place)
            return 0;
        place += places_of(get32(table + k * RECORD));
    }
    return 1;
}
#else
/* The first place of a record: the sum of the places before it. */
static size_t first_place(const uint8_t *table, const uint8_t *record, int no_arrays)
{
    size_t place = 0;
    if (no_arrays)
        return (size_t)(record - table) / RECORD;
    for (; table != record; table += RECORD)
        place += places_of(get32(table));
    return place;
}
#endif

/* What a reply's area says: PKE, IND and the value. */
struct said {
    uint32_t head, value;
};

static struct said say(uint32_t id, uint32_t pke_ind, uint32_t value)
{
    struct said s;
    s.head = id << 28 | (pke_ind & 0x07FFF0FFu);
    s.value = value;
    return s;
}

/* Runs the task of the area p on the record that it names, with its first place; errors in the document's order. */
static struct said perform(const uint8_t *p, uint32_t pkw, const uint8_t *record, uint32_t *place)
{
    uint32_t pke_ind = get32(p), task = pke_ind >> 28, index = pke_ind & 0xFF;
    uint32_t head = get32(record), elements = elements_of(head), is_double = head >> 16 & 1, value;
    uint32_t id = (IN(ELEMENT_TASKS, task) ? USS_ID_ELEMENT_WORD : USS_ID_WORD) + is_double;

    if (!IN(TASKS, task))
        return say(USS_ID_ERROR, pke_ind, USS_NO_SUCH_TASK);
    if (task == USS_COUNT_ELEMENTS)
        return say(USS_ID_ELEMENTS, pke_ind, places_of(head));
    if (elements == 0) { /* the index counts in every task but 9: document 02, W-203 */
        if (index > 1)
            return say(USS_ID_ERROR, pke_ind, USS_NO_ARRAY);
    } else {
        if (index >= elements)
            return say(USS_ID_ERROR, pke_ind, USS_NO_ELEMENT);
        place += index;
    }
    if (!IN(CHANGES, task)) {
        if (is_double && pkw == 3)
            return say(USS_ID_ERROR, pke_ind, USS_NEEDS_FOUR);
        return say(id, pke_ind, *place);
    }
    if (IN(DOUBLE_CHANGES, task) != is_double)
        return say(USS_ID_ERROR, pke_ind, USS_OTHER_WIDTH);
    if (is_double && pkw == 3)
        return say(USS_ID_ERROR, pke_ind, USS_NEEDS_FOUR);
    if (!(head & WRITABLE))
        return say(USS_ID_ERROR, pke_ind, USS_NOT_WRITABLE);
    value = is_double ? get32(p + 4) : get16(p + 2 * pkw - 2);
    if (!one_ok(head, get64(record + 4), value))
        return say(USS_ID_ERROR, pke_ind, USS_OUTSIDE_LIMITS);
    *place = value;
    return say(id, pke_ind, value);
}

/* ---- the slave */

static uss_answer answer(uint32_t number, size_t length, uint64_t control)
{
    uss_answer a;
    a.number = number;
    a.length = (uint32_t)length;
    a.control = unpacked(control);
    return a;
}

static void copy(uint8_t *to, const uint8_t *from, size_t n)
{
    for (; n >= 32; to += 32, from += 32, n -= 32)
        memcpy(to, from, 32);
    if (n & 16) {
        memcpy(to, from, 16);
        to += 16;
        from += 16;
    }
    if (n & 8) {
        memcpy(to, from, 8);
        to += 8;
        from += 8;
    }
    if (n & 4) {
        memcpy(to, from, 4);
        to += 4;
        from += 4;
    }
    if (n & 2) {
        memcpy(to, from, 2);
        to += 2;
        from += 2;
    }
    if (n & 1)
        to[0] = from[0];
}

/* 18: t is a broadcast of the right length. Selector and first mask are looked at together: no bit but 1 and 2 in the one,
 * bit 1 set, and bit 10 in the other. */
static int is_void(uss_setup s, const uint8_t *t)
{
    uint32_t head;
    if (s.pkw == 0 || s.pzd == 0)
        return 1;
    head = get32(t + 3);
    return (head & (0xFFFB0000u | BIT10)) != (0x00020000u | BIT10) || (head & 0x00040000u && s.pzd < 2)
        || !(get16(process_of(s, t)) & BIT10) || (s.pkw == 4 && get16(t + 9) != 0);
}

/* The answer's number where the opening check passes: 10 to 18, in this order, then 0, 1 or 2. */
static uint32_t number_of(uss_setup s, const uint8_t *t, size_t n)
{
    uint32_t fault = frame_fault(t, n), other;
    if (fault != 0)
        return fault;
    other = (uint32_t)t[2] ^ s.node;
    if (other == 0)
        return n == telegram_len(s) ? USS_REPLIED : USS_OTHER_LENGTH;
    if (other == 0x40)
        return USS_MIRRORED;
    if (t[2] >= 0x60)
        return USS_ADDRESS;
    if (!(t[2] & 0x20))
        return USS_OTHER_NODE;
    if (n != telegram_len(s))
        return USS_OTHER_LENGTH;
    return is_void(s, t) ? USS_VOID_BROADCAST : USS_TAKEN;
}

/* The control words after a broadcast that is taken. */
static uint64_t command(uint64_t control, const uint8_t *t, const uint8_t *process)
{
    uint64_t mask = t[4] & 4 ? swapped(get32(t + 5)) : get16(t + 5), words = get16(process);
    if (t[4] & 4)
        words = swapped(get32(process));
    return (control & ~mask) | (words & mask);
}

#ifdef LISTED
uss_answer peer_slave_listed(uss_setup setup, const uint8_t *table, size_t table_len, uint32_t *values, size_t value_count,
                             const uint16_t *places, size_t place_count, uss_words control_words, uss_words status,
                             const uint8_t *received, size_t received_len, uint8_t *reply, size_t reply_len)
#else
uss_answer peer_slave(uss_setup setup, const uint8_t *table, size_t table_len, uint32_t *values, size_t value_count,
                      uss_words control_words, uss_words status, const uint8_t *received, size_t received_len,
                      uint8_t *reply, size_t reply_len)
#endif
{
    size_t records = table_len / RECORD;
    const uint8_t *end = table_len == 0 ? table : table + table_len, *process; /* a table of none may be NULL */
    uint32_t number, opening;
    uint64_t control = packed(control_words), sum;
    struct said said = {0, 0};
    uint8_t *q;

    if (!fits(setup))
        return answer(USS_BAD_SETUP, 0, control);
    if (records > MOST_RECORDS || records * RECORD != table_len)
        return answer(USS_BAD_TABLE, 0, control);
    opening = content_fault(table, end, values, value_count, records);
    if (opening != 0)
        return answer(opening, 0, control);
#ifdef LISTED
    if (!list_ok(table, records, value_count, places, place_count))
        return answer(USS_BAD_PLACES, 0, control);
#endif
    if (reply_len < USS_BUFFER)
        return answer(USS_SHORT_REPLY, 0, control);
    number = number_of(setup, received, received_len);

    if (number != USS_REPLIED) {
        if (number > USS_TAKEN)
            return answer(number, 0, control);
        if (number == USS_TAKEN)
            return answer(USS_TAKEN, 0, command(control, received, process_of(setup, received)));
        copy(reply, received, received_len);
        return answer(USS_MIRRORED, received_len, control);
    }
    process = process_of(setup, received);
    memcpy(reply, received, 3); /* 02, the same LGE and node */
    q = reply + 3;
    if (setup.pkw != 0) {
        if (received[3] >> 4 != 0) {
            const uint8_t *asked = find(get32(received + 3), table, records, end);
            if (asked == end)
                said = say(USS_ID_ERROR, get32(received + 3), USS_NO_PARAMETER);
            else
#ifdef LISTED
                said = perform(received + 3, setup.pkw, asked, values + places[(size_t)(asked - table) / RECORD]);
#else
                said = perform(received + 3, setup.pkw, asked, values + first_place(table, asked, value_count == records));
#endif
        }
        q = put_area(q, setup.pkw, said.head, said.value);
    }
    sum = (uint64_t)(said.head ^ said.value) ^ 0x02u ^ received[1] ^ received[2];
    q = put_words(q, packed(status), setup.pzd, &sum);
    *q = fold(sum);
    if (setup.pzd != 0 && get16(process) & BIT10)
        control = take_words(control, process, setup.pzd);
    return answer(USS_REPLIED, received_len, control);
}

#ifndef LISTED
/* ---- the master */

/* Whether the request can be told in a telegram: 31. */
static int expressible(uss_setup s, uint32_t task, uint32_t parameter, uint32_t index, uint32_t value, uss_words process)
{
    uint32_t bit;
    if (packed(process) >> 8 * s.pzd >> 8 * s.pzd != 0)
        return 0;
    if (task == 0)
        return (parameter | index | value) == 0;
    if (s.pkw == 0 || task > 14 || parameter >= NUMBERS || index > 254)
        return 0;
    bit = 1u << task;
    return bit & READS ? value == 0 : bit & WORD_CHANGES ? value <= 0xFFFF : bit & DOUBLE_CHANGES && s.pkw == 4;
}

/* PKE and IND of a task. */
static uint32_t head_of(uint32_t task, uint32_t parameter, uint32_t index)
{
    uint32_t page = parameter / 2000, base = parameter % 2000;
    return task << 28 | base << 16 | (page & 1) << 15 | page >> 1 << 12 | index;
}

static uss_built built(uint32_t number, size_t length)
{
    uss_built b;
    b.number = number;
    b.length = (uint32_t)length;
    return b;
}

uss_built peer_build_task(uss_setup setup, uint8_t task, uint16_t parameter, uint8_t index, uint32_t value,
                          uss_words process, uint8_t *out, size_t out_len)
{
    size_t length = telegram_len(setup);
    uint64_t sum;
    uint8_t *q;
    if (!fits(setup))
        return built(USS_UNFIT_SETUP, 0);
    if (!expressible(setup, task, parameter, index, value, process))
        return built(USS_NOT_ASKABLE, 0);
    if (out_len < USS_BUFFER)
        return built(USS_SHORT_OUT, 0);
    out[0] = 0x02;
    out[1] = (uint8_t)(length - 2);
    out[2] = setup.node;
    sum = 0x02u ^ (length - 2) ^ setup.node;
    q = out + 3;
    if (setup.pkw != 0) {
        uint32_t head = head_of(task, parameter, index);
        sum ^= head ^ value;
        q = put_area(q, setup.pkw, head, value);
    }
    q = put_words(q, packed(process), setup.pzd, &sum);
    *q = fold(sum);
    return built(USS_DONE, length);
}

/* The reply IDs of a task, as bits; 7 and 8 answer each but task 0. */
static const uint16_t ids[16] = {0x001, 0x186, 0x182, 0x184, 0, 0, 0x1B0, 0x190, 0x1A0, 0x1C0, 0, 0x1A0, 0x190, 0x184, 0x182, 0};

static uss_reply reading(uint32_t number, uint32_t id, uint32_t value, uint64_t process)
{
    uss_reply r;
    r.number = number;
    r.id = id;
    r.value = value;
    r.process = unpacked(process);
    return r;
}

uss_reply peer_read_reply(uss_setup setup, uint8_t task, uint16_t parameter, uint8_t index, uint32_t value,
                          uss_words process, const uint8_t *received, size_t received_len)
{
    uint32_t fault, id = 0, got = 0;
    const uint8_t *p;

    if (!fits(setup))
        return reading(USS_UNFIT_SETUP, 0, 0, 0);
    if (!expressible(setup, task, parameter, index, value, process))
        return reading(USS_NOT_ASKABLE, 0, 0, 0);
    fault = frame_fault(received, received_len);
    if (fault != 0)
        return reading(fault, 0, 0, 0);
    if (received[2] != setup.node)
        return reading(received[2] > 0x1F ? USS_ADDRESS : USS_OTHER_NODE, 0, 0, 0);
    if (received_len != telegram_len(setup))
        return reading(USS_OTHER_LENGTH, 0, 0, 0);
    p = received + 3;
    if (setup.pkw != 0) {
        uint32_t head = get32(p), is_double;
        got = setup.pkw == 3 ? get16(p + 4) : get32(p + 4);
        id = head >> 28;
        is_double = id == USS_ID_DOUBLE || id == USS_ID_ELEMENT_DOUBLE;
        if (!IN(ids[task], id) || (head ^ head_of(task, parameter, index)) << 4 != 0
            || (is_double ? setup.pkw == 3 : got > 0xFFFF) || ((id == USS_ID_NONE || id == USS_ID_NO_RIGHT) && got != 0))
            return reading(USS_NOT_THE_REPLY, 0, 0, 0);
        p += 2u * setup.pkw;
    }
    return reading(USS_DONE, id, got, setup.pzd == 0 ? 0 : take_words(0, p, setup.pzd));
}

/* ---- the receiver */

static inline uss_received received(size_t taken, uint32_t length, uint32_t state)
{
    uss_received r;
    r.taken = taken;
    r.length = length;
    r.receiver.state = state;
    return r;
}

/* The receiver's number, 0 where it says nothing on this page. */
static inline uint32_t state_of(uss_receiver receiver, size_t page_len)
{
    size_t held = page_len < 255 ? page_len : 255;
    return receiver.state <= held + 1 ? receiver.state : 0;
}

/* Whether an LGE names a telegram, and this fits. */
static inline int lge_ok(uint32_t lge, size_t page_len)
{
    return lge >= 3 && lge <= 254 && lge + 2 <= page_len;
}

/* Whether a telegram of which k bytes are there ends on this page. Where it does not, somebody changed the page. */
static inline int ends(uint32_t length, uint32_t k, size_t page_len)
{
    return length > k && length <= page_len && length <= USS_BUFFER;
}

uss_received peer_receive(uss_receiver receiver, const uint16_t *items, size_t item_count, uint8_t *page, size_t page_len)
{
    uint32_t state = state_of(receiver, page_len), k = state - 1, length, item;
    size_t i = 0, j, most;

    if (state > 2) {
        length = page[1] + 2u;
        if (ends(length, k, page_len))
            goto inside;
        goto changed;
    }
    if (state == 2)
        goto opened;
    if (state == 1)
        goto armed;
disarmed:
    do {
        if (i == item_count)
            return received(item_count, 0, 0);
    } while (items[i++] < USS_PAUSE);
armed:
    do {
        if (i == item_count)
            return received(item_count, 0, 1);
        item = items[i++];
    } while (item >= USS_PAUSE);
    if (item != 0x02 || page_len == 0)
        goto disarmed;
    page[0] = 0x02;
opened:
    if (i == item_count)
        return received(item_count, 0, 2);
    item = items[i++];
    if (item >= USS_PAUSE)
        goto armed;
    if (!lge_ok(item, page_len))
        goto disarmed;
    page[1] = (uint8_t)item;
    length = item + 2;
    k = 2;
inside:
    most = length - k;
    if (most > item_count - i)
        most = item_count - i;
    for (j = 0; j != most; j++) {
        if (items[i + j] >= USS_PAUSE) {
            i += j + 1;
            goto armed;
        }
        page[k + j] = (uint8_t)items[i + j];
    }
    k += (uint32_t)most;
    return k == length ? received(i + most, length, 0) : received(item_count, 0, k + 1);
changed:
    while (i != item_count) {
        item = items[i++];
        if (item >= USS_PAUSE)
            goto armed;
        if (k == page_len)
            goto disarmed;
        page[k++] = (uint8_t)item;
        if (k == USS_BUFFER)
            goto disarmed;
    }
    return received(item_count, 0, k + 1);
}

uss_received peer_receive_bytes(uss_receiver receiver, const uint8_t *bytes, size_t byte_count, uint8_t *page, size_t page_len)
{
    uint32_t state = state_of(receiver, page_len), k = state - 1, length;
    size_t i = 0, j, most;

    if (state == 0 || byte_count == 0)
        return received(byte_count, 0, state);
    if (state > 2) {
        length = page[1] + 2u;
        if (!ends(length, k, page_len))
            goto changed;
    } else {
        if (state == 1) {
            if (bytes[0] != 0x02 || page_len == 0)
                return received(byte_count, 0, 0);
            page[0] = 0x02;
            if (byte_count == 1)
                return received(1, 0, 2);
            i = 1;
        }
        if (!lge_ok(bytes[i], page_len))
            return received(byte_count, 0, 0);
        page[1] = bytes[i];
        length = bytes[i++] + 2u;
        k = 2;
        if (i == byte_count)
            return received(byte_count, 0, 3);
    }
    most = length - k;
    if (most > byte_count - i)
        most = byte_count - i;
    for (j = 0; j != most; j++)
        page[k + j] = bytes[i + j];
    k += (uint32_t)most;
    return k == length ? received(i + most, length, 0) : received(byte_count, 0, k + 1);
changed:
    while (i != byte_count) {
        if (k == page_len)
            return received(byte_count, 0, 0);
        page[k++] = bytes[i++];
        if (k == USS_BUFFER)
            return received(byte_count, 0, 0);
    }
    return received(byte_count, 0, k + 1);
}

uss_receiver peer_pause(uss_receiver receiver)
{
    receiver.state = 1;
    return receiver;
}
#endif
