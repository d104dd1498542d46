/* The bench's driver: the same rows for each implementation. The calls under test are chosen when it is compiled
 * (-DSLAVE=peer_slave and so on); without a choice they are the library's.
 *     bench rows             the names of the rows
 *     bench compare          each row, a sweep of damaged calls and lines of items, against the library: 1 at a difference
 *     bench one ROW          the row's call, once: to be counted by callgrind
 *     bench floor ROW        the floor of the row's call, once
 *     bench time [floor]     a line for each row: its name, median nanoseconds of a call (or of its floor)
 *     bench stack            a line for each row: its name, stack bytes of a call below its return address
 * All inputs are made here, the same at each run. Set-up of every row: node 5, PKW 4, PZD 2. */
#define _DEFAULT_SOURCE
#include "floor.h"
#include "peer.h"

#include <stdio.h>
#include <stdlib.h>
#include <string.h>
#include <sys/mman.h>
#include <time.h>
#include <ucontext.h>

#ifndef SLAVE
#define SLAVE uss_slave
#define SLAVE_LISTED uss_slave_listed
#define BUILD_TASK uss_build_task
#define READ_REPLY uss_read_reply
#define BCC uss_bcc
#define RECEIVE uss_receive
#define RECEIVE_BYTES uss_receive_bytes
#define PAUSE uss_pause
#endif

#define MOST_RECORDS 512
#define MOST_VALUES 4096
#define BATCHES 41

/* ---- a call with all it is lent and all it leaves */

enum call { CALL_SLAVE, CALL_SLAVE_LISTED, CALL_BUILD, CALL_READ, CALL_BCC, CALL_RECEIVE, CALL_RECEIVE_BYTES, CALL_PAUSE };

struct input {
    enum call call;
    uss_setup setup;
    const uint8_t *table;
    size_t table_len;
    uint32_t *values;
    size_t value_count;
    const uint16_t *places;
    size_t place_count;
    uss_words control, words; /* words: status of the slave, process words of the master */
    const uint8_t *telegram; /* of the receiver the bytes */
    size_t telegram_len;
    uint8_t *out; /* of the receiver the page */
    size_t out_len;
    uss_receiver receiver;
    const uint16_t *items;
    size_t item_count;
    uint8_t task, index;
    uint16_t parameter;
    uint32_t value;
};

union output {
    uss_answer answer;
    uss_built built;
    uss_reply reply;
    uint8_t bcc;
    uss_received received;
    uss_receiver receiver;
};

/* An implementation; `nothing` does not look at what it is given. Not const, so that no call of them is compiled away. */
struct calls {
    uss_answer (*slave)(uss_setup, const uint8_t *, size_t, uint32_t *, size_t, uss_words, uss_words, const uint8_t *, size_t,
                        uint8_t *, size_t);
    uss_answer (*slave_listed)(uss_setup, const uint8_t *, size_t, uint32_t *, size_t, const uint16_t *, size_t, uss_words, uss_words,
                               const uint8_t *, size_t, uint8_t *, size_t);
    uss_built (*build_task)(uss_setup, uint8_t, uint16_t, uint8_t, uint32_t, uss_words, uint8_t *, size_t);
    uss_reply (*read_reply)(uss_setup, uint8_t, uint16_t, uint8_t, uint32_t, uss_words, const uint8_t *, size_t);
    uint8_t (*bcc)(const uint8_t *, size_t);
    uss_received (*receive)(uss_receiver, const uint16_t *, size_t, uint8_t *, size_t);
    uss_received (*receive_bytes)(uss_receiver, const uint8_t *, size_t, uint8_t *, size_t);
    uss_receiver (*pause)(uss_receiver);
};

struct calls tested = {SLAVE, SLAVE_LISTED, BUILD_TASK, READ_REPLY, BCC, RECEIVE, RECEIVE_BYTES, PAUSE};
struct calls library = {uss_slave, uss_slave_listed, uss_build_task, uss_read_reply, uss_bcc, uss_receive, uss_receive_bytes, uss_pause};
struct calls nothing = {nothing_slave, nothing_slave_listed, nothing_build_task, nothing_read_reply, nothing_bcc,
                        nothing_receive, nothing_receive_bytes, nothing_pause};

static union output call(const struct calls *c, const struct input *in)
{
    union output o;
    memset(&o, 0, sizeof o);
    switch (in->call) {
    case CALL_SLAVE:
        o.answer = c->slave(in->setup, in->table, in->table_len, in->values, in->value_count, in->control, in->words,
                            in->telegram, in->telegram_len, in->out, in->out_len);
        break;
    case CALL_SLAVE_LISTED:
        o.answer = c->slave_listed(in->setup, in->table, in->table_len, in->values, in->value_count, in->places, in->place_count,
                                   in->control, in->words, in->telegram, in->telegram_len, in->out, in->out_len);
        break;
    case CALL_BUILD:
        o.built = c->build_task(in->setup, in->task, in->parameter, in->index, in->value, in->words, in->out, in->out_len);
        break;
    case CALL_READ:
        o.reply = c->read_reply(in->setup, in->task, in->parameter, in->index, in->value, in->words, in->telegram,
                                in->telegram_len);
        break;
    case CALL_BCC:
        o.bcc = c->bcc(in->telegram, in->telegram_len);
        break;
    case CALL_RECEIVE:
        o.received = c->receive(in->receiver, in->items, in->item_count, in->out, in->out_len);
        break;
    case CALL_RECEIVE_BYTES:
        o.received = c->receive_bytes(in->receiver, in->telegram, in->telegram_len, in->out, in->out_len);
        break;
    case CALL_PAUSE:
        o.receiver = c->pause(in->receiver);
        break;
    }
    return o;
}

/* The slave reads table, values, list and telegram, the receiver items or bytes, the others a telegram alone. */
static uint32_t call_floor(const struct input *in)
{
    if (in->call == CALL_SLAVE)
        return floor_slave(in->table, in->table_len, in->values, in->value_count, in->telegram, in->telegram_len);
    if (in->call == CALL_SLAVE_LISTED)
        return floor_slave_listed(in->table, in->table_len, in->values, in->value_count, in->places, in->place_count, in->telegram,
                                  in->telegram_len);
    if (in->call == CALL_RECEIVE)
        return floor_items(in->items, in->item_count);
    return floor_bcc(in->telegram, in->telegram_len);
}

/* ---- tables: kinds in turn, the last record an unsigned word that can be written */

static uint32_t number_of(uint32_t k)
{
    return 7 + 62 * k;
}

static void put32(uint8_t *p, uint32_t w)
{
    p[0] = (uint8_t)(w >> 24);
    p[1] = (uint8_t)(w >> 16);
    p[2] = (uint8_t)(w >> 8);
    p[3] = (uint8_t)w;
}

/* Fills table and values; gives the count of values. */
static size_t make_table(uint8_t *table, uint32_t *values, uint32_t records, uint32_t elements)
{
    static const uint32_t minimum[4] = {100, 0xFF00, 70000, 0xFFFF0000u}, maximum[4] = {60000, 0x0100, 4000000000u, 0x00010000};
    size_t count = 0;
    uint32_t k, i;
    for (k = 0; k < records; k++) {
        uint32_t kind = (records - 1 - k) % 4, writable = (records - 1 - k) % 3 == 0; /* kind: bit 1 double, bit 0 signed */
        uint32_t places = elements == 0 ? 1 : elements;
        put32(table + 12 * k, number_of(k) << 17 | kind << 15 | writable << 14 | elements << 6);
        put32(table + 12 * k + 4, minimum[kind] + k % 16);
        put32(table + 12 * k + 8, maximum[kind] - k % 32);
        for (i = 0; i < places; i++) {
            uint32_t step = (37 * k + 11 * i) % 400; /* from the minimum up; a word goes round at 65536 */
            uint32_t value = minimum[kind] + 16 + step;
            values[count++] = kind & 2 ? value : value & 0xFFFF;
        }
    }
    return count;
}

/* The places of the first records of a table, and one behind them. */
static void make_places(uint16_t *places, const uint8_t *table, uint32_t records)
{
    uint32_t k, elements, place = 0;
    for (k = 0; k <= records; k++) {
        places[k] = (uint16_t)place;
        elements = k < records ? (uint32_t)(table[12 * k + 2] & 0x3F) << 2 | table[12 * k + 3] >> 6 : 0;
        place += elements == 0 ? 1 : elements;
    }
}

/* ---- rows */

enum telegram { ASKED, BAD, MIRROR, BROADCAST, NOISE };

struct row {
    const char *name;
    enum call call;
    uint32_t records, elements;
    enum telegram telegram;
    uint8_t task;
    uint32_t beyond; /* added to the last record's number */
    size_t len;      /* telegram bytes */
    uint32_t state;  /* of the receiver: 0 starts at the pause in front of the telegram, 1 + k at its byte k */
    size_t fed;      /* items or bytes that the receiver is given */
};

static const struct row rows[] = {
    {"read, 1 record", CALL_SLAVE, 1, 0, ASKED, USS_READ, 0, 16, 0, 0},
    {"read, 16 records", CALL_SLAVE, 16, 0, ASKED, USS_READ, 0, 16, 0, 0},
    {"read, 128 records", CALL_SLAVE, 128, 0, ASKED, USS_READ, 0, 16, 0, 0},
    {"read, 512 records", CALL_SLAVE, 512, 0, ASKED, USS_READ, 0, 16, 0, 0},
    {"read, 512 records, 4096 values", CALL_SLAVE, 512, 8, ASKED, USS_READ_ELEMENT, 0, 16, 0, 0},
    {"word change", CALL_SLAVE, 1, 0, ASKED, USS_CHANGE_WORD, 0, 16, 0, 0},
    {"bad BCC, 16 bytes", CALL_SLAVE, 1, 0, BAD, USS_READ, 0, 16, 0, 0},
    {"bad BCC, 256 bytes", CALL_SLAVE, 1, 0, BAD, USS_READ, 0, 256, 0, 0},
    {"mirror, 16 bytes", CALL_SLAVE, 1, 0, MIRROR, USS_READ, 0, 16, 0, 0},
    {"mirror, 256 bytes", CALL_SLAVE, 1, 0, MIRROR, USS_READ, 0, 256, 0, 0},
    {"broadcast", CALL_SLAVE, 1, 0, BROADCAST, 0, 0, 16, 0, 0},
    {"unknown number", CALL_SLAVE, 1, 0, ASKED, USS_READ, 1, 16, 0, 0},
    {"read, 1 record, list", CALL_SLAVE_LISTED, 1, 0, ASKED, USS_READ, 0, 16, 0, 0},
    {"read, 512 records, list", CALL_SLAVE_LISTED, 512, 0, ASKED, USS_READ, 0, 16, 0, 0},
    {"read, 512 records, 4096 values, list", CALL_SLAVE_LISTED, 512, 8, ASKED, USS_READ_ELEMENT, 0, 16, 0, 0},
    {"master build", CALL_BUILD, 0, 0, ASKED, USS_READ, 1082, 16, 0, 0},
    {"reply read", CALL_READ, 0, 0, ASKED, USS_READ, 1082, 16, 0, 0},
    {"BCC of 256 bytes", CALL_BCC, 0, 0, BAD, 0, 0, 256, 0, 0},
    {"receive, telegram of 16 bytes", CALL_RECEIVE, 0, 0, ASKED, USS_READ, 1082, 16, 0, 17},
    {"receive, telegram of 128 bytes", CALL_RECEIVE, 0, 0, ASKED, USS_READ, 1082, 128, 0, 129},
    {"receive, telegram of 256 bytes", CALL_RECEIVE, 0, 0, ASKED, USS_READ, 1082, 256, 0, 257},
    {"receive, 100 ignored bytes", CALL_RECEIVE, 0, 0, NOISE, 0, 0, 100, 0, 100},
    {"receive, 200 ignored bytes", CALL_RECEIVE, 0, 0, NOISE, 0, 0, 200, 0, 200},
    {"receive, a pause", CALL_RECEIVE, 0, 0, ASKED, USS_READ, 1082, 16, 0, 1},
    {"receive, the first 02", CALL_RECEIVE, 0, 0, ASKED, USS_READ, 1082, 16, 1, 1},
    {"receive, LGE", CALL_RECEIVE, 0, 0, ASKED, USS_READ, 1082, 16, 2, 1},
    {"receive, a byte inside", CALL_RECEIVE, 0, 0, ASKED, USS_READ, 1082, 16, 8, 1},
    {"receive, the last byte", CALL_RECEIVE, 0, 0, ASKED, USS_READ, 1082, 16, 16, 1},
    {"receive, an ignored byte", CALL_RECEIVE, 0, 0, NOISE, 0, 0, 16, 0, 1},
    {"receive bytes, telegram of 16 bytes", CALL_RECEIVE_BYTES, 0, 0, ASKED, USS_READ, 1082, 16, 1, 16},
    {"receive bytes, telegram of 128 bytes", CALL_RECEIVE_BYTES, 0, 0, ASKED, USS_READ, 1082, 128, 1, 128},
    {"receive bytes, telegram of 256 bytes", CALL_RECEIVE_BYTES, 0, 0, ASKED, USS_READ, 1082, 256, 1, 256},
    {"receive bytes, 100 ignored bytes", CALL_RECEIVE_BYTES, 0, 0, NOISE, 0, 0, 100, 0, 100},
    {"receive bytes, 200 ignored bytes", CALL_RECEIVE_BYTES, 0, 0, NOISE, 0, 0, 200, 0, 200},
    {"receive bytes, the first 02", CALL_RECEIVE_BYTES, 0, 0, ASKED, USS_READ, 1082, 16, 1, 1},
    {"receive bytes, LGE", CALL_RECEIVE_BYTES, 0, 0, ASKED, USS_READ, 1082, 16, 2, 1},
    {"receive bytes, a byte inside", CALL_RECEIVE_BYTES, 0, 0, ASKED, USS_READ, 1082, 16, 8, 1},
    {"receive bytes, the last byte", CALL_RECEIVE_BYTES, 0, 0, ASKED, USS_READ, 1082, 16, 16, 1},
    {"receive bytes, an ignored byte", CALL_RECEIVE_BYTES, 0, 0, NOISE, 0, 0, 16, 0, 1},
    {"pause", CALL_PAUSE, 0, 0, ASKED, USS_READ, 1082, 16, 0, 0},
};
#define ROWS (sizeof rows / sizeof rows[0])

static uint8_t table[12 * MOST_RECORDS], telegram[256], out[256];
static uint16_t items[257], places[MOST_RECORDS + 2];
static uint32_t values[MOST_VALUES];
static const uss_setup setup = {5, 4, 2};

/* PKE and IND of a number; document 01's page weights. */
static uint32_t head_of(uint32_t task, uint32_t number, uint32_t index)
{
    static const uint8_t nibble[16] = {0, 8, 1, 9, 2, 10, 3, 11, 4, 12, 5, 13, 6, 14, 7, 15};
    return task << 28 | (number % 2000) << 16 | (uint32_t)nibble[number / 2000] << 12 | index;
}

static void seal(uint8_t *t, size_t len, uint8_t adr)
{
    size_t i;
    t[0] = 0x02;
    t[1] = (uint8_t)(len - 2);
    t[2] = adr;
    t[len - 1] = 0;
    for (i = 0; i < len - 1; i++)
        t[len - 1] ^= t[i];
}

/* What the receiver is given: a part of the pause and the telegram behind it, with what comes before it on the page. */
static void prepare_receiver(struct input *in, const struct row *r)
{
    size_t i, held = r->state == 0 ? 0 : r->state - 1;
    items[0] = USS_PAUSE;
    for (i = 0; i < r->len; i++)
        items[1 + i] = telegram[i];
    for (i = 0; i < held; i++)
        out[i] = telegram[i];
    in->receiver.state = r->state;
    in->items = items + (r->telegram == NOISE ? 1 : r->state);
    in->item_count = r->call == CALL_RECEIVE ? r->fed : 0;
    in->telegram = telegram + held;
    in->telegram_len = r->call == CALL_RECEIVE_BYTES ? r->fed : 0;
}

/* The row's call, on the buffers above. */
static struct input prepare(const struct row *r)
{
    static const uss_words control = {0x047E, 0x1111, 0x2222, 0x3333}, status = {0x0331, 0x2000, 0, 0};
    struct input in;
    uint32_t parameter = r->beyond + (r->records > 0 ? number_of(r->records - 1) : 0);
    uint32_t index = r->elements > 0 ? r->elements - 1 : 0;
    size_t i;

    memset(&in, 0, sizeof in);
    memset(out, 0xEE, sizeof out);
    for (i = 0; i < sizeof telegram; i++)
        telegram[i] = (uint8_t)(37 * i + 11);
    if (r->len == 16 && r->telegram != BROADCAST) { /* PKE, IND, value 5000, control words 047F 2000 */
        put32(telegram + 3, head_of(r->task, parameter, index));
        put32(telegram + 7, r->task == USS_READ ? 0 : 5000);
        put32(telegram + 11, 0x047F2000);
    }
    if (r->telegram == BROADCAST) { /* selector 6, masks 0401 and FFFF, words 0401 2000 */
        put32(telegram + 3, 0x00060401);
        put32(telegram + 7, 0xFFFF0000);
        put32(telegram + 11, 0x04012000);
    }
    seal(telegram, r->len, r->telegram == MIRROR ? 0x45 : r->telegram == BROADCAST ? 0x20 : 0x05);
    if (r->telegram == BAD)
        telegram[r->len - 1] ^= 0x10;
    if (r->call == CALL_READ) { /* the reply: value 5000 */
        put32(telegram + 7, 5000);
        seal(telegram, r->len, 0x05);
    }

    in.call = r->call;
    in.setup = setup;
    in.table = table;
    in.table_len = 12 * r->records;
    in.values = values;
    in.value_count = make_table(table, values, r->records, r->elements);
    make_places(places, table, r->records);
    in.places = places;
    in.place_count = r->call == CALL_SLAVE_LISTED ? r->records : 0;
    in.control = control;
    in.words = status;
    in.telegram = telegram;
    in.telegram_len = r->len;
    in.out = out;
    in.out_len = sizeof out;
    in.task = r->task;
    in.parameter = (uint16_t)parameter;
    if (r->call == CALL_RECEIVE || r->call == CALL_RECEIVE_BYTES || r->call == CALL_PAUSE)
        prepare_receiver(&in, r);
    return in;
}

/* ---- compare */

static uint64_t seed = 1;

static uint32_t draw(uint32_t below)
{
    seed = seed * 6364136223846793005u + 1442695040888963407u;
    return (uint32_t)((seed >> 33) % below);
}

/* A copy of `len` bytes that ends where memory ends, one for each `which`; NULL of none. */
static void *lent(unsigned which, const void *bytes, size_t len)
{
    static uint8_t *blocks[6];
    size_t size = 32768;
    if (len == 0)
        return NULL;
    if (blocks[which] == NULL) {
        blocks[which] = mmap(NULL, size + 4096, PROT_READ | PROT_WRITE, MAP_PRIVATE | MAP_ANONYMOUS, -1, 0);
        if (blocks[which] == MAP_FAILED || mprotect(blocks[which] + size, 4096, PROT_NONE) != 0) {
            perror("mmap");
            exit(2);
        }
    }
    return memcpy(blocks[which] + size - len, bytes, len);
}

static void keep(void *to, const void *bytes, size_t len)
{
    if (len > 0)
        memcpy(to, bytes, len);
}

/* Both implementations on copies of the same input: 0 where answer, values and buffer are the same. */
static int differ(const struct input *given)
{
    static uint32_t after[MOST_VALUES + 300];
    static uint8_t out_after[300];
    struct input in = *given;
    union output got, want;
    size_t values_len = sizeof *in.values * in.value_count;
    int same;

    in.table = lent(0, given->table, in.table_len);
    in.values = lent(1, given->values, values_len);
    in.telegram = lent(2, given->telegram, in.telegram_len);
    in.out = lent(3, given->out, in.out_len);
    in.items = lent(4, given->items, sizeof *in.items * in.item_count);
    in.places = lent(5, given->places, sizeof *in.places * in.place_count);
    got = call(&tested, &in);
    keep(after, in.values, values_len);
    keep(out_after, in.out, in.out_len);
    in.values = lent(1, given->values, values_len);
    in.out = lent(3, given->out, in.out_len);
    want = call(&library, &in);
    same = memcmp(&got, &want, sizeof got) == 0 && (values_len == 0 || memcmp(after, in.values, values_len) == 0)
        && (in.out_len == 0 || memcmp(out_after, in.out, in.out_len) == 0);
    if (!same)
        printf("answers differ: %u and the library's %u\n", (unsigned)got.answer.number, (unsigned)want.answer.number);
    return !same;
}

static uss_words draw_words(uint32_t used)
{
    uss_words w = {0, 0, 0, 0};
    if (used > 0)
        w.w1 = (uint16_t)draw(65536);
    if (used > 1)
        w.w2 = (uint16_t)draw(65536);
    if (used > 2)
        w.w3 = (uint16_t)draw(65536);
    if (used > 3)
        w.w4 = (uint16_t)draw(65536);
    return w;
}

static uss_setup draw_setup(void)
{
    static const uint8_t pkw[8] = {0, 3, 4, 4, 3, 4, 3, 4};
    uss_setup s = {5, 4, 2};
    s.pkw = pkw[draw(8)];
    s.pzd = (uint8_t)(s.pkw == 0 ? 1 + draw(4) : draw(5));
    if (draw(30) == 0)
        s.node = (uint8_t)(draw(2) ? draw(32) : draw(256));
    if (draw(60) == 0)
        s.pkw = (uint8_t)draw(6);
    if (draw(60) == 0)
        s.pzd = (uint8_t)draw(6);
    return s;
}

/* One of the ends of the ranges, a number near one, or any. */
static uint32_t draw_limit(uint32_t kind)
{
    static const uint32_t ends[8] = {0, 1, 0x7FFF, 0x8000, 0xFFFF, 0x10000, 0x7FFFFFFF, 0x80000000u};
    uint32_t w = draw(3) == 0 ? draw(0x7FFFFFFF) * 2 + draw(2) : ends[draw(8)] - draw(2);
    return kind & 2 ? w : w & 0xFFFF;
}

/* A limit's place in the order of its kind. */
static uint32_t rank(uint32_t kind, uint32_t w)
{
    return kind == 1 ? w ^ 0x8000u : kind == 3 ? w ^ 0x80000000u : w;
}

/* A table that is good but for chance damage, with values to go with it; gives a number to ask for. */
static uint32_t draw_table(struct input *in, uint8_t *t, uint32_t *v)
{
    uint32_t records = draw(7), step = 5000, k, i, number = draw(3) == 0 ? 0 : draw(4000), asked = draw(32768);
    uint32_t large = draw(40) == 0, many = draw(200) == 0; /* large arrays: about 4096 places; many records: about 512 */
    uint32_t damaged;
    if (draw(6) == 0)
        number = 2000 * draw(16) + draw(3); /* also named by base 2000 and up on the page before, which names nothing */
    if (large || many) {
        records = large ? 25 : draw(2) ? draw(512) : 510 + draw(4);
        step = large ? 1000 : 50;
    }
    damaged = draw(6) == 0 ? draw(records + 1) : 9999;
    in->value_count = 0;
    for (k = 0; k < records; k++) {
        uint32_t kind = draw(4), elements = large ? 190 + draw(65) : many || draw(2) ? 0 : draw(40), low = draw_limit(kind), high = draw_limit(kind);
        uint32_t head, places;
        if (draw(200) == 0)
            elements = 254 + draw(2);
        if (k + 1 == records && draw(20) == 0)
            number = 31999 + draw(2);
        if (large && in->value_count < 4096 && 4096 - in->value_count < 254) { /* the last: 4095, 4096 or 4097 places */
            elements = (uint32_t)(4095 + draw(3) - in->value_count);
            records = k + 1;
        }
        head = number << 17 | kind << 15 | (draw(4) != 0) << 14 | elements << 6;
        places = elements == 0 ? 1 : elements;
        if (rank(kind, low) > rank(kind, high)) {
            uint32_t swap = low;
            low = high;
            high = swap;
        }
        if (draw(records) == 0)
            asked = number;
        for (i = 0; i < places; i++) {
            uint32_t from = rank(kind, low), to = rank(kind, high);
            v[in->value_count++] = rank(kind, draw(3) == 0 ? from : draw(2) ? to : from + (to - from) / (1 + draw(9)));
        }
        if (damaged == k) {
            if (draw(3) == 0)
                head ^= 1u << draw(32);
            else if (draw(2))
                v[draw((uint32_t)in->value_count)] ^= draw(2) ? 0x10000u << draw(16) : 1u << draw(16);
            else if (draw(2))
                low ^= 1u << draw(32);
            else
                high ^= 1u << draw(32);
        }
        put32(t + 12 * k, head);
        put32(t + 12 * k + 4, low);
        put32(t + 12 * k + 8, high);
        number += draw(large || many ? 5000 : 50) == 0 ? draw(2) : 1 + draw(step > 1000 && draw(6) == 0 ? 32000 : step);
        number %= 32768;
    }
    in->table_len = 12 * records + (draw(80) == 0 ? draw(12) : 0);
    if (draw(40) == 0)
        in->value_count += draw(2);
    else if (draw(40) == 0 && in->value_count > 0)
        in->value_count--;
    return asked;
}

/* The list of a table, right but for chance damage. */
static void draw_places(struct input *in, uint16_t *list)
{
    uint32_t records = (uint32_t)(in->table_len / 12), k;
    make_places(list, in->table, records);
    in->place_count = draw(30) == 0 ? draw(records + 2) : records;
    if (records > 0 && draw(12) == 0)
        list[draw(3) == 0 ? 0 : draw(2) ? records - 1 : draw(records)] ^= (uint16_t)(draw(2) ? 1u : 1u << draw(16));
    if (draw(60) == 0)
        for (k = 0; k < records; k++)
            list[k] = (uint16_t)draw(65536);
}

/* A telegram to the set-up, good but for chance damage. */
static void draw_telegram(struct input *in, uint8_t *t, uint32_t asked, int reply)
{
    uint32_t i, kind = reply ? (draw(30) == 0 ? 1 : 0) : draw(8), pkw = in->setup.pkw, pzd = in->setup.pzd;
    size_t len = 4 + 2 * (pkw + pzd);
    uint8_t adr = (uint8_t)(in->setup.node & 31);
    if (kind == 7) {
        adr |= 0x40;
        len = draw(20) == 0 ? 256 + draw(2) : 5 + draw(252);
    }
    if (kind == 6)
        adr = (uint8_t)(0x20 | draw(32));
    for (i = 0; i < 256; i++)
        t[i] = (uint8_t)draw(256);
    if (pkw != 0) {
        uint32_t head = head_of(draw(16), asked % 32000, draw(3) == 0 ? draw(256) : draw(4)) ^ (draw(9) == 0 ? draw(1u << 20) << 8 : 0);
        if (asked >= 2000 && asked < 32000 && asked % 2000 < 48 && draw(2))
            head = (head_of(head >> 28, asked - 2000, head & 0xFF) & 0xF800FFFFu) | (2000 + asked % 2000) << 16;
        if (kind == 6) /* selector and first mask */
            head = (draw(4) == 0 ? draw(16) : draw(2) ? 2 : 6) << 16 | (draw(8) == 0 ? 0 : 0x400) | draw(65536);
        if (reply)
            head = head_of(draw(5) == 0 ? draw(16) : in->task % 3 + draw(3), in->parameter % 32000, in->index) ^ (draw(9) == 0 ? 1u << draw(32) : 0);
        if (in->task == 0 && reply && draw(4) != 0)
            head = 0;
        put32(t + 3, head);
        if (draw(3) != 0)
            t[7] = t[8] = 0;
        if (draw(3) == 0)
            t[9] = t[10] = 0;
        if (kind == 6 && draw(6) != 0)
            t[9] = t[10] = 0;
        if (draw(2) && kind != 6 && in->value_count > 0)
            put32(t + 7, in->values[draw((uint32_t)in->value_count)] + draw(3) - 1);
    }
    if (draw(5) != 0)
        t[3 + 2 * pkw] |= 4;
    if (draw(25) == 0)
        len = draw(260);
    if (draw(25) == 0)
        adr ^= (uint8_t)(1u << draw(8));
    if (len >= 5 && len <= 257)
        seal(t, len, adr);
    if (draw(12) == 0)
        t[draw(draw(2) ? 4 : 20)] ^= (uint8_t)(1u << draw(8));
    in->telegram_len = draw(40) == 0 ? draw(262) : len;
}

/* ---- compare: the receiver */

#define MOST_ITEMS 1200

/* The bytes of a telegram or of its start, with chance damage; gives how many. */
static uint32_t draw_run(uint8_t *run, uint32_t room)
{
    uint32_t i, len = draw(4) == 0 ? room - draw(3) : draw(8) == 0 ? 254 + draw(5) : draw(8) == 0 ? draw(258) : 4 + draw(24);
    if (len > 257)
        len = 5;
    for (i = 0; i < 258; i++)
        run[i] = (uint8_t)draw(256);
    if (draw(12) == 0)
        return draw(12);
    run[0] = 0x02;
    run[1] = (uint8_t)(len - 2);
    if (draw(12) == 0)
        run[draw(2)] ^= (uint8_t)(1u << draw(8));
    if (draw(12) == 0)
        run[1] = run[0];
    return draw(6) == 0 ? draw(len + 1) : draw(12) == 0 ? 258 : len;
}

/* Runs of bytes, with a pause before most of them and inside few; gives how many items. */
static size_t draw_line(uint16_t *line, uint32_t room)
{
    uint8_t run[258];
    size_t count = 0;
    uint32_t runs = draw(5), i, len, cut;
    for (; runs > 0; runs--) {
        if (draw(8) != 0)
            line[count++] = (uint16_t)(draw(3) == 0 ? 256 + draw(65280) : USS_PAUSE);
        len = draw_run(run, room);
        cut = draw(10) == 0 ? draw(len + 1) : 999;
        for (i = 0; i < len; i++) {
            if (i == cut)
                line[count++] = USS_PAUSE;
            line[count++] = run[i];
        }
    }
    return count;
}

/* A page of any length and a state that goes with it or does not. */
static uint32_t draw_receiver(uint8_t *page, uss_receiver *receiver)
{
    static const uint16_t rooms[8] = {0, 1, 2, 4, 5, 255, 256, 300};
    uint32_t room = draw(2) ? 256 : draw(4) == 0 ? draw(300) : rooms[draw(8)], i;
    for (i = 0; i < 300; i++)
        page[i] = (uint8_t)draw(256);
    if (draw(2)) {
        page[0] = 0x02;
        page[1] = (uint8_t)(room - draw(4));
    }
    receiver->state = draw(4) == 0 ? draw(260) : draw(4) == 0 ? room + draw(3) : draw(8) == 0 ? draw(0x7FFFFFFF) * 2 + draw(2) : draw(2);
    return room;
}

/* Lines of items, cut into calls in any way; what was not taken is fed again. */
static int compare_receiver(void)
{
    static uint16_t line[MOST_ITEMS];
    static uint8_t bytes[MOST_ITEMS], page[300];
    uss_receiver receiver = {0};
    size_t at = 0, end = 0, n, k, run;
    uint32_t i, room = 256, taken = 0, telegrams = 0;
    int bad = 0;
    for (i = 0; i < 400000 && !bad; i++) {
        struct input in;
        union output o;
        if (at == end) {
            at = 0;
            end = draw_line(line, room);
            if (draw(3) == 0)
                room = draw_receiver(page, &receiver);
        }
        n = draw(4) == 0 ? draw(300) : draw(2) ? draw(20) : draw(3);
        if (n > end - at)
            n = end - at;
        for (run = 0; run < n && line[at + run] < USS_PAUSE; run++)
            bytes[run] = (uint8_t)line[at + run];
        memset(&in, 0, sizeof in);
        in.call = n == 1 && run == 0 && draw(2) ? CALL_PAUSE : draw(2) ? CALL_RECEIVE_BYTES : CALL_RECEIVE;
        in.receiver = receiver;
        in.items = line + at;
        in.item_count = in.call == CALL_RECEIVE ? n : 0;
        in.telegram = bytes;
        in.telegram_len = in.call == CALL_RECEIVE_BYTES ? run : 0;
        in.out = page;
        in.out_len = in.call == CALL_PAUSE ? 0 : room;
        bad |= differ(&in);
        o = call(&library, &in);
        k = in.call == CALL_PAUSE ? 1 : (size_t)o.received.taken;
        receiver = in.call == CALL_PAUSE ? o.receiver : o.received.receiver;
        telegrams += in.call != CALL_PAUSE && o.received.length > 0;
        at += k;
        taken += (uint32_t)k;
    }
    printf("%s: %u calls of the receiver, %u items, %u telegrams\n", bad ? "DIFFERENT" : "the same", (unsigned)i, (unsigned)taken,
           (unsigned)telegrams);
    return bad;
}

static int compare(void)
{
    static uint8_t t[12 * (MOST_RECORDS + 2)], page[300], room[300];
    static uint16_t list[MOST_RECORDS + 4];
    static uint32_t v[MOST_VALUES + 300 + 4000];
    uint32_t given[40] = {0}, i;
    int bad = 0;
    for (i = 0; i < ROWS; i++) {
        struct input in = prepare(&rows[i]);
        bad |= differ(&in);
    }
    for (i = 0; i < 600000 && !bad; i++) {
        struct input in;
        uint32_t asked;
        memset(&in, 0, sizeof in);
        in.call = i % 8 == 6 ? CALL_BUILD : i % 8 == 7 ? CALL_READ : i % 64 == 0 ? CALL_BCC : CALL_SLAVE;
        in.setup = draw_setup();
        in.table = t;
        in.values = v;
        in.telegram = page;
        in.out = room;
        in.out_len = draw(60) == 0 ? draw(256) : 256 + draw(3);
        in.control = draw_words(4);
        in.words = draw_words(draw(40) == 0 ? 4 : in.setup.pzd);
        memset(room, (int)draw(256), sizeof room);
        asked = draw_table(&in, t, v);
        in.places = list;
        if (in.call == CALL_SLAVE && i % 2) {
            in.call = CALL_SLAVE_LISTED;
            draw_places(&in, list);
        }
        in.task = (uint8_t)(draw(20) == 0 ? draw(256) : draw(15));
        in.parameter = (uint16_t)(in.task == 0 && draw(5) ? 0 : draw(30) == 0 ? draw(65536) : draw(32001));
        in.index = (uint8_t)(in.task == 0 && draw(5) ? 0 : draw(8) == 0 ? draw(256) : draw(255));
        in.value = draw(3) == 0 || (in.task % 3 == 0 && draw(4)) ? 0 : draw(2) ? draw(70000) : draw(0x7FFFFFFF);
        draw_telegram(&in, page, asked, in.call == CALL_READ);
        if (in.value_count > MOST_VALUES + 290)
            continue;
        bad |= differ(&in);
        if (in.call != CALL_BCC) {
            struct input again = in;
            uint32_t number = call(&library, &again).answer.number;
            given[number < 40 ? number : 39]++;
        }
    }
    printf("%s: %lu rows and %u calls, numbers", bad ? "DIFFERENT" : "the same", (unsigned long)ROWS, (unsigned)i);
    for (i = 0; i < 40; i++)
        if (given[i] > 0)
            printf(" %u:%u", (unsigned)i, (unsigned)given[i]);
    puts("");
    return bad | compare_receiver();
}

/* ---- time */

static double now(void)
{
    struct timespec t;
    clock_gettime(CLOCK_MONOTONIC, &t);
    return 1e9 * (double)t.tv_sec + (double)t.tv_nsec;
}

static int by_size(const void *a, const void *b)
{
    double x = *(const double *)a, y = *(const double *)b;
    return (x > y) - (x < y);
}

static double batch(const struct input *in, uint32_t calls, int floor)
{
    double start = now();
    uint32_t i;
    for (i = 0; i < calls; i++) {
        if (floor)
            call_floor(in);
        else
            call(&tested, in);
    }
    return (now() - start) / calls;
}

static void print_times(int floor)
{
    uint32_t i, k;
    for (i = 0; i < ROWS; i++) {
        struct input in = prepare(&rows[i]);
        double times[BATCHES];
        uint32_t calls = (uint32_t)(1e6 / (1 + batch(&in, 1000, floor))) + 1; /* a batch takes a millisecond */
        for (k = 0; k < BATCHES; k++)
            times[k] = batch(&in, calls, floor);
        qsort(times, BATCHES, sizeof times[0], by_size);
        printf("%s\t%.1f\n", rows[i].name, times[BATCHES / 2]);
    }
}

/* ---- stack */

#define STACK 65536
static uint8_t stack[STACK];
static ucontext_t host, guest;
static const struct calls *guest_calls;
static const struct input *guest_input;

static void be_guest(void)
{
    call(guest_calls, guest_input);
}

/* How far the stack is written to by a call and its caller. */
static size_t depth(const struct calls *c, const struct input *in, uint8_t paint)
{
    size_t low = 0;
    memset(stack, paint, sizeof stack);
    guest_calls = c;
    guest_input = in;
    getcontext(&guest);
    guest.uc_stack.ss_sp = stack;
    guest.uc_stack.ss_size = sizeof stack;
    guest.uc_link = &host;
    makecontext(&guest, be_guest, 0);
    swapcontext(&host, &guest);
    while (low < sizeof stack && stack[low] == paint)
        low++;
    return sizeof stack - low;
}

static size_t deepest(const struct calls *c, const struct input *in)
{
    size_t a = depth(c, in, 0xA5), b = depth(c, in, 0x5A);
    return a > b ? a : b;
}

static void print_stacks(void)
{
    uint32_t i;
    for (i = 0; i < ROWS; i++) {
        struct input in = prepare(&rows[i]);
        size_t own = deepest(&tested, &in) - deepest(&nothing, &in);
        printf("%s\t%lu\n", rows[i].name, (unsigned long)own);
    }
}

/* ---- */

static const struct row *row_named(const char *name)
{
    uint32_t i;
    for (i = 0; i < ROWS; i++)
        if (strcmp(rows[i].name, name) == 0)
            return &rows[i];
    fprintf(stderr, "no such row: %s\n", name);
    exit(2);
}

int main(int argc, char **argv)
{
    const char *mode = argc > 1 ? argv[1] : "";
    if (strcmp(mode, "rows") == 0) {
        uint32_t i;
        for (i = 0; i < ROWS; i++)
            puts(rows[i].name);
    } else if (strcmp(mode, "compare") == 0) {
        return compare();
    } else if (strcmp(mode, "one") == 0 && argc == 3) {
        struct input in = prepare(row_named(argv[2]));
        call(&tested, &in);
    } else if (strcmp(mode, "floor") == 0 && argc == 3) {
        struct input in = prepare(row_named(argv[2]));
        call_floor(&in);
    } else if (strcmp(mode, "time") == 0) {
        print_times(argc == 3);
    } else if (strcmp(mode, "stack") == 0) {
        print_stacks();
    } else {
        fprintf(stderr, "bench rows | compare | one ROW | floor ROW | time [floor] | stack\n");
        return 2;
    }
    return 0;
}
