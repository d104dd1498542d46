/* A part of driver.c: telegrams and tables, put together by hand. */

/* ---- telegrams and tables */

static uint8_t table[12 * MOST_RECORDS + 12], page[300], room[300];
static uint32_t values[MOST_VALUES];
static uint16_t line[320], places[MOST_RECORDS + 2];

static void put_be(uint8_t *p, uint32_t word)
{
    p[0] = (uint8_t)(word >> 24);
    p[1] = (uint8_t)(word >> 16);
    p[2] = (uint8_t)(word >> 8);
    p[3] = (uint8_t)word;
}

static uint32_t get_be(const uint8_t *p)
{
    return (uint32_t)p[0] << 24 | (uint32_t)p[1] << 16 | (uint32_t)p[2] << 8 | p[3];
}

enum { SIGNED = 1, DOUBLE = 2 }; /* a record's kind */
#define WRITABLE 0x4000u

/* Record k of the table. */
static void put_record(uint32_t k, uint32_t number, uint32_t kind, uint32_t writable, uint32_t elements, uint32_t low,
                       uint32_t high)
{
    put_be(table + 12 * k, number << 17 | kind << 15 | writable | elements << 6);
    put_be(table + 12 * k + 4, low);
    put_be(table + 12 * k + 8, high);
}

/* The first places of the first records of the table, and one behind them. */
static void put_places(uint32_t records)
{
    uint32_t k, place = 0, elements;
    for (k = 0; k <= records; k++) {
        places[k] = (uint16_t)place;
        elements = get_be(table + 12 * k) >> 6 & 0xFF;
        place += elements == 0 ? 1 : elements;
    }
}

/* Start, LGE, address and BCC of a telegram of `len` bytes. */
static void seal(uint8_t *t, size_t len, uint32_t adr)
{
    uint8_t sum = 0;
    size_t i;
    t[0] = 2;
    t[1] = (uint8_t)(len - 2);
    t[2] = (uint8_t)adr;
    for (i = 0; i < len - 1; i++)
        sum ^= t[i];
    t[len - 1] = sum;
}

/* PKE and IND; the page's weights are those of document 01. */
static uint32_t head_of(uint32_t task, uint32_t number, uint32_t index)
{
    uint32_t digit = 0;
    while (number >= 2000) {
        number -= 2000;
        digit++;
    }
    return task << 28 | number << 16 | (digit & 1) << 15 | digit >> 1 << 12 | index;
}

static uss_words words(uint32_t a, uint32_t b, uint32_t c, uint32_t d)
{
    uss_words w;
    w.w1 = (uint16_t)a;
    w.w2 = (uint16_t)b;
    w.w3 = (uint16_t)c;
    w.w4 = (uint16_t)d;
    return w;
}

static uss_setup setup_of(uint32_t node, uint32_t pkw, uint32_t pzd)
{
    uss_setup s;
    s.node = (uint8_t)node;
    s.pkw = (uint8_t)pkw;
    s.pzd = (uint8_t)pzd;
    return s;
}

/* A normal telegram on `page` for the set-up: PKE and IND, the value, four process words. Gives its length. */
static size_t put_telegram(uss_setup s, uint32_t adr, uint32_t head, uint32_t value, uss_words w)
{
    const uint16_t process[4] = {w.w1, w.w2, w.w3, w.w4};
    uint32_t i, at = 3;
    if (s.pkw >= 3) {
        put_be(page + 3, head);
        put_be(page + 7, s.pkw == 3 ? value << 16 : value);
        at = 3 + 2 * s.pkw;
    }
    for (i = 0; i < s.pzd && i < 4; i++) {
        page[at++] = (uint8_t)(process[i] >> 8);
        page[at++] = (uint8_t)process[i];
    }
    seal(page, at + 1, adr);
    return at + 1;
}

/* The bytes as items of the line, from a place on. Gives where they end. */
static size_t put_items(size_t at, const uint8_t *bytes, size_t len)
{
    size_t i;
    for (i = 0; i < len; i++)
        line[at + i] = bytes[i];
    return at + len;
}

static uss_receiver in_state(uint32_t number)
{
    uss_receiver r;
    r.state = number;
    return r;
}

static uss_view view_of(uint32_t number, uint32_t at)
{
    uss_view v;
    v.number = number;
    v.at = at;
    return v;
}

static void fill_room(uint32_t byte)
{
    size_t i;
    for (i = 0; i < sizeof room; i++)
        room[i] = (uint8_t)byte;
}
