/* A part of driver.c: what random calls are given, good but for chance damage. */

/* ---- drawing */

static uss_words draw_words(uint32_t used)
{
    uint32_t a = draw_word(), b = draw_word();
    return words(used > 0 ? a : 0, used > 1 ? a >> 16 : 0, used > 2 ? b : 0, used > 3 ? b >> 16 : 0);
}

static void draw_setup(void)
{
    static const uint8_t areas[8] = {0, 3, 4, 4, 3, 4, 3, 4};
    uint32_t pkw = areas[draw(8)], pzd = pkw == 0 ? 1 + draw(4) : draw(5), node = draw(4) == 0 ? draw(32) : 5;
    if (draw(60) == 0)
        node = draw(256);
    if (draw(60) == 0)
        pkw = draw(6);
    if (draw(60) == 0)
        pzd = draw(6);
    drawn.setup = setup_of(node, pkw, pzd);
}

static uint32_t draw_limit(uint32_t kind)
{
    static const uint32_t ends[8] = {0, 1, 0x7FFF, 0x8000, 0xFFFF, 0x10000, 0x7FFFFFFF, 0x80000000u};
    uint32_t w = draw(3) == 0 ? draw_word() : ends[draw(8)] - draw(2);
    return kind & DOUBLE ? w : w & 0xFFFF;
}

/* A limit's place in the order of its kind, and back. */
static uint32_t rank(uint32_t kind, uint32_t w)
{
    return kind == SIGNED ? w ^ 0x8000u : kind == (SIGNED | DOUBLE) ? w ^ 0x80000000u : w;
}

static uint32_t draw_value(uint32_t kind, uint32_t low, uint32_t high)
{
    uint32_t from = rank(kind, low), to = rank(kind, high);
    return rank(kind, draw(3) == 0 ? from : draw(2) ? to : from + ((to - from) >> (1 + draw(8))));
}

/* The list of the table's first places, right but for chance damage, and a view that stands at a record, about the end or anywhere. */
static void draw_places(uint32_t records)
{
    uint32_t k;
    put_places(records);
    drawn.places.at = places;
    drawn.places.count = records;
    if (draw(20) == 0)
        drawn.places.count = draw(3) == 0 ? 0 : draw(2) ? records + 1 : records - (records > 0);
    if (draw(12) == 0 && records > 0) {
        k = draw(3) == 0 ? 0 : draw(2) ? records - 1 : draw(records);
        places[k] = (uint16_t)(draw(3) == 0 ? places[k] ^ 1u << draw(16) : draw(2) ? places[k] + 1 : places[k] - 1);
    }
    if (draw(12) == 0)
        for (k = 0; k <= records; k++)
            places[k] = (uint16_t)draw_word();
    drawn.view.number = draw(8) != 0 ? 0 : draw(2) ? USS_BAD_TABLE : draw_bits();
    drawn.view.at = draw(3) != 0 ? draw(records + 2) : draw(2) ? 510 + draw(4) : draw_bits();
}

/* A table that is good but for chance damage, with values and a list to go with it; gives a number to ask for. */
static uint32_t draw_table(void)
{
    uint32_t records = draw(7), k, i, number = draw(3) == 0 ? 0 : draw(4000), asked = draw(32768), count = 0, damaged;
    uint32_t large = draw(200) == 0, many = draw(400) == 0; /* large arrays: about 4096 places; many records: about 512 */
    uint32_t step = large ? 1000 : many ? 50 : 5000;
    if (draw(6) == 0)
        number = 2000 * draw(16) + draw(3);
    if (large || many)
        records = large ? 25 : draw(2) ? draw(512) : 510 + draw(4);
    damaged = draw(6) == 0 ? draw(records + 1) : 9999;
    for (k = 0; k < records; k++) {
        uint32_t kind = draw(4), low = draw_limit(kind), high = draw_limit(kind);
        uint32_t elements = large ? 190 + draw(65) : many || draw(2) ? 0 : draw(20);
        if (draw(200) == 0)
            elements = 254 + draw(2);
        if (k + 1 == records && draw(20) == 0)
            number = 31999 + draw(2);
        if (large && count < 4096 && 4096 - count < 254) { /* the last: 4095, 4096 or 4097 places */
            elements = 4095 + draw(3) - count;
            records = k + 1;
        }
        if (rank(kind, low) > rank(kind, high)) {
            uint32_t swap = low;
            low = high;
            high = swap;
        }
        if (draw(records) == 0)
            asked = number;
        for (i = 0; i < (elements == 0 ? 1 : elements) && count < MOST_VALUES - 2; i++)
            values[count++] = draw_value(kind, low, high);
        put_record(k, number, kind, draw(4) == 0 ? 0 : WRITABLE, elements, low, high);
        if (damaged == k) {
            if (draw(2))
                table[12 * k + draw(12)] ^= (uint8_t)(1u << draw(8));
            else
                values[draw(count)] ^= draw(2) ? 0x10000u << draw(16) : 1u << draw(16);
        }
        number = (number + (draw(large || many ? 5000 : 50) == 0 ? draw(2) : 1 + draw(step))) & 0x7FFF;
    }
    drawn.table.at = table;
    drawn.table.count = 12 * records + (draw(80) == 0 ? draw(12) : 0);
    values[count] = draw_word();
    drawn.values.at = values;
    drawn.values.count = draw(40) == 0 ? count + draw(2) : draw(40) == 0 && count > 0 ? count - 1 : count;
    draw_places(records);
    return asked;
}

static void draw_task(void)
{
    static const uint8_t tasks[12] = {0, 1, 2, 3, 6, 7, 8, 9, 11, 12, 13, 14};
    uint32_t task = tasks[draw(12)], none = task == 0;
    drawn.task = (uint8_t)task;
    drawn.parameter = (uint16_t)(none ? 0 : draw(8) == 0 ? 2000 * draw(17) - draw(2) : draw(32000));
    drawn.index = (uint8_t)(none ? 0 : draw(3) == 0 ? draw(255) : draw(3));
    drawn.value = task == 3 || task == 8 || task == 11 || task == 13 ? draw_bits() : draw(65536);
    if (none || task == 1 || task == 6 || task == 9)
        drawn.value = 0;
    if (draw(12) == 0) { /* mostly nothing that can be asked */
        drawn.task = (uint8_t)(draw(2) ? draw(18) : draw(256));
        drawn.parameter = (uint16_t)(draw(2) ? drawn.parameter : draw(65536));
        drawn.index = (uint8_t)(draw(2) ? drawn.index : 250 + draw(6));
        drawn.value = draw(2) ? drawn.value : draw_bits();
    }
}

/* A reply ID to a task, mostly one of its row. */
static uint32_t draw_id(uint32_t task)
{
    static const uint8_t ids[16] = {0, 1, 1, 2, 7, 7, 4, 4, 5, 6, 7, 5, 4, 2, 1, 7};
    return draw(6) == 0 ? draw(16) : draw(6) == 0 ? 7 + draw(2) : ids[task & 15] + (draw(3) == 0 && (task == 1 || task == 6));
}

/* A telegram to the set-up, or a reply to the task, good but for chance damage. */
static void draw_telegram(uint32_t asked, int with_task)
{
    uss_setup s = drawn.setup;
    uint32_t kind = draw(8), adr = s.node & 31u, len, i;
    uint32_t head = head_of(draw(16), asked, draw(3) == 0 ? draw(256) : draw(4)) ^ (draw(9) == 0 ? draw_word() << 8 : 0);
    uint32_t value = drawn.values.count > 0 && draw(2) ? values[draw((uint32_t)drawn.values.count)] + draw(3) - 1 : draw_bits();
    uss_words w = draw_words(4);
    for (i = 0; i < 260; i++)
        page[i] = (uint8_t)draw_word();
    if (draw(5) != 0)
        w.w1 |= 0x400;
    if (with_task) {
        kind = draw(30) == 0 ? 7 : 0;
        head = head_of(draw_id(drawn.task), drawn.parameter, drawn.index) ^ (draw(9) == 0 ? 1u << draw(32) : 0);
        if (drawn.task == 0 && draw(4) != 0)
            head = value = 0;
        if (head >> 28 != USS_ID_DOUBLE && head >> 28 != USS_ID_ELEMENT_DOUBLE && draw(8) != 0)
            value &= 0xFFFF;
        if (head >> 28 == USS_ID_NO_RIGHT && draw(3) != 0)
            value = 0;
    } else if (asked >= 2000 && asked < 32000 && draw(8) == 0) { /* named by a base that names nothing */
        head = (head_of(head >> 28, asked - 2000, head & 0xFF) & 0xF800FFFFu) | (2000 + draw(48)) << 16;
    }
    if (kind == 6) { /* broadcast: selector and masks */
        adr = 0x20 | draw(32);
        head = (draw(4) == 0 ? draw(16) : draw(2) ? 2 : 6) << 16 | (draw(8) == 0 ? 0 : 0x400) | draw(65536);
        value = draw_word() << 16 | (draw(6) == 0 ? 1 : 0);
    }
    len = (uint32_t)put_telegram(s, adr, head, value, w);
    if (kind == 7) { /* mirror */
        adr |= 0x40;
        len = draw(20) == 0 ? 256 + draw(2) : 5 + draw(252);
    }
    if (draw(25) == 0)
        len = 5 + draw(255);
    if (draw(25) == 0)
        adr ^= 1u << draw(8);
    seal(page, len, adr);
    if (draw(12) == 0)
        page[draw(draw(2) ? 4 : 20)] ^= (uint8_t)(1u << draw(8));
    drawn.received.at = page;
    drawn.received.count = draw(40) == 0 ? draw(262) : len;
}

/* A receiver that has some bytes of the telegram in the room, its page, and is given the others: as items, with a pause before, behind
 * or among them, and as bytes. Good but for chance damage. */
static void draw_receiver(void)
{
    static const uint16_t rooms[8] = {0, 1, 2, 4, 5, 255, 257, 300};
    uint32_t len = drawn.received.count > 258 ? 258 : (uint32_t)drawn.received.count, held = draw(2) || len == 0 ? 0 : draw(len), i;
    size_t count = 0;
    drawn.receiver = in_state(1 + held);
    if (held == 0 && draw(2)) { /* the telegram from its pause on */
        drawn.receiver = in_state(draw(4));
        line[count++] = (uint16_t)(draw(4) == 0 ? 256 + draw(65280) : USS_PAUSE);
    }
    for (i = 0; i < held; i++)
        room[i] = page[i];
    count = put_items(count, page + held, len - held);
    for (i = draw(3) == 0 ? draw(40) : 0; i > 0; i--)
        line[count++] = (uint16_t)draw(draw(8) == 0 ? 512 : 256);
    if (draw(8) == 0)
        line[draw((uint32_t)count + 1)] = (uint16_t)(256 + draw(3));
    if (draw(12) == 0)
        drawn.receiver = in_state(draw(2) ? draw_bits() : 250 + draw(10));
    drawn.items.at = line;
    drawn.items.count = draw(4) == 0 ? draw((uint32_t)count + 1) : count;
    drawn.bytes.at = page + held;
    drawn.bytes.count = draw(4) == 0 ? draw(len - held + 1) : 260 - held - draw(3);
    drawn.page.at = room;
    drawn.page.count = draw(4) == 0 ? rooms[draw(8)] : draw(8) == 0 ? draw(300) : 256;
    if (draw(30) == 0)
        drawn.receiver = in_state((uint32_t)drawn.page.count + draw(3));
}

static void draw_call(int with_table, int with_task, int with_receiver)
{
    uint32_t asked = draw(32768);
    drawn.values.count = 0;
    draw_setup();
    if (with_table)
        asked = draw_table();
    draw_task();
    draw_telegram(asked, with_task);
    drawn.control = draw_words(4);
    drawn.status = draw_words(4);
    drawn.process = draw_words(draw(40) == 0 ? 4 : drawn.setup.pzd);
    if (draw(4) != 0)
        drawn.process.w1 |= (uint16_t)(drawn.setup.pzd > 0 ? 0x400 : 0);
    drawn.selector = (uint16_t)(draw(4) == 0 ? draw_bits() : draw(2) ? 2 : 6);
    drawn.mask1 = (uint16_t)(draw_word() | (draw(8) == 0 ? 0 : 0x400));
    drawn.mask2 = (uint16_t)draw_word();
    drawn.reference = draw(4) == 0 ? draw_bits() : draw(655);
    drawn.net = drawn.received;
    drawn.bytes = drawn.received;
    fill_room(draw(256));
    drawn.out.at = room;
    drawn.out.count = draw(8) == 0 ? draw(66) : draw(30) == 0 ? draw(256) : 256 + draw(3);
    drawn.reply.at = room;
    drawn.reply.count = draw(60) == 0 ? draw(256) : 256 + draw(3);
    if (with_receiver)
        draw_receiver();
}
