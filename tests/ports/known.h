/* A part of driver.c: the known telegrams of document 01, the index in plain tasks, lines for the receiver, figures for a panel, lists
 * of first places, views of a table, each answer number, each parameter error. */

/* ---- known telegrams: K1 to K12 of document 01 */

static const uint8_t k2[16] = {0x02, 0x0E, 0x03, 0x14, 0x3A, 0, 0, 0, 0, 0, 0, 0x04, 0x7F, 0x20, 0, 0x7A};
static const uint8_t k3[16] = {0x02, 0x0E, 0x03, 0x14, 0x3A, 0, 0, 0, 0, 0x13, 0x88, 0x03, 0x31, 0x20, 0, 0xA8};
static const uint8_t k4[16] = {0x02, 0x0E, 0x03, 0x74, 0x3A, 0, 0, 0, 0, 0, 0, 0x03, 0x31, 0x20, 0, 0x53};
static const uss_setup usual = {3, 4, 2};
static const uss_words held = {0x047E, 0x1111, 0x2222, 0x3333};
static const uss_words status = {0x0331, 0x2000, 0, 0};

static int equal(const uint8_t *a, const uint8_t *b, size_t len)
{
    size_t i;
    for (i = 0; i < len; i++)
        if (a[i] != b[i])
            return 0;
    return 1;
}

static int is_words(uss_words a, uint32_t w1, uint32_t w2, uint32_t w3, uint32_t w4)
{
    return a.w1 == w1 && a.w2 == w2 && a.w3 == w3 && a.w4 == w4;
}

/* The slave on `page`, over the first `records` records of the table. */
static uss_answer serve(uss_setup s, uint32_t records, size_t count, size_t len)
{
    return do_uss_slave(s, table, 12 * records, values, count, held, status, page, len, room, 256);
}

/* A task to the slave, over one record. */
static uss_answer run_task(uss_setup s, uint32_t task, uint32_t number, uint32_t index, uint32_t value, uint32_t records,
                           size_t count)
{
    return serve(s, records, count, put_telegram(s, s.node, head_of(task, number, index), value, words(0x047F, 0x2000, 0, 0)));
}

/* Reply ID, and value or error number, in the room. */
static int replied(uint32_t id, uint32_t value)
{
    return room[3] >> 4 == id && get_be(room + 7) == value;
}

static void usual_table(void)
{
    put_record(0, 1082, 0, WRITABLE, 0, 0, 65000);
    values[0] = 5000;
}

static void known_telegrams(void)
{
    uss_words command = words(0x047F, 0x2000, 0, 0);
    uss_built b;
    uss_answer a;
    uss_reply r;
    size_t i;

    check("K1", do_uss_bcc((const uint8_t *)"\x02\x07\x00\x04\x00\x21\x00\x1C", 8) == 0x3C
          && do_uss_bcc((const uint8_t *)"\x02\x05\x00\x00\x0C\x06", 6) == 0x0D);
    fill_room(0xEE);
    b = do_uss_build_task(usual, USS_READ, 1082, 0, 0, command, room, 256);
    check("K2", b.number == USS_DONE && b.length == 16 && equal(room, k2, 16) && room[16] == 0xEE);
    usual_table();
    for (i = 0; i < 16; i++)
        page[i] = k2[i];
    a = serve(usual, 1, 1, 16);
    r = do_uss_read_reply(usual, USS_READ, 1082, 0, 0, command, k3, 16);
    check("K3", a.number == USS_REPLIED && a.length == 16 && equal(room, k3, 16)
          && is_words(a.control, 0x047F, 0x2000, 0x2222, 0x3333)
          && r.number == USS_DONE && r.id == USS_ID_WORD && r.value == 5000 && is_words(r.process, 0x0331, 0x2000, 0, 0));
    a = serve(usual, 0, 0, 16);
    r = do_uss_read_reply(usual, USS_READ, 1082, 0, 0, command, k4, 16);
    check("K4", a.number == USS_REPLIED && equal(room, k4, 16) && r.number == USS_DONE && r.id == USS_ID_ERROR && r.value == 0);
    page[15] = 0x7B;
    a = serve(usual, 1, 1, 16);
    check("K5", a.number == USS_CHECK && a.length == 0 && is_words(a.control, 0x047E, 0x1111, 0x2222, 0x3333));
    page[15] = 0x7A;
    page[1] = 0x0F;
    check("K6", serve(usual, 1, 1, 16).number == USS_COUNT);
}

static void known_numbers(void)
{
    static const uint16_t numbers[5] = {1999, 2000, 4000, 16000, 31999}, ind[5] = {0x0000, 0x8000, 0x1000, 0x4000, 0xF000};
    uss_words command = words(0x047F, 0x2000, 0, 0);
    uss_built b;
    uss_answer a;
    size_t i;
    int holds = 1;

    for (i = 0; i < 5; i++) {
        b = do_uss_build_task(usual, USS_READ, numbers[i], 0, 0, command, room, 256);
        holds &= b.number == USS_DONE && room[5] == ind[i] >> 8 && room[6] == 0;
    }
    check("K7", holds);
    put_record(0, 2000, 0, WRITABLE, 0, 0, 65000);
    a = serve(usual, 1, 1, put_telegram(usual, 3, USS_READ << 28 | 2000u << 16, 0, command));
    check("K8", a.number == USS_REPLIED && replied(USS_ID_ERROR, USS_NO_PARAMETER));
}

static void known_broadcasts(void)
{
    uss_words command = words(0x047F, 0x2000, 0, 0);
    uss_built b;
    uss_answer a;
    size_t i;

    usual_table();
    a = serve(usual, 1, 1, put_telegram(usual, 0x20, 0x00060401, 0, words(0x0401, 0x2000, 0, 0)));
    check("K9", a.number == USS_TAKEN && a.length == 0 && is_words(a.control, 0x047F, 0x1111, 0x2222, 0x3333));
    b = do_uss_build_broadcast(usual, 2, 0xFFFF, 0, command, room, 256);
    for (i = 0; i < 16; i++)
        page[i] = room[i];
    a = serve(usual, 1, 1, 16);
    check("K10", b.number == USS_DONE && a.number == USS_TAKEN && is_words(a.control, 0x047F, 0x1111, 0x2222, 0x3333));
}

/* Each rule of a table once, by its constant. */
static uint32_t rule_of(uint32_t records, size_t count)
{
    return do_uss_check_table(table, 12 * records, values, count).rule;
}

static void known_rules(void)
{
    uint32_t k;
    put_record(0, 1000, 0, WRITABLE, 2, 0, 10);
    put_record(1, 1082, SIGNED, WRITABLE, 0, 0xFF9C, 100);
    values[0] = 0;
    values[1] = 10;
    values[2] = 0xFF9C;
    SEEN(USS_RULE_KEPT, rule_of(2, 3));
    SEEN(USS_RULE_PART_RECORD, do_uss_check_table(table, 23, values, 3).rule);
    SEEN(USS_RULE_VALUE_COUNT, rule_of(2, 2));
    values[2] = 0xFF9B;
    SEEN(USS_RULE_OUTSIDE_LIMITS, rule_of(2, 3));
    table[15] |= 1;
    SEEN(USS_RULE_SPARE_BIT, rule_of(2, 3));
    put_record(1, 1000, SIGNED, WRITABLE, 0, 0xFF9C, 100);
    SEEN(USS_RULE_NUMBER_ORDER, rule_of(2, 3));
    put_record(1, 32000, SIGNED, WRITABLE, 0, 0xFF9C, 100);
    SEEN(USS_RULE_HIGH_NUMBER, rule_of(2, 3));
    put_record(1, 1082, SIGNED, WRITABLE, 255, 0xFF9C, 100);
    SEEN(USS_RULE_MANY_ELEMENTS, rule_of(2, 3));
    put_record(1, 1082, SIGNED, WRITABLE, 0, 0xFFFFFF9Cu, 100);
    SEEN(USS_RULE_UPPER_HALF, rule_of(2, 3));
    put_record(1, 1082, 0, WRITABLE, 0, 0xFF9C, 100);
    SEEN(USS_RULE_LIMIT_ORDER, rule_of(2, 3));
    for (k = 0; k < 513; k++)
        put_record(k, k, 0, WRITABLE, k == 500 ? 9 : 8, 0, 0);
    SEEN(USS_RULE_MANY_RECORDS, rule_of(513, 3));
    SEEN(USS_RULE_MANY_PLACES, rule_of(512, 3));
}

static void known_values(void)
{
    size_t i;
    int holds;

    put_record(0, 1082, SIGNED, WRITABLE, 0, 0xFF9C, 100);
    values[0] = 0;
    run_task(usual, USS_CHANGE_WORD, 1082, 0, 0xFF9C, 1, 1);
    holds = replied(USS_ID_WORD, 0xFF9C) && values[0] == 0xFF9C;
    run_task(usual, USS_CHANGE_WORD, 1082, 0, 0xFF9B, 1, 1);
    check("K11", holds && replied(USS_ID_ERROR, USS_OUTSIDE_LIMITS) && values[0] == 0xFF9C);
    usual_table();
    run_task(usual, USS_READ_ELEMENT, 1082, 1, 0, 1, 1);
    holds = replied(USS_ID_ELEMENT_WORD, 5000);
    run_task(usual, USS_READ_ELEMENT, 1082, 2, 0, 1, 1);
    holds &= replied(USS_ID_ERROR, USS_NO_ARRAY);
    put_record(0, 1082, 0, WRITABLE, 2, 0, 65000);
    values[1] = 6000;
    run_task(usual, USS_READ_ELEMENT, 1082, 1, 0, 1, 2);
    holds &= replied(USS_ID_ELEMENT_WORD, 6000);
    run_task(usual, USS_READ_ELEMENT, 1082, 2, 0, 1, 2);
    check("K12", holds && replied(USS_ID_ERROR, USS_NO_ELEMENT));
    for (i = 0; i < 256; i++)
        page[i] = (uint8_t)(7 * i);
    seal(page, 256, 0x43);
    holds = serve(usual, 1, 2, 256).number == USS_MIRRORED;
    page[1] = 2;
    holds &= serve(usual, 1, 2, 256).number == USS_LGE;
    page[1] = 255;
    check("LGE 2, 254, 255", holds && serve(usual, 1, 2, 256).number == USS_LGE);
}

/* The index in plain tasks (document 02, W-203): the last element and one past it, and without array indices 1 and 2. */
static void known_indexes(void)
{
    static const uint8_t tasks[5] = {USS_READ, USS_CHANGE_WORD, 14, USS_CHANGE_DOUBLE, 13};
    size_t i;
    int holds = 1;

    for (i = 0; i < 5; i++) {
        uint32_t kind = i < 3 ? 0 : DOUBLE, id = i < 3 ? USS_ID_WORD : USS_ID_DOUBLE, found = i == 0 ? 6000 : 7000;
        put_record(0, 1082, kind, WRITABLE, 2, 0, 65000);
        values[0] = 5000;
        values[1] = 6000;
        run_task(usual, tasks[i], 1082, 2, 7000, 1, 2);
        holds &= replied(USS_ID_ERROR, USS_NO_ELEMENT) && values[0] == 5000 && values[1] == 6000;
        run_task(usual, tasks[i], 1082, 1, 7000, 1, 2);
        holds &= replied(id, found) && values[0] == 5000 && values[1] == found;
        put_record(0, 1082, kind, WRITABLE, 0, 0, 65000);
        values[0] = 6000;
        run_task(usual, tasks[i], 1082, 2, 7000, 1, 1);
        holds &= replied(USS_ID_ERROR, USS_NO_ARRAY) && values[0] == 6000;
        run_task(usual, tasks[i], 1082, 1, 7000, 1, 1);
        holds &= replied(id, found) && values[0] == found;
    }
    check("the index in plain tasks", holds);
}

/* ---- lines for the receiver */

static int is_received(uss_received r, size_t taken, uint32_t length, uint32_t state_left)
{
    return r.taken == taken && r.length == length && r.receiver.state == state_left;
}

/* A pause and `len` bytes as one line, over the first `page_len` bytes of the room. */
static uss_received hear(const uint8_t *bytes, size_t len, size_t page_len)
{
    fill_room(0xEE);
    line[0] = USS_PAUSE;
    put_items(1, bytes, len);
    return do_uss_receive(in_state(0), line, len + 1, room, page_len);
}

static void known_lines(void)
{
    static const uint8_t five[5] = {0x02, 0x03, 0x03, 0x55, 0x57}, twice[3] = {0x02, 0x02, 0x0E};
    uss_received r = hear(k2, 16, 256);
    size_t i, n;
    int holds;

    check("a telegram is received", is_received(r, 17, 16, 0) && equal(room, k2, 16) && room[16] == 0xEE);
    r = do_uss_receive(r.receiver, line + 1, 16, room, 256);
    check("the second without a pause is lost", is_received(r, 16, 0, 0));
    fill_room(0xEE);
    r.receiver = do_uss_pause(r.receiver);
    holds = r.receiver.state == 1;
    for (i = 0; i < 16; i++) {
        r = i % 2 ? do_uss_receive_bytes(r.receiver, k2 + i, 1, room, 256) : do_uss_receive(r.receiver, line + 1 + i, 1, room, 256);
        holds &= is_received(r, 1, i == 15 ? 16 : 0, i == 15 ? 0 : (uint32_t)i + 2) && room[i] == k2[i] && room[i + 1] == 0xEE;
    }
    check("single items and bytes", holds);
    r = do_uss_receive_bytes(in_state(1), page, 0, room, 256);
    check("no bytes", is_received(r, 0, 0, 1));
    n = put_items(1, k2, 7);
    line[n] = 65535;
    n = put_items(n + 1, k3, 16);
    r = do_uss_receive(in_state(0), line, n, room, 256);
    check("a pause inside", is_received(r, 25, 16, 0) && equal(room, k3, 16));
    check("02 02", is_received(hear(twice, 3, 256), 4, 0, 0) && room[0] == 2 && room[1] == 0xEE);
    for (i = 0; i < 257; i++)
        page[i] = (uint8_t)(7 * i);
    page[0] = 2;
    page[1] = 254;
    holds = is_received(hear(page, 256, 256), 257, 256, 0) && is_received(hear(page, 256, 255), 257, 0, 0);
    page[1] = 255;
    holds &= is_received(hear(page, 257, 300), 258, 0, 0) && room[1] == 0xEE;
    page[1] = 2;
    check("LGE 2, 254, 255 received", holds && is_received(hear(page, 4, 256), 5, 0, 0) && room[1] == 0xEE);
    holds = is_received(hear(five, 5, 5), 6, 5, 0) && room[4] == 0x57 && room[5] == 0xEE;
    check("pages of 5 and 4", holds && is_received(hear(five, 5, 4), 6, 0, 0) && room[1] == 0xEE);
    holds = is_received(do_uss_receive(in_state(257), line, 0, room, 256), 0, 0, 0);
    holds &= is_received(do_uss_receive(in_state(0xFFFFFFFFu), line, 1, room, 256), 1, 0, 1);
    holds &= is_received(do_uss_receive_bytes(in_state(6), page, 0, room, 4), 0, 0, 0);
    holds &= is_received(do_uss_receive_bytes(in_state(5), page, 0, room, 4), 0, 0, 5);
    check("states that are none", holds && do_uss_pause(in_state(257)).state == 1);
    usual_table();
    n = put_items(1, k2, 16);
    line[2] = 254; /* of 16 bytes; more is waited for, up to the pause */
    line[n] = USS_PAUSE;
    n = put_items(n + 1, k2, 16);
    r = do_uss_receive(in_state(0), line, n, room, 256);
    for (i = 0; i < 16; i++)
        page[i] = room[i];
    check("a false LGE, and the next is answered", is_received(r, 34, 16, 0) && serve(usual, 1, 1, r.length).number == USS_REPLIED
          && equal(room, k3, 16));
}

/* ---- figures for a panel */

/* The bits of z / 16384, by whole numbers alone: sign, power of two of the leading digit, digits below it. */
static uint64_t bits_over_16384(int32_t z)
{
    uint32_t size = z < 0 ? 0u - (uint32_t)z : (uint32_t)z, leading = 0;
    uint64_t sign = z < 0 ? 1 : 0;
    if (size == 0)
        return 0;
    while (size >> leading > 1)
        leading++;
    return sign << 63 | (uint64_t)(1023 + leading - 14) << 52 | (uint64_t)(size - (1u << leading)) << (52 - leading);
}

static int is_figure(uss_figure f, uint32_t number, uint32_t raw, uint64_t bits)
{
    return f.number == number && f.raw == raw && bits_of(f.value) == bits;
}

static void known_figures(void)
{
    static const uint16_t references[3] = {1, 50, 650};
    int32_t word;
    size_t i;
    int holds = 1;

    check("4000 is the reference", is_figure(do_uss_show_hertz(0x4000, 50), 0, 0, 0x4049000000000000u)
          && is_figure(do_uss_show_percent(0x4000), 0, 0, 0x4059000000000000u));
    check("-32768, -1 and 0", is_figure(do_uss_show_hertz(0x8000, 650), 0, 0, 0xC094500000000000u)
          && is_figure(do_uss_show_percent(0xFFFF), 0, 0, 0xBF79000000000000u) && is_figure(do_uss_show_hertz(0, 650), 0, 0, 0));
    check("no figure", is_figure(do_uss_show_hertz(0x4000, 0), USS_BAD_REFERENCE, 0, 0)
          && is_figure(do_uss_show_hertz(0x4000, 65536 + 50), USS_BAD_REFERENCE, 0, 0));
    SEEN(USS_BAD_REFERENCE, do_uss_show_hertz(0x4000, 651).number);
    for (word = -32768; word < 32768; word++) {
        for (i = 0; i < 3; i++)
            holds &= is_figure(uss_show_hertz((uint16_t)word, references[i]), 0, 0, bits_over_16384(word * references[i]));
        holds &= is_figure(uss_show_percent((uint16_t)word), 0, 0, bits_over_16384(word * 100));
        holds &= is_figure(uss_show_raw((uint16_t)word), 0, (uint16_t)word, 0);
    }
    check("every word", holds);
}

/* ---- lists of first places, views of a table */

/* 700: one value; 701: three; 702: one; 703: an array of one. */
static void four_records(void)
{
    uint32_t i;
    put_record(0, 700, 0, WRITABLE, 0, 0, 99);
    put_record(1, 701, SIGNED, 0, 3, 0xFF9C, 100);
    put_record(2, 702, DOUBLE, WRITABLE, 0, 0, 0xFFFFFFFFu);
    put_record(3, 703, SIGNED | DOUBLE, WRITABLE, 1, 0xFFFEEE90u, 70000);
    for (i = 0; i < 6; i++)
        values[i] = 10 + i;
}

/* The slave on `page` with the first `place_count` places of the list, over the first `records` records of the table. */
static uss_answer serve_listed(uint32_t records, size_t count, size_t place_count, size_t len)
{
    return do_uss_slave_listed(usual, table, 12 * records, values, count, places, place_count, held, status, page, len, room, 256);
}

/* The number of a call without a byte received and without room for a reply. */
static uint32_t opening_of(uss_setup s, size_t table_len, size_t count, size_t place_count)
{
    return do_uss_slave_listed(s, table, table_len, values, count, places, place_count, held, status, page, 0, room, 0).number;
}

static void known_lists(void)
{
    static const uint16_t right[4] = {0, 1, 4, 5};
    size_t len, i;
    int holds = 1;

    four_records();
    for (i = 0; i < 5; i++)
        places[i] = 0xEEEE;
    check("no list is filled", do_uss_fill_places(table, 48, places, 3) == USS_BAD_PLACES
          && do_uss_fill_places(table, 36, places, 4) == USS_BAD_PLACES && do_uss_fill_places(table, 47, places, 3) == USS_BAD_TABLE
          && do_uss_fill_places(table, 48, places, 0) == USS_BAD_PLACES && places[0] == 0xEEEE && places[3] == 0xEEEE);
    check("a list is filled", do_uss_fill_places(table, 48, places, 4) == USS_DONE && places[4] == 0xEEEE);
    for (i = 0; i < 4; i++)
        holds &= places[i] == right[i];
    check("its places", holds);
    len = put_telegram(usual, 3, head_of(USS_CHANGE_DOUBLE, 703, 0), 77, words(0x047F, 0x2000, 0, 0));
    check("a place by the list", serve_listed(4, 6, 4, len).number == USS_REPLIED && replied(USS_ID_DOUBLE, 77) && values[5] == 77
          && values[4] == 14);
    for (i = 0; i < 4; i++) {
        places[i]++;
        holds &= serve_listed(4, 6, 4, len).number == USS_BAD_PLACES;
        places[i]--;
    }
    holds &= serve_listed(4, 6, 3, len).number == USS_BAD_PLACES && serve_listed(4, 6, 5, len).number == USS_BAD_PLACES;
    check("a wrong list", holds && serve_listed(4, 6, 0, len).number == USS_BAD_PLACES && serve_listed(0, 0, 1, len).number == USS_BAD_PLACES);
    check("20, 21, 22, 25, 23", opening_of(setup_of(32, 4, 2), 47, 5, 0) == USS_BAD_SETUP && opening_of(usual, 47, 5, 0) == USS_BAD_TABLE
          && opening_of(usual, 48, 5, 0) == USS_BAD_VALUES && opening_of(usual, 48, 6, 0) == USS_BAD_PLACES
          && opening_of(usual, 48, 6, 4) == USS_SHORT_REPLY);
    holds = do_uss_fill_places(table, 0, places, 0) == USS_DONE && serve_listed(0, 0, 0, len).number == USS_REPLIED;
    check("no records and no places", holds && replied(USS_ID_ERROR, USS_NO_PARAMETER));
}

static int is_view(uss_view v, uint32_t number, uint32_t at)
{
    return v.number == number && v.at == at;
}

static int is_none(uss_record r)
{
    return (r.there | r.parameter | r.is_double | r.is_signed | r.writable | r.elements | r.minimum | r.maximum) == 0;
}

static int is_record(uss_record r, uint32_t parameter, uint32_t kind, uint32_t writable, uint32_t elements, uint32_t low, uint32_t high)
{
    return r.there == 1 && r.parameter == parameter && r.is_double == kind / 2 && r.is_signed == kind % 2 && r.writable == writable
           && r.elements == elements && r.minimum == low && r.maximum == high;
}

static void known_views(void)
{
    uss_view v, none = view_of(0, 0xFFFFFFFFu);
    int holds;

    four_records();
    v = do_uss_view_open(table, 48);
    check("the first record", is_view(v, 0, 0) && is_record(do_uss_view_show(table, 48, v), 700, 0, 1, 0, 0, 99));
    v = do_uss_view_step(table, 48, v);
    check("the second record", is_view(v, 0, 1) && is_record(do_uss_view_show(table, 48, v), 701, SIGNED, 0, 3, 0xFF9C, 100));
    v = view_of(0, 3);
    check("the last record", is_record(do_uss_view_show(table, 48, v), 703, SIGNED | DOUBLE, 1, 1, 0xFFFEEE90u, 70000));
    v = do_uss_view_step(table, 48, v);
    check("the end", is_view(v, 0, 4) && is_none(do_uss_view_show(table, 48, v)) && is_view(do_uss_view_step(table, 48, v), 0, 4));
    v = do_uss_view_open(table, 47);
    check("a bad table", is_view(v, USS_BAD_TABLE, 0) && is_none(do_uss_view_show(table, 48, v))
          && is_view(do_uss_view_step(table, 48, v), USS_BAD_TABLE, 0));
    holds = is_none(do_uss_view_show(table, 48, none)) && is_view(do_uss_view_step(table, 48, none), 0, 0xFFFFFFFFu);
    holds &= is_none(do_uss_view_show(table, 47, view_of(0, 3))) && is_none(do_uss_view_show(table, 48, view_of(1, 0)));
    check("views that are none", holds && is_none(do_uss_view_show(table, 0, view_of(0, 0))));
}

/* ---- each answer number, each parameter error */

static void answer_numbers(void)
{
    uss_words none = words(0, 0, 0, 0), command = words(0x047F, 0x2000, 0, 0);
    size_t len = put_telegram(usual, 3, head_of(USS_READ, 1082, 0), 0, command);

    usual_table();
    SEEN(USS_REPLIED, serve(usual, 1, 1, len).number);
    SEEN(USS_BAD_SETUP, serve(setup_of(32, 4, 2), 1, 1, len).number);
    SEEN(USS_BAD_TABLE, do_uss_slave(usual, table, 11, values, 1, held, status, page, len, room, 256).number);
    SEEN(USS_BAD_VALUES, serve(usual, 1, 0, len).number);
    SEEN(USS_SHORT_REPLY, do_uss_slave(usual, table, 12, values, 1, held, status, page, len, room, 255).number);
    SEEN(USS_BAD_PLACES, serve_listed(1, 1, 0, len).number);
    SEEN(USS_SHORT, serve(usual, 1, 1, 4).number);
    SEEN(USS_COUNT, serve(usual, 1, 1, len - 1).number);
    SEEN(USS_OTHER_NODE, serve(setup_of(4, 4, 2), 1, 1, len).number);
    SEEN(USS_OTHER_LENGTH, serve(setup_of(3, 4, 1), 1, 1, len).number);
    page[15] ^= 1;
    SEEN(USS_CHECK, serve(usual, 1, 1, len).number);
    page[0] = 3;
    SEEN(USS_START, serve(usual, 1, 1, len).number);
    page[0] = 2;
    page[1] = 2;
    SEEN(USS_LGE, serve(usual, 1, 1, len).number);
    seal(page, len, 0x83);
    SEEN(USS_ADDRESS, serve(usual, 1, 1, len).number);
    seal(page, len, 0x43);
    SEEN(USS_MIRRORED, serve(usual, 1, 1, len).number);
    seal(page, len, 0x20);
    SEEN(USS_VOID_BROADCAST, serve(usual, 1, 1, len).number);
    len = put_telegram(usual, 0x20, 0x00020400, 0, command);
    SEEN(USS_TAKEN, serve(usual, 1, 1, len).number);
    SEEN(USS_UNFIT_SETUP, do_uss_build_task(setup_of(3, 5, 2), 1, 1, 0, 0, none, room, 256).number);
    SEEN(USS_NOT_ASKABLE, do_uss_build_task(usual, 4, 1, 0, 0, none, room, 256).number);
    SEEN(USS_SHORT_OUT, do_uss_build_task(usual, 1, 1, 0, 0, none, room, 255).number);
    SEEN(USS_NOT_THE_REPLY, do_uss_read_reply(usual, USS_READ, 1083, 0, 0, command, k3, 16).number);
    check("a mirror of no bytes", do_uss_build_mirror(usual, k2, 0, room, 256).number == USS_NOT_ASKABLE);
}

static void parameter_errors(void)
{
    uss_setup three = setup_of(3, 3, 2);
    put_record(0, 10, 0, WRITABLE, 0, 5, 100);
    put_record(1, 20, DOUBLE, WRITABLE, 3, 5, 100000);
    put_record(2, 30, 0, 0, 0, 5, 100);
    values[0] = values[1] = values[2] = values[3] = values[4] = 50;
    run_task(usual, USS_READ, 11, 0, 0, 3, 5);
    check("USS_NO_PARAMETER", replied(USS_ID_ERROR, USS_NO_PARAMETER));
    run_task(usual, USS_CHANGE_WORD, 30, 0, 60, 3, 5);
    check("USS_NOT_WRITABLE", replied(USS_ID_ERROR, USS_NOT_WRITABLE) && values[4] == 50);
    run_task(usual, USS_CHANGE_WORD, 10, 0, 101, 3, 5);
    check("USS_OUTSIDE_LIMITS", replied(USS_ID_ERROR, USS_OUTSIDE_LIMITS));
    run_task(usual, USS_READ_ELEMENT, 20, 3, 0, 3, 5);
    check("USS_NO_ELEMENT", replied(USS_ID_ERROR, USS_NO_ELEMENT));
    run_task(usual, USS_READ_ELEMENT, 10, 2, 0, 3, 5);
    check("USS_NO_ARRAY", replied(USS_ID_ERROR, USS_NO_ARRAY));
    run_task(usual, USS_CHANGE_WORD, 20, 0, 60, 3, 5);
    check("USS_OTHER_WIDTH", replied(USS_ID_ERROR, USS_OTHER_WIDTH));
    run_task(three, USS_READ, 20, 0, 0, 3, 5);
    check("USS_NEEDS_FOUR", room[3] >> 4 == USS_ID_ERROR && room[8] == USS_NEEDS_FOUR);
    run_task(usual, 15, 10, 0, 0, 3, 5);
    check("USS_NO_SUCH_TASK", replied(USS_ID_ERROR, USS_NO_SUCH_TASK));
    run_task(usual, USS_CHANGE_ELEMENT_DOUBLE, 20, 2, 70000, 3, 5);
    check("an element is changed", replied(USS_ID_ELEMENT_DOUBLE, 70000) && values[3] == 70000 && values[2] == 50);
}
