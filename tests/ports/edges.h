/* A part of driver.c: the edges of set-ups, frames, buffers, tasks, pages, limits, tables, broadcasts, requests, replies, states of a
 * receiver, lines, figures, lists and views. */

/* ---- edges */

/* Every node, PKW and PZD about the limits, for each call that takes a set-up. */
static void edges_of_setups(void)
{
    static const uint8_t nodes[4] = {0, 31, 32, 255};
    uint32_t i, pkw, pzd;
    usual_table();
    for (i = 0; i < 4; i++)
        for (pkw = 0; pkw < 6; pkw++)
            for (pzd = 0; pzd < 6; pzd++) {
                uss_setup s = setup_of(nodes[i], pkw, pzd);
                uss_words w = words(0x047F, pzd > 1 ? 2 : 0, pzd > 2 ? 3 : 0, pzd > 3 ? 4 : 0);
                run_task(s, USS_READ, 1082, 0, 0, 1, 1);
                do_uss_read_reply(s, USS_READ, 1082, 0, 0, w, room, 4 + 2 * (pkw + pzd));
                do_uss_build_task(s, USS_READ, 1082, 0, 0, w, room, 256);
                do_uss_build_task(s, 0, 0, 0, 0, pzd == 0 ? words(0, 0, 0, 0) : w, room, 256);
                do_uss_build_broadcast(s, 2, 0x400, 0, w, room, 256);
                do_uss_build_mirror(s, k2, 16, room, 256);
            }
}

/* Every length from 0 to 260, every LGE, every address, every flipped bit. */
static void edges_of_frames(void)
{
    uint32_t len, lge, adr, bit, i;
    usual_table();
    for (len = 0; len <= 260; len++) {
        for (i = 0; i < 260; i++)
            page[i] = (uint8_t)(11 * i + len);
        if (len >= 5)
            seal(page, len, 0x43);
        serve(usual, 1, 1, len);
        do_uss_list(page, len, room, 300);
        do_uss_bcc(page, len);
        do_uss_build_mirror(usual, page, len, room, 256);
        do_uss_read_reply(usual, USS_READ, 1082, 0, 0, status, page, len);
    }
    for (lge = 0; lge < 256; lge++) {
        len = put_telegram(usual, 3, head_of(USS_READ, 1082, 0), 0, held);
        page[15] ^= page[1] ^ (uint8_t)lge;
        page[1] = (uint8_t)lge;
        serve(usual, 1, 1, len);
        do_uss_list(page, len, room, 64);
    }
    for (adr = 0; adr < 256; adr++) {
        len = put_telegram(usual, adr, head_of(USS_READ, 1082, 0), 5000, held);
        serve(usual, 1, 1, len);
        do_uss_list(page, len, room, 64);
        do_uss_read_reply(usual, USS_READ, 1082, 0, 0, words(0, 0, 0, 0), page, len);
    }
    for (bit = 0; bit < 128; bit++) {
        len = put_telegram(usual, 3, head_of(USS_READ, 1082, 0), 0, held);
        page[bit / 8] ^= (uint8_t)(1u << (bit & 7));
        serve(usual, 1, 1, len);
        seal(page, len, page[2]);
        serve(usual, 1, 1, len);
    }
}

/* Every buffer length about the limits, every room for a listing. */
static void edges_of_buffers(void)
{
    static const uint16_t lengths[6] = {0, 1, 255, 256, 257, 300};
    uint32_t i;
    usual_table();
    for (i = 0; i < 6; i++) {
        size_t len = put_telegram(usual, 3, head_of(USS_READ, 1082, 0), 0, held);
        fill_room(0xEE);
        do_uss_slave(usual, table, 12, values, 1, held, status, page, len, room, lengths[i]);
        do_uss_build_task(usual, USS_READ, 1082, 0, 0, status, room, lengths[i]);
        do_uss_build_mirror(usual, k2, 16, room, lengths[i]);
        do_uss_build_broadcast(usual, 2, 0x400, 0, held, room, lengths[i]);
    }
    for (i = 0; i <= 64; i++) {
        do_uss_list(k2, 16, room, i);
        do_uss_list(k2, 15, room, i);
        do_uss_list(k2, 0, room, i);
    }
}

/* Every task and index on every kind of record, in areas of three and four words. */
static void edges_of_tasks(void)
{
    static const uint8_t indices[6] = {0, 1, 2, 253, 254, 255};
    uint32_t task, kind, i, pkw, shape;
    for (pkw = 3; pkw <= 4; pkw++)
        for (shape = 0; shape < 4; shape++) /* no array, arrays of 1, 2 and 254; the last cannot be written */
            for (kind = 0; kind < 4; kind++) {
                uint32_t elements = shape == 3 ? 254 : shape, places = shape == 0 ? 1 : elements;
                static const uint32_t least[4] = {10, 0xFF00, 10, 0xFFFF0000u};
                put_record(0, 4100, kind, shape == 3 ? 0 : WRITABLE, elements, least[kind], 0x7F00);
                for (i = 0; i < places; i++)
                    values[i] = 100 + i;
                for (task = 0; task < 16; task++)
                    for (i = 0; i < 6; i++)
                        run_task(setup_of(3, pkw, i & 3), task, 4100, indices[i], 0x1234 + task, 1, places);
            }
}

/* Every page with bases about the limits, in telegrams and in builds. */
static void edges_of_pages(void)
{
    static const uint16_t bases[7] = {0, 1, 1998, 1999, 2000, 2001, 2047};
    uint32_t nibble, i, k;
    for (k = 0; k < 16; k++) {
        put_record(3 * k, 2000 * k, 0, WRITABLE, 0, 0, 65535);
        put_record(3 * k + 1, 2000 * k + 1, 0, WRITABLE, 0, 0, 65535);
        put_record(3 * k + 2, 2000 * k + 1999, 0, WRITABLE, 0, 0, 65535);
        values[3 * k] = 3 * k;
        values[3 * k + 1] = 3 * k + 1;
        values[3 * k + 2] = 3 * k + 2;
    }
    for (nibble = 0; nibble < 16; nibble++)
        for (i = 0; i < 7; i++) {
            uint32_t head = USS_READ << 28 | (uint32_t)bases[i] << 16 | nibble << 12;
            serve(usual, 48, 48, put_telegram(usual, 3, head, 0, held));
            serve(usual, 48, 48, put_telegram(usual, 3, head | 0x08000F00, 0, held)); /* bits that a task ignores */
            do_uss_build_task(usual, USS_READ, (uint16_t)(2000 * nibble + bases[i]), (uint8_t)nibble, 0, status, room, 256);
        }
}

/* Every kind of record with limits at the ends of its range, and changes to, and start values at, what lies about them. */
static void edges_of_limits(void)
{
    static const uint32_t ends[] = {0, 1, 100, 0x7FFE, 0x7FFF, 0x8000, 0x8001, 0xFF9B, 0xFF9C, 0xFFFE, 0xFFFF, 0x10000,
                                    0x7FFFFFFE, 0x7FFFFFFF, 0x80000000u, 0x80000001u, 0xFFFFFF9Cu, 0xFFFFFFFEu, 0xFFFFFFFFu};
    uint32_t count = sizeof ends / sizeof ends[0], kind, low, high, i;
    for (kind = 0; kind < 4; kind++)
        for (low = 0; low < count; low += 2)
            for (high = low & 2; high < count; high += 3)
                for (i = 0; i < count; i++) {
                    put_record(0, 77, kind, WRITABLE, 0, ends[low], ends[high]);
                    values[0] = i & 1 ? ends[low] : ends[high];
                    run_task(usual, kind & DOUBLE ? USS_CHANGE_DOUBLE : USS_CHANGE_WORD, 77, 0, ends[i], 1, 1);
                    if (i % 3 == 0) {
                        values[0] = ends[i];
                        run_task(usual, USS_READ, 77, 0, 0, 1, 1);
                    }
                }
}

/* A table of `records` records with `elements` elements each; gives its count of values. */
static size_t put_table(uint32_t records, uint32_t elements)
{
    uint32_t k, i;
    size_t count = 0;
    for (k = 0; k < records; k++) {
        put_record(k, 62 * k, k & 3, WRITABLE, elements, k & 1 ? (k & 2 ? 0xFFFFFF00u : 0xFF00) : 0, 500);
        for (i = 0; i < (elements == 0 ? 1 : elements); i++)
            values[count++] = (k + 7 * i) & 255;
    }
    return count;
}

/* The slave call without a list and with one, the check of its table and values, and the filling. */
static void serve_and_check(uint32_t records, size_t count, size_t len)
{
    uint32_t k;
    serve(usual, records, count, len);
    put_places(records);
    serve_listed(records, count, records, len);
    do_uss_check_table(table, 12 * records, values, count);
    for (k = 0; k < records; k++)
        places[k] = 0xEEEE;
    do_uss_fill_places(table, 12 * records, places, records);
}

/* Tables about 512 records and 4096 values, cut ones, and each rule broken by one bit. */
static void edges_of_tables(void)
{
    static const uint16_t records[5] = {0, 1, 511, 512, 513};
    size_t count, len = put_telegram(usual, 3, head_of(USS_READ, 62 * 511, 0), 0, held);
    uint32_t i, k, bit;
    for (i = 0; i < 5; i++) {
        count = put_table(records[i], 0);
        serve_and_check(records[i], count, len);
        serve_and_check(records[i], count + 1, len);
        serve_and_check(records[i], count - (count > 0), len);
    }
    for (i = 0; i < 3; i++) { /* 4095, 4096 and 4097 values */
        count = put_table(16, 254);
        put_record(16, 31000 + 998 + i, 0, WRITABLE, 31 + i, 0, 500); /* the numbers 31998, 31999 and 32000 */
        for (k = 0; k < 31 + i; k++)
            values[count++] = k;
        serve_and_check(17, count, put_telegram(usual, 3, head_of(USS_READ_ELEMENT, 62 * 15, 253), 0, held));
        serve_and_check(16, count - 31 - i, len);
        put_record(16, 31000, 0, WRITABLE, 31 + i, 0, 500);
        serve_and_check(17, count, put_telegram(usual, 3, head_of(USS_CHANGE_ELEMENT_WORD, 31000, 30), 499, held));
    }
    for (i = 253; i < 256; i++) {
        count = put_table(2, i);
        serve_and_check(2, count, len);
    }
    for (bit = 0; bit < 3 * 96; bit++) {
        count = put_table(3, 0);
        table[bit / 8] ^= (uint8_t)(1u << (bit & 7));
        serve_and_check(3, count, put_telegram(usual, 3, head_of(USS_READ, 124, 0), 0, held));
    }
    count = put_table(3, 0);
    for (i = 0; i <= 37; i++) {
        do_uss_slave(usual, table, i, values, i / 12, held, status, page, len, room, 256);
        do_uss_check_table(table, i, values, i / 12);
    }
}

/* Every selector with masks, words and areas about the limits; each built broadcast is also taken. */
static void edges_of_broadcasts(void)
{
    static const uint16_t selectors[8] = {0, 1, 2, 4, 6, 7, 10, 0x8002}, masks[4] = {0, 0x0400, 0xFBFF, 0xFFFF};
    uint32_t pkw, pzd, i, k;
    usual_table();
    for (pkw = 0; pkw <= 4; pkw += pkw == 0 ? 3 : 1)
        for (pzd = 0; pzd <= 4; pzd++)
            for (i = 0; i < 8; i++)
                for (k = 0; k < 16; k++) {
                    uss_setup s = setup_of(3, pkw, pzd);
                    uss_words w = words(k & 8 ? 0x0401 : 0x0001, pzd > 1 || k == 1 ? 0x2000 : 0, pzd > 2 ? 3 : 0, pzd > 3 ? 4 : 0);
                    do_uss_build_broadcast(s, selectors[i], masks[k & 3], masks[k >> 2], w, room, 256);
                    serve(s, 1, 1, put_telegram(s, 0x20 | k, (uint32_t)selectors[i] << 16 | masks[k & 3],
                                                pkw == 3 ? masks[k >> 2] : (uint32_t)masks[k >> 2] << 16 | (k == 15), w));
                }
}

/* Every task with numbers, indices, values and process words about the limits. */
static void edges_of_requests(void)
{
    static const uint16_t numbers[5] = {0, 1, 31999, 32000, 65535};
    static const uint8_t indices[3] = {0, 254, 255};
    static const uint32_t given[5] = {0, 1, 65535, 65536, 0xFFFFFFFFu};
    uint32_t task, n, i, v, pkw;
    for (pkw = 0; pkw <= 4; pkw += pkw == 0 ? 3 : 1)
        for (task = 0; task < 18; task++)
            for (n = 0; n < 5; n++)
                for (i = 0; i < 3; i++)
                    for (v = 0; v < 5; v++) {
                        uss_words w = words(0x0401, n == 2 ? 7 : 0, n == 3 ? 7 : 0, n == 4 ? 7 : 0);
                        uint8_t asked = (uint8_t)(task == 17 ? 255 : task);
                        do_uss_build_task(setup_of(3, pkw, 1 + v % 4), asked, numbers[n], indices[i], given[v], w, room, 256);
                    }
}

/* Every reply ID to every task, with values about the limits, and each field that must be 0 or the same. */
static void edges_of_replies(void)
{
    static const uint32_t given[4] = {0, 1, 0xFFFF, 0x10000};
    uint32_t task, id, v, pkw, bit;
    for (pkw = 3; pkw <= 4; pkw++)
        for (task = 0; task < 16; task++) {
            uss_setup s = setup_of(3, pkw, 1);
            uint16_t number = task == 0 ? 0 : 4100;
            uint8_t index = task == 0 ? 0 : 2;
            for (id = 0; id < 16; id++)
                for (v = 0; v < 4; v++) {
                    size_t len = put_telegram(s, 3, head_of(id, number, index), given[v], status);
                    do_uss_read_reply(s, (uint8_t)task, number, index, 0, words(1, 0, 0, 0), page, len);
                    do_uss_read_reply(s, (uint8_t)task, number, index, 5, words(1, 0, 0, 0), page, len);
                }
            for (bit = 0; bit < 32; bit++) {
                size_t len = put_telegram(s, 3, head_of(USS_ID_WORD, number, index) ^ 1u << bit, 1, status);
                do_uss_read_reply(s, (uint8_t)task, number, index, 0, words(1, 0, 0, 0), page, len);
            }
        }
}

/* States about the limits of a receiver's page and about 256, with each LGE about them on the page: a byte, a pause, nothing. */
static void edges_of_states(void)
{
    static const uint16_t lengths[8] = {0, 1, 2, 5, 254, 255, 256, 257};
    static const uint32_t states[10] = {0, 1, 2, 3, 4, 255, 256, 257, 0x10000, 0xFFFFFFFFu};
    uint32_t i, k, lge;
    line[0] = 0x77;
    line[1] = USS_PAUSE;
    page[0] = 2;
    for (i = 0; i < 8; i++)
        for (k = 0; k < 14; k++)
            for (lge = 0; lge < 6; lge++) {
                uint32_t number = k < 10 ? states[k] : lengths[i] + k - 10;
                uint8_t said = (uint8_t)(lge < 3 ? lengths[i] + lge - 3 : 250 + lge); /* what ends at the page's end, and 253 to 255 */
                fill_room(0xEE);
                room[1] = said;
                do_uss_receive(in_state(number), line, lge & 1, room, lengths[i]);
                do_uss_receive(in_state(number), line + 1, 1, room, lengths[i]);
                do_uss_receive_bytes(in_state(number), page, 1 + (lge & 1), room, lengths[i]);
            }
    for (k = 0; k < 14; k++)
        do_uss_pause(in_state(k < 10 ? states[k] : 1u << k));
}

/* Every first byte, every LGE with all its bytes and one more, every cut of a line into two calls, by items and by bytes. */
static void edges_of_lines(void)
{
    uint32_t i, len;
    for (i = 0; i < 260; i++)
        page[i] = (uint8_t)(5 * i + 1);
    for (i = 0; i < 256; i++) {
        page[0] = (uint8_t)i;
        hear(page, 2, 256);
    }
    page[0] = 2;
    for (i = 0; i < 256; i++) {
        page[1] = (uint8_t)i;
        hear(page, i + 3, 256);
        fill_room(0xEE);
        do_uss_receive_bytes(in_state(1), page, i + 3, room, 255);
    }
    len = (uint32_t)put_telegram(usual, 3, head_of(USS_READ, 1082, 0), 0, held);
    line[0] = USS_PAUSE;
    line[len + 1] = 0x102;
    put_items(1, page, len);
    for (i = 0; i <= len + 2; i++) {
        uss_received r;
        fill_room(0xEE);
        r = do_uss_receive(in_state(0), line, i, room, 256);
        do_uss_receive(r.receiver, line + r.taken, len + 2 - (uint32_t)r.taken, room, 256);
        if (i <= len) {
            fill_room(0xEE);
            r = do_uss_receive_bytes(do_uss_pause(in_state(0)), page, i, room, 256);
            do_uss_receive_bytes(r.receiver, page + i, len - i, room, 256);
        }
    }
}

/* The ends of a word at the ends of the reference, beside them and within. */
static void edges_of_figures(void)
{
    static const uint16_t ends[8] = {0, 1, 0x3FFF, 0x4000, 0x7FFF, 0x8000, 0xC000, 0xFFFF};
    static const uint32_t references[9] = {0, 1, 50, 60, 400, 649, 650, 651, 0xFFFFFFFFu};
    uint32_t i, k;
    for (i = 0; i < 8; i++) {
        for (k = 0; k < 9; k++)
            do_uss_show_hertz(ends[i], references[k]);
        do_uss_show_percent(ends[i]);
        do_uss_show_raw(ends[i]);
    }
}

/* Lists of every length about that of the table, and each entry with each bit changed. */
static void edges_of_lists(void)
{
    static const uint16_t records[5] = {0, 1, 2, 511, 512};
    uint32_t i, k, bit;
    for (i = 0; i < 5; i++) {
        size_t count = put_table(records[i], i & 1 ? 8 : 0), len = put_telegram(usual, 3, head_of(USS_READ, 62 * i, 0), 0, held);
        for (k = 0; k < 4; k++) {
            size_t place_count = k == 3 ? 0 : records[i] + k - (records[i] > 0);
            put_places(records[i]);
            serve_listed(records[i], count, place_count, len);
            do_uss_fill_places(table, 12 * records[i], places, place_count);
        }
    }
    for (i = 0; i < 3; i++) {
        size_t count = put_table(3, 2), len = put_telegram(usual, 3, head_of(USS_READ, 62 * i, 1), 0, held);
        for (bit = 0; bit <= 16; bit++) {
            put_places(3);
            places[i] ^= (uint16_t)(1u << bit);
            serve_listed(3, count, 3, len);
        }
    }
}

/* Views at the ends of tables of every length about the limits, and numbers that no call gave. */
static void edges_of_views(void)
{
    static const uint16_t records[5] = {0, 1, 511, 512, 513};
    static const uint32_t places_of_views[10] = {0, 1, 510, 511, 512, 513, 0x15555555u, 0x15555556u, 0x80000000u, 0xFFFFFFFFu};
    static const uint32_t numbers[5] = {0, 1, 21, 0x80000000u, 0xFFFFFFFFu};
    uint32_t i, k, n;
    for (i = 0; i < 5; i++) {
        size_t count = 12 * records[i];
        put_table(records[i], 0);
        do_uss_view_open(table, count);
        do_uss_view_open(table, count + 11);
        for (k = 0; k < 10; k++)
            for (n = 0; n < 5; n++) {
                do_uss_view_show(table, count, view_of(numbers[n], places_of_views[k]));
                do_uss_view_show(table, count + 11, view_of(numbers[n], places_of_views[k]));
                do_uss_view_step(table, count, view_of(numbers[n], places_of_views[k]));
            }
    }
}
