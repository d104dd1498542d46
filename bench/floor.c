/* The floors: each byte of what a call has to look at, read once in a plain loop that a compiler may turn into vectors. */
#include "floor.h"

uint8_t floor_bcc(const uint8_t *bytes, size_t len)
{
    uint8_t x = 0;
    size_t i;
    for (i = 0; i < len; i++)
        x ^= bytes[i];
    return x;
}

uint32_t floor_slave(const uint8_t *table, size_t table_len, const uint32_t *values, size_t value_count,
                     const uint8_t *telegram, size_t telegram_len)
{
    uint32_t x = 0;
    size_t i;
    for (i = 0; i < value_count; i++)
        x ^= values[i];
    return x ^ floor_bcc(table, table_len) ^ floor_bcc(telegram, telegram_len);
}

uint32_t floor_items(const uint16_t *items, size_t item_count)
{
    uint16_t x = 0;
    size_t i;
    for (i = 0; i < item_count; i++)
        x ^= items[i];
    return x;
}

uint32_t floor_slave_listed(const uint8_t *table, size_t table_len, const uint32_t *values, size_t value_count,
                            const uint16_t *places, size_t place_count, const uint8_t *telegram, size_t telegram_len)
{
    return floor_slave(table, table_len, values, value_count, telegram, telegram_len) ^ floor_items(places, place_count);
}

uss_answer nothing_slave(uss_setup setup, const uint8_t *table, size_t table_len, uint32_t *values, size_t value_count,
                         uss_words control, uss_words status, const uint8_t *received, size_t received_len,
                         uint8_t *reply, size_t reply_len)
{
    uss_answer none = {0, 0, {0, 0, 0, 0}};
    (void)setup, (void)table, (void)table_len, (void)values, (void)value_count, (void)control, (void)status;
    (void)received, (void)received_len, (void)reply, (void)reply_len;
    return none;
}

uss_answer nothing_slave_listed(uss_setup setup, const uint8_t *table, size_t table_len, uint32_t *values, size_t value_count,
                                const uint16_t *places, size_t place_count, uss_words control, uss_words status,
                                const uint8_t *received, size_t received_len, uint8_t *reply, size_t reply_len)
{
    uss_answer none = {0, 0, {0, 0, 0, 0}};
    (void)setup, (void)table, (void)table_len, (void)values, (void)value_count, (void)places, (void)place_count, (void)control;
    (void)status, (void)received, (void)received_len, (void)reply, (void)reply_len;
    return none;
}

uss_built nothing_build_task(uss_setup setup, uint8_t task, uint16_t parameter, uint8_t index, uint32_t value,
                             uss_words process, uint8_t *out, size_t out_len)
{
    uss_built none = {0, 0};
    (void)setup, (void)task, (void)parameter, (void)index, (void)value, (void)process, (void)out, (void)out_len;
    return none;
}

uss_reply nothing_read_reply(uss_setup setup, uint8_t task, uint16_t parameter, uint8_t index, uint32_t value,
                             uss_words process, const uint8_t *received, size_t received_len)
{
    uss_reply none = {0, 0, 0, {0, 0, 0, 0}};
    (void)setup, (void)task, (void)parameter, (void)index, (void)value, (void)process, (void)received, (void)received_len;
    return none;
}

uint8_t nothing_bcc(const uint8_t *bytes, size_t len)
{
    (void)bytes, (void)len;
    return 0;
}

uss_received nothing_receive(uss_receiver receiver, const uint16_t *items, size_t item_count, uint8_t *page, size_t page_len)
{
    uss_received none = {0, 0, {0}};
    (void)receiver, (void)items, (void)item_count, (void)page, (void)page_len;
    return none;
}

uss_received nothing_receive_bytes(uss_receiver receiver, const uint8_t *bytes, size_t byte_count, uint8_t *page, size_t page_len)
{
    uss_received none = {0, 0, {0}};
    (void)receiver, (void)bytes, (void)byte_count, (void)page, (void)page_len;
    return none;
}

uss_receiver nothing_pause(uss_receiver receiver)
{
    return receiver;
}
