/* What no call can do without. */
#ifndef FLOOR_H
#define FLOOR_H

#include "uss.h"

/* The XOR of all bytes. */
uint8_t floor_bcc(const uint8_t *bytes, size_t len);

/* Reads every byte of table, values and telegram once. */
uint32_t floor_slave(const uint8_t *table, size_t table_len, const uint32_t *values, size_t value_count,
                     const uint8_t *telegram, size_t telegram_len);

/* The same, and every place of a list. */
uint32_t floor_slave_listed(const uint8_t *table, size_t table_len, const uint32_t *values, size_t value_count,
                            const uint16_t *places, size_t place_count, const uint8_t *telegram, size_t telegram_len);

/* Reads every item once. */
uint32_t floor_items(const uint16_t *items, size_t item_count);

/* Calls that do nothing: what is left is the caller's. */
uss_answer nothing_slave(uss_setup setup, const uint8_t *table, size_t table_len, uint32_t *values, size_t value_count,
                         uss_words control, uss_words status, const uint8_t *received, size_t received_len,
                         uint8_t *reply, size_t reply_len);
uss_answer nothing_slave_listed(uss_setup setup, const uint8_t *table, size_t table_len, uint32_t *values, size_t value_count,
                                const uint16_t *places, size_t place_count, uss_words control, uss_words status,
                                const uint8_t *received, size_t received_len, uint8_t *reply, size_t reply_len);
uss_built nothing_build_task(uss_setup setup, uint8_t task, uint16_t parameter, uint8_t index, uint32_t value,
                             uss_words process, uint8_t *out, size_t out_len);
uss_reply nothing_read_reply(uss_setup setup, uint8_t task, uint16_t parameter, uint8_t index, uint32_t value,
                             uss_words process, const uint8_t *received, size_t received_len);
uint8_t nothing_bcc(const uint8_t *bytes, size_t len);
uss_received nothing_receive(uss_receiver receiver, const uint16_t *items, size_t item_count, uint8_t *page, size_t page_len);
uss_received nothing_receive_bytes(uss_receiver receiver, const uint8_t *bytes, size_t byte_count, uint8_t *page, size_t page_len);
uss_receiver nothing_pause(uss_receiver receiver);

#endif
