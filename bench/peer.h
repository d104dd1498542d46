/* A careful slave, master and receiver in C99, written by hand from document 01, W-201 and W-205: what the proved calls are measured
 * against. Types, numbers and what each call owes are those of uss.h. */
#ifndef PEER_H
#define PEER_H

#include "uss.h"

uss_received peer_receive(uss_receiver receiver, const uint16_t *items, size_t item_count, uint8_t *page, size_t page_len);

uss_received peer_receive_bytes(uss_receiver receiver, const uint8_t *bytes, size_t byte_count, uint8_t *page, size_t page_len);

uss_receiver peer_pause(uss_receiver receiver);

uss_answer peer_slave(uss_setup setup, const uint8_t *table, size_t table_len, uint32_t *values, size_t value_count,
                      uss_words control, uss_words status, const uint8_t *received, size_t received_len,
                      uint8_t *reply, size_t reply_len);

uss_answer peer_slave_listed(uss_setup setup, const uint8_t *table, size_t table_len, uint32_t *values, size_t value_count,
                             const uint16_t *places, size_t place_count, uss_words control, uss_words status,
                             const uint8_t *received, size_t received_len, uint8_t *reply, size_t reply_len);

uss_built peer_build_task(uss_setup setup, uint8_t task, uint16_t parameter, uint8_t index, uint32_t value,
                          uss_words process, uint8_t *out, size_t out_len);

uss_reply peer_read_reply(uss_setup setup, uint8_t task, uint16_t parameter, uint8_t index, uint32_t value,
                          uss_words process, const uint8_t *received, size_t received_len);

uint8_t peer_bcc(const uint8_t *bytes, size_t len);

#endif
