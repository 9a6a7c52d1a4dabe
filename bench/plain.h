/*
 * A plain C kernel of document 01's rules, on the same bytes as the library and with the same answers and reports: what a C
 * programmer writes straightforwardly, in place. The library's speed is measured against it, and nothing else uses it.
 *
 * Unlike the library it wants the tables at an address that is a multiple of 8.
 */
#ifndef PLAIN_H
#define PLAIN_H

#include "../include/vradomil.h"

int32_t plain_fresh(uint8_t *tables, size_t tables_len);
int32_t plain_call(uint8_t *tables, size_t tables_len, uint8_t *words, size_t words_len, uint8_t process, uint8_t index,
                   uint32_t op, uint32_t uaddr, uint32_t val, uint8_t flag, uint64_t timeout, uint32_t uaddr2, uint32_t val3);
int32_t plain_store(const uint8_t *tables, size_t tables_len, uint8_t *words, size_t words_len, uint8_t process,
                    uint32_t address, uint32_t value);
int32_t plain_clock(uint8_t *tables, size_t tables_len, const uint8_t *words, size_t words_len, uint64_t time);
int32_t plain_interrupt(uint8_t *tables, size_t tables_len, const uint8_t *words, size_t words_len, uint8_t process,
                        uint8_t index);
int32_t plain_set_priority(uint8_t *tables, size_t tables_len, const uint8_t *words, size_t words_len, uint8_t process,
                           uint8_t index, uint8_t priority);
uint32_t plain_query(const uint8_t *tables, size_t tables_len, uint8_t process);
int32_t plain_call_report(uint8_t *tables, size_t tables_len, uint8_t *words, size_t words_len, uint8_t process, uint8_t index,
                          uint32_t op, uint32_t uaddr, uint32_t val, uint8_t flag, uint64_t timeout, uint32_t uaddr2,
                          uint32_t val3, uint8_t *report, size_t report_len);
int32_t plain_store_report(const uint8_t *tables, size_t tables_len, uint8_t *words, size_t words_len, uint8_t process,
                           uint32_t address, uint32_t value, uint8_t *report, size_t report_len);
int32_t plain_clock_report(uint8_t *tables, size_t tables_len, const uint8_t *words, size_t words_len, uint64_t time,
                           uint8_t *report, size_t report_len);
int32_t plain_interrupt_report(uint8_t *tables, size_t tables_len, const uint8_t *words, size_t words_len, uint8_t process,
                               uint8_t index, uint8_t *report, size_t report_len);
int32_t plain_set_priority_report(uint8_t *tables, size_t tables_len, const uint8_t *words, size_t words_len,
                                  uint8_t process, uint8_t index, uint8_t priority, uint8_t *report, size_t report_len);

#endif
