/*
 * The same kernel as plain.h's, tuned by hand: loops without a branch on what the tables hold, eight bytes at a time, the earliest
 * deadline and each sleeper's place in the list kept from the check. A second measure, for what is left to gain; nothing else uses
 * it.
 *
 * Unlike the library it wants the tables at an address that is a multiple of 8.
 */
#ifndef TUNED_H
#define TUNED_H

#include "../include/vradomil.h"

int32_t tuned_fresh(uint8_t *tables, size_t tables_len);
int32_t tuned_call(uint8_t *tables, size_t tables_len, uint8_t *words, size_t words_len, uint8_t process, uint8_t index,
                   uint32_t op, uint32_t uaddr, uint32_t val, uint8_t flag, uint64_t timeout, uint32_t uaddr2, uint32_t val3);
int32_t tuned_store(const uint8_t *tables, size_t tables_len, uint8_t *words, size_t words_len, uint8_t process,
                    uint32_t address, uint32_t value);
int32_t tuned_clock(uint8_t *tables, size_t tables_len, const uint8_t *words, size_t words_len, uint64_t time);
int32_t tuned_interrupt(uint8_t *tables, size_t tables_len, const uint8_t *words, size_t words_len, uint8_t process,
                        uint8_t index);
int32_t tuned_set_priority(uint8_t *tables, size_t tables_len, const uint8_t *words, size_t words_len, uint8_t process,
                           uint8_t index, uint8_t priority);
uint32_t tuned_query(const uint8_t *tables, size_t tables_len, uint8_t process);
int32_t tuned_call_report(uint8_t *tables, size_t tables_len, uint8_t *words, size_t words_len, uint8_t process, uint8_t index,
                          uint32_t op, uint32_t uaddr, uint32_t val, uint8_t flag, uint64_t timeout, uint32_t uaddr2,
                          uint32_t val3, uint8_t *report, size_t report_len);
int32_t tuned_store_report(const uint8_t *tables, size_t tables_len, uint8_t *words, size_t words_len, uint8_t process,
                           uint32_t address, uint32_t value, uint8_t *report, size_t report_len);
int32_t tuned_clock_report(uint8_t *tables, size_t tables_len, const uint8_t *words, size_t words_len, uint64_t time,
                           uint8_t *report, size_t report_len);
int32_t tuned_interrupt_report(uint8_t *tables, size_t tables_len, const uint8_t *words, size_t words_len, uint8_t process,
                               uint8_t index, uint8_t *report, size_t report_len);
int32_t tuned_set_priority_report(uint8_t *tables, size_t tables_len, const uint8_t *words, size_t words_len,
                                  uint8_t process, uint8_t index, uint8_t priority, uint8_t *report, size_t report_len);

#endif
