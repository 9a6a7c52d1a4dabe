/*
 * The functions of vradomil.h, handed on to those of a library that was compiled without proof: .ci/try-wrong-programs links the comparing
 * program to this once, and VRADOMIL_UNPROVED names the library of each run. A slice is lent there as here, as a pointer and a length.
 */
#include <dlfcn.h>
#include <stdio.h>
#include <stdlib.h>

#include "vradomil.h"

static void *find(const char *name)
{
    static void *library;
    if (!library)
        library = dlopen(getenv("VRADOMIL_UNPROVED"), RTLD_NOW);
    void *found = library ? dlsym(library, name) : NULL;
    if (!found) {
        fprintf(stderr, "unproved-library: %s\n", dlerror());
        exit(2);
    }
    return found;
}

#define HAND_ON(type, name, parameters, arguments) \
    type name parameters                           \
    {                                              \
        static type(*function) parameters;         \
        if (!function)                             \
            function = find("vradomil_c::" #name); \
        return function arguments;                 \
    }

HAND_ON(int32_t, vradomil_fresh,
        (uint8_t *tables, size_t tables_len),
        (tables, tables_len))
HAND_ON(int32_t, vradomil_call,
        (uint8_t *tables, size_t tables_len, uint8_t *words, size_t words_len, uint8_t process, uint8_t index, uint32_t op,
         uint32_t uaddr, uint32_t val, uint8_t flag, uint64_t timeout, uint32_t uaddr2, uint32_t val3),
        (tables, tables_len, words, words_len, process, index, op, uaddr, val, flag, timeout, uaddr2, val3))
HAND_ON(int32_t, vradomil_store,
        (const uint8_t *tables, size_t tables_len, uint8_t *words, size_t words_len, uint8_t process, uint32_t address,
         uint32_t value),
        (tables, tables_len, words, words_len, process, address, value))
HAND_ON(int32_t, vradomil_clock,
        (uint8_t *tables, size_t tables_len, const uint8_t *words, size_t words_len, uint64_t time),
        (tables, tables_len, words, words_len, time))
HAND_ON(int32_t, vradomil_interrupt,
        (uint8_t *tables, size_t tables_len, const uint8_t *words, size_t words_len, uint8_t process, uint8_t index),
        (tables, tables_len, words, words_len, process, index))
HAND_ON(int32_t, vradomil_set_priority,
        (uint8_t *tables, size_t tables_len, const uint8_t *words, size_t words_len, uint8_t process, uint8_t index,
         uint8_t priority),
        (tables, tables_len, words, words_len, process, index, priority))
HAND_ON(int32_t, vradomil_call_report,
        (uint8_t *tables, size_t tables_len, uint8_t *words, size_t words_len, uint8_t process, uint8_t index, uint32_t op,
         uint32_t uaddr, uint32_t val, uint8_t flag, uint64_t timeout, uint32_t uaddr2, uint32_t val3, uint8_t *report,
         size_t report_len),
        (tables, tables_len, words, words_len, process, index, op, uaddr, val, flag, timeout, uaddr2, val3, report,
         report_len))
HAND_ON(int32_t, vradomil_store_report,
        (const uint8_t *tables, size_t tables_len, uint8_t *words, size_t words_len, uint8_t process, uint32_t address,
         uint32_t value, uint8_t *report, size_t report_len),
        (tables, tables_len, words, words_len, process, address, value, report, report_len))
HAND_ON(int32_t, vradomil_clock_report,
        (uint8_t *tables, size_t tables_len, const uint8_t *words, size_t words_len, uint64_t time, uint8_t *report,
         size_t report_len),
        (tables, tables_len, words, words_len, time, report, report_len))
HAND_ON(int32_t, vradomil_interrupt_report,
        (uint8_t *tables, size_t tables_len, const uint8_t *words, size_t words_len, uint8_t process, uint8_t index,
         uint8_t *report, size_t report_len),
        (tables, tables_len, words, words_len, process, index, report, report_len))
HAND_ON(int32_t, vradomil_set_priority_report,
        (uint8_t *tables, size_t tables_len, const uint8_t *words, size_t words_len, uint8_t process, uint8_t index,
         uint8_t priority, uint8_t *report, size_t report_len),
        (tables, tables_len, words, words_len, process, index, priority, report, report_len))
HAND_ON(uint32_t, vradomil_query,
        (const uint8_t *tables, size_t tables_len, uint8_t process),
        (tables, tables_len, process))
