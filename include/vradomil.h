/*
 * Vradomil: a futex kernel for eight fixed processes of eight threads each.
 *
 * The host lends the kernel two buffers for the length of one call: the tables (1,360 bytes) and the futex words of all processes
 * (32,768 bytes); to a function whose name ends in _report also a third, for the report, which the kernel only writes. The kernel
 * keeps nothing of its own between calls, so a host may have several displays in one program.
 *
 * For every function:
 *  - A pointer points to as many bytes as the length beside it says. It is never null, also where the length is 0.
 *  - Tables, words and report don't overlap, and nobody else reads or writes them during the call.
 *  - No alignment is needed.
 *  - Every number, every table and every length is answered. A refusal is a number below 0 and changes no byte of tables and words.
 */
#ifndef VRADOMIL_H
#define VRADOMIL_H

#include <stddef.h>
#include <stdint.h>

#ifdef __cplusplus
#define VRADOMIL_ASSERT(condition, text) static_assert(condition, text)
extern "C" {
#else
#define VRADOMIL_ASSERT(condition, text) _Static_assert(condition, text)
#endif

/* The fixed sizes. Thread (process, index) has number 8 * process + index. */
#define VRADOMIL_PROCESSES 8
#define VRADOMIL_THREADS_PER_PROCESS 8
#define VRADOMIL_THREADS 64
/* Each process has 1,024 words, at byte addresses 0, 4, .. 4092; the word at address a of process p is word 1024 * p + a / 4. */
#define VRADOMIL_WORDS_PER_PROCESS 1024
#define VRADOMIL_WORDS 8192
#define VRADOMIL_TABLES_BYTES 1360
#define VRADOMIL_WORDS_BYTES 32768

/* What stands in the arrival list where no thread does. */
#define VRADOMIL_NO_ENTRY 255

/* The highest base priority, which is taken first. Every thread starts with 0. */
#define VRADOMIL_MAX_PRIORITY 31

/* The answer of a call that put its thread to sleep. No count is ever as high (theorem count_below_asleep). */
#define VRADOMIL_ASLEEP 2147483647

/* The highest cap of a wake or requeue; it stands for "all". */
#define VRADOMIL_ALL 2147483647

/* The commands of vradomil_call. The numbers are those of linux/futex.h. */
#define VRADOMIL_WAIT 0
#define VRADOMIL_WAKE 1
#define VRADOMIL_REQUEUE 3
#define VRADOMIL_CMP_REQUEUE 4
#define VRADOMIL_WAKE_OP 5
#define VRADOMIL_WAIT_BITSET 9
#define VRADOMIL_WAKE_BITSET 10

/* The option bits of an op. The first has no effect here, for every futex is private; the second is always refused with -38. */
#define VRADOMIL_PRIVATE 128
#define VRADOMIL_CLOCK_REALTIME 256

/*
 * The parts of WAKE_OP's val3, in which oparg and cmparg are -2048 to 2047: what is done to the word at uaddr2 with oparg, a
 * negative one taken modulo 2^32, so that to set -1 stores 4294967295 ..
 */
#define VRADOMIL_OP_SET 0
#define VRADOMIL_OP_ADD 1
#define VRADOMIL_OP_OR 2
#define VRADOMIL_OP_ANDN 3
#define VRADOMIL_OP_XOR 4
/* .. this bit added to one of the five: with 2 to the power (oparg mod 32), an exponent of 0 to 31, in place of oparg .. */
#define VRADOMIL_OP_SHIFT 8
/* .. and how the old word, taken as an int32_t, is compared with cmparg. */
#define VRADOMIL_CMP_EQ 0
#define VRADOMIL_CMP_NE 1
#define VRADOMIL_CMP_LT 2
#define VRADOMIL_CMP_LE 3
#define VRADOMIL_CMP_GT 4
#define VRADOMIL_CMP_GE 5
/* A whole val3, the same number that FUTEX_OP of linux/futex.h makes: oparg and cmparg are cut to their low 12 bits. */
#define VRADOMIL_WAKE_OP_VAL3(op, oparg, cmp, cmparg) \
    (((uint32_t)(op) & 15) << 28 | ((uint32_t)(cmp) & 15) << 24 | ((uint32_t)(oparg) & 4095) << 12 | ((uint32_t)(cmparg) & 4095))

/* The refusals, in the order in which they are tested; the first that applies answers. They are errno numbers, negated. */
#define VRADOMIL_ENXIO (-6)       /* the words are not 32,768 bytes */
#define VRADOMIL_EBADF (-9)       /* the tables are not 1,360 bytes, have a byte that stands for nothing, or break a table rule */
#define VRADOMIL_ESRCH (-3)       /* the process or the index is above 7 */
#define VRADOMIL_EBUSY (-16)      /* the calling thread is asleep */
#define VRADOMIL_ENOSYS (-38)     /* unknown command or option; also, but after -14, an undefined part of WAKE_OP's val3 */
#define VRADOMIL_EINVAL (-22)     /* an argument that no event may have; VRADOMIL_REASON_.. says which */
#define VRADOMIL_EFAULT (-14)     /* an address in use is 4096 or more */
#define VRADOMIL_EAGAIN (-11)     /* the compared word holds another number */
#define VRADOMIL_ETIMEDOUT (-110) /* the deadline of the wait is not ahead; the thread did not sleep */

/* The answer of an interrupted sleep. No function answers it; vradomil_last_answer does. */
#define VRADOMIL_EINTR (-4)

/*
 * Why an event was answered -22; where several apply, the lowest. Beside every other answer the reason is 0. The names are those of
 * futex(2)'s arguments: val2 is the second cap, which comes in the place of timeout.
 */
#define VRADOMIL_REASON_NONE 0
#define VRADOMIL_REASON_VAL 1        /* the cap val is above 2147483647: WAKE, WAKE_BITSET, REQUEUE, CMP_REQUEUE, WAKE_OP */
#define VRADOMIL_REASON_VAL2 2       /* the second cap is above 2147483647: REQUEUE, CMP_REQUEUE, WAKE_OP */
#define VRADOMIL_REASON_VAL3 3       /* the mask val3 is 0: WAIT_BITSET, WAKE_BITSET */
#define VRADOMIL_REASON_UADDR 4      /* uaddr, or a store's address, is not a multiple of 4 */
#define VRADOMIL_REASON_UADDR2 5     /* uaddr2 is not a multiple of 4: REQUEUE, CMP_REQUEUE, WAKE_OP */
#define VRADOMIL_REASON_SAME_UADDR 6 /* uaddr2 is uaddr: REQUEUE, CMP_REQUEUE */
#define VRADOMIL_REASON_CLOCK 7      /* the time of a clock event is before the clock */
#define VRADOMIL_REASON_PRIORITY 8   /* the priority to be set is above 31 */

/* How the answer of a thread's last ended sleep stands in the tables. */
#define VRADOMIL_LAST_NONE 0
#define VRADOMIL_LAST_WOKEN 1
#define VRADOMIL_LAST_TIMED_OUT 2
#define VRADOMIL_LAST_INTERRUPTED 3

/*
 * The tables, laid over the bytes. A host may read them between calls; it should write them through the functions only.
 * docs/TABLES.md says what each field may hold.
 */
struct vradomil_tables {
    uint64_t clock;                            /* nanoseconds */
    uint64_t count;                            /* how many threads are asleep */
    uint8_t list[VRADOMIL_THREADS];            /* their numbers, in order of arrival; then 255 */
    uint8_t waiting[VRADOMIL_THREADS];         /* 1 asleep, 0 running */
    uint8_t timed[VRADOMIL_THREADS];           /* 1 where a sleeper has a deadline */
    uint8_t last[VRADOMIL_THREADS];            /* VRADOMIL_LAST_.. */
    uint32_t uaddr[VRADOMIL_THREADS];          /* the address that a sleeper waits at */
    uint32_t bitset[VRADOMIL_THREADS];         /* its mask */
    uint64_t deadline[VRADOMIL_THREADS];       /* on the kernel's clock */
    uint8_t priority[VRADOMIL_THREADS];        /* the base priority, 0 to 31; the highest is taken first */
};

/* What a report says beside the answer, laid over its bytes. Later versions may add fields, at the end only. */
#define VRADOMIL_REPORT_BYTES 1
struct vradomil_report {
    uint8_t reason; /* VRADOMIL_REASON_.. */
};

#ifdef __BYTE_ORDER__
VRADOMIL_ASSERT(__BYTE_ORDER__ == __ORDER_LITTLE_ENDIAN__, "the numbers in tables and words are little-endian");
#endif
VRADOMIL_ASSERT(sizeof(struct vradomil_tables) == VRADOMIL_TABLES_BYTES, "1,360 bytes, no padding");
VRADOMIL_ASSERT(offsetof(struct vradomil_tables, clock) == 0, "clock at 0");
VRADOMIL_ASSERT(offsetof(struct vradomil_tables, count) == 8, "count at 8");
VRADOMIL_ASSERT(offsetof(struct vradomil_tables, list) == 16, "list at 16");
VRADOMIL_ASSERT(offsetof(struct vradomil_tables, waiting) == 80, "waiting at 80");
VRADOMIL_ASSERT(offsetof(struct vradomil_tables, timed) == 144, "timed at 144");
VRADOMIL_ASSERT(offsetof(struct vradomil_tables, last) == 208, "last answer at 208");
VRADOMIL_ASSERT(offsetof(struct vradomil_tables, uaddr) == 272, "uaddr at 272");
VRADOMIL_ASSERT(offsetof(struct vradomil_tables, bitset) == 528, "bitset at 528");
VRADOMIL_ASSERT(offsetof(struct vradomil_tables, deadline) == 784, "deadline at 784");
VRADOMIL_ASSERT(offsetof(struct vradomil_tables, priority) == 1296, "priority at 1296");
VRADOMIL_ASSERT(4 * VRADOMIL_WORDS == VRADOMIL_WORDS_BYTES, "8,192 words of 32 bits");
VRADOMIL_ASSERT(sizeof(struct vradomil_report) == VRADOMIL_REPORT_BYTES, "1 byte, no padding");
VRADOMIL_ASSERT(offsetof(struct vradomil_report, reason) == 0, "reason at 0");

/*
 * Lays down the fresh tables: clock 0, all threads running, no sleep ended yet, all priorities 0, the list empty. The words may
 * start as anything.
 * Answers 0, or -9 if tables_len is not 1,360, and then writes nothing.
 */
int32_t vradomil_fresh(uint8_t *tables, size_t tables_len);

/*
 * One futex call by thread (process, index). An argument that the command doesn't use is ignored. flag says "timeout given": 0 is
 * no, all else yes. The second cap of REQUEUE, CMP_REQUEUE and WAKE_OP is timeout modulo 2^32, whatever the flag.
 *
 *   WAIT          sleeps at uaddr if the word there is val. timeout is relative to the clock; clock + timeout stops at 2^64 - 1.
 *   WAIT_BITSET   the same, with mask val3 and an absolute timeout.
 *   WAKE          releases the first val sleepers at uaddr; 0 releases none.
 *   WAKE_BITSET   the same, of those whose mask shares a bit with val3.
 *   REQUEUE       releases the first val sleepers at uaddr and moves the next, up to the second cap, to uaddr2, where they arrive
 *                 anew in the order in which they were taken.
 *   CMP_REQUEUE   the same if the word at uaddr is val3.
 *   WAKE_OP       changes the word at uaddr2 by val3, releases the first val sleepers at uaddr and, if the old word compares true,
 *                 the next ones at uaddr2, up to the second cap.
 *
 * The sleepers of a word are taken by higher base priority, and by arrival among equals; where all priorities are equal, in order
 * of arrival.
 *
 * Answers VRADOMIL_ASLEEP if the caller now sleeps: the host must not run that thread until its byte in waiting is 0 again, and
 * then the call's value for the thread is vradomil_last_answer. Otherwise answers how many sleepers were released (CMP_REQUEUE:
 * released plus moved), or a refusal: -6, -9, -3, -16, -38, -22, -14, -38, -11 or -110, tested in this order.
 *
 * -22 comes with one of the reasons VRADOMIL_REASON_VAL to VRADOMIL_REASON_SAME_UADDR, which vradomil_call_report tells.
 *
 * A refusal changes nothing; a wait refused with -110 leaves the last answer too.
 */
int32_t vradomil_call(uint8_t *tables, size_t tables_len, uint8_t *words, size_t words_len, uint8_t process, uint8_t index,
                      uint32_t op, uint32_t uaddr, uint32_t val, uint8_t flag, uint64_t timeout, uint32_t uaddr2, uint32_t val3);

/*
 * Writes value to the word at address of a process. Wakes nobody. The tables are read for -9 only.
 * Answers 0, or -6, -9, -3 (process), -22 (VRADOMIL_REASON_UADDR) or -14, and then changes nothing.
 */
int32_t vradomil_store(const uint8_t *tables, size_t tables_len, uint8_t *words, size_t words_len, uint8_t process,
                       uint32_t address, uint32_t value);

/*
 * Sets the clock and ends every sleep whose deadline is at or before it, with last answer -110.
 * Answers how many ended, or -6, -9 or -22 (VRADOMIL_REASON_CLOCK; the same time again is allowed), and then changes nothing.
 * The count speaks of every process.
 */
int32_t vradomil_clock(uint8_t *tables, size_t tables_len, const uint8_t *words, size_t words_len, uint64_t time);

/*
 * Ends the sleep of thread (process, index), with last answer -4.
 * Answers 1; 0 if the thread was running, and nothing changes; or -6, -9 or -3, and nothing changes.
 */
int32_t vradomil_interrupt(uint8_t *tables, size_t tables_len, const uint8_t *words, size_t words_len, uint8_t process,
                           uint8_t index);

/*
 * Sets the base priority of thread (process, index), asleep or not; 31 is the highest. It stays until it is set again: no other
 * event changes it. Of the sleepers of a word, wakes and requeues take the highest first, as the priorities are when they come;
 * to set it moves nobody in the arrival list.
 * Answers 0, or -6, -9, -3 or -22 (VRADOMIL_REASON_PRIORITY: above 31), and then changes nothing.
 */
int32_t vradomil_set_priority(uint8_t *tables, size_t tables_len, const uint8_t *words, size_t words_len, uint8_t process,
                              uint8_t index, uint8_t priority);

/*
 * The five events once more, with a report: each does and answers what the function without _report does, and also writes as many
 * bytes of the report as report_len has room for, none if it is 0. It writes them with every answer, so that nothing of an earlier
 * event stays there; bytes behind the report stay as they were. Lend it a struct vradomil_report and the struct's own size: the
 * host then goes on working, without being compiled again, with a later library whose report is longer. A query has no report.
 */
int32_t vradomil_call_report(uint8_t *tables, size_t tables_len, uint8_t *words, size_t words_len, uint8_t process,
                             uint8_t index, uint32_t op, uint32_t uaddr, uint32_t val, uint8_t flag, uint64_t timeout,
                             uint32_t uaddr2, uint32_t val3, uint8_t *report, size_t report_len);
int32_t vradomil_store_report(const uint8_t *tables, size_t tables_len, uint8_t *words, size_t words_len, uint8_t process,
                              uint32_t address, uint32_t value, uint8_t *report, size_t report_len);
int32_t vradomil_clock_report(uint8_t *tables, size_t tables_len, const uint8_t *words, size_t words_len, uint64_t time,
                              uint8_t *report, size_t report_len);
int32_t vradomil_interrupt_report(uint8_t *tables, size_t tables_len, const uint8_t *words, size_t words_len, uint8_t process,
                                  uint8_t index, uint8_t *report, size_t report_len);
int32_t vradomil_set_priority_report(uint8_t *tables, size_t tables_len, const uint8_t *words, size_t words_len,
                                     uint8_t process, uint8_t index, uint8_t priority, uint8_t *report, size_t report_len);

/*
 * Which threads of a process sleep. Changes nothing and is never refused.
 * Answers waiting + 256 * count + 65536 * lowest; the three helpers below take it apart. A process above 7, and tables that any
 * other function would answer -9, give 0, 0, 8.
 */
uint32_t vradomil_query(const uint8_t *tables, size_t tables_len, uint8_t process);

/* The parts of a query's answer: bit i is set if thread i of the process sleeps .. */
static inline uint8_t vradomil_query_waiting(uint32_t answer)
{
    return (uint8_t)(answer & 255);
}

/* .. how many bits are set .. */
static inline uint32_t vradomil_query_count(uint32_t answer)
{
    return answer >> 8 & 255;
}

/* .. and the lowest set bit, 8 if none. */
static inline uint32_t vradomil_query_lowest(uint32_t answer)
{
    return answer >> 16;
}

/* The answer that a byte of last stands for: 0 woken, -110 timed out, -4 interrupted; 1 if no sleep of the thread has ended. */
static inline int32_t vradomil_last_answer(uint8_t last)
{
    switch (last) {
    case VRADOMIL_LAST_WOKEN:
        return 0;
    case VRADOMIL_LAST_TIMED_OUT:
        return VRADOMIL_ETIMEDOUT;
    case VRADOMIL_LAST_INTERRUPTED:
        return VRADOMIL_EINTR;
    default:
        return 1;
    }
}

/* In words, what a function or vradomil_last_answer answers; 1 is taken for a count. Not for vradomil_query. */
static inline const char *vradomil_answer_text(int32_t answer)
{
    switch (answer) {
    case VRADOMIL_ASLEEP:
        return "asleep";
    case 0:
        return "done";
    case VRADOMIL_ENXIO:
        return "words of a wrong length";
    case VRADOMIL_EBADF:
        return "tables of a wrong length, or broken";
    case VRADOMIL_ESRCH:
        return "no such process or thread";
    case VRADOMIL_EBUSY:
        return "the calling thread is asleep";
    case VRADOMIL_ENOSYS:
        return "unknown command, option or operation";
    case VRADOMIL_EINVAL:
        return "bad argument";
    case VRADOMIL_EFAULT:
        return "address outside the words";
    case VRADOMIL_EAGAIN:
        return "the word holds another number";
    case VRADOMIL_ETIMEDOUT:
        return "the deadline has passed";
    case VRADOMIL_EINTR:
        return "interrupted";
    default:
        return answer > 0 && answer <= VRADOMIL_THREADS ? "done, a count of threads" : "not an answer";
    }
}

/* In words, the reason of a report. */
static inline const char *vradomil_reason_text(uint8_t reason)
{
    switch (reason) {
    case VRADOMIL_REASON_NONE:
        return "no reason";
    case VRADOMIL_REASON_VAL:
        return "val, the first cap, is above 2147483647";
    case VRADOMIL_REASON_VAL2:
        return "the second cap is above 2147483647";
    case VRADOMIL_REASON_VAL3:
        return "val3, the mask, is 0";
    case VRADOMIL_REASON_UADDR:
        return "uaddr, or a store's address, is not a multiple of 4";
    case VRADOMIL_REASON_UADDR2:
        return "uaddr2 is not a multiple of 4";
    case VRADOMIL_REASON_SAME_UADDR:
        return "uaddr and uaddr2 are the same";
    case VRADOMIL_REASON_CLOCK:
        return "the clock went back";
    case VRADOMIL_REASON_PRIORITY:
        return "the priority is above 31";
    default:
        return "not a reason";
    }
}

#ifdef __cplusplus
}
#endif

#endif
