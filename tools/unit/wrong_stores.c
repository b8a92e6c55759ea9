/*
 * Calls that store the right bytes in a wrong way, for test_order.sh: the linker puts these functions between order.c and the archive (--wrap). A call works on copies of log and charts, and what it
 * has stored there is stored once more where it belongs: in the call IN by the fault FAULT, in every other call as it should be. Both are variables of the environment; on the model, which has none, the
 * compiler is given them.
 */
#include <stdlib.h>
#include <string.h>

#include "chart_store.h"

#define FAULTS(X)                                                                                                                                        \
    X(NO_FAULT) X(ROWS_EXCHANGED) X(ROWS_IN_HALVES) X(ROW_AGAIN) X(ROW_TOO_MANY) X(ROW_OVERWRITTEN) X(ROW_IN_PART) X(PAGE_FIRST) X(PAGE_FIRST_WITHOUT_FUSE) \
    X(PAGE_IN_HALVES) X(PAGE_TWICE) X(MARK_FIRST) X(ROWS_AT_ONCE)
#define CASE(fault) fault,
enum { FAULTS(CASE) };

#ifdef __arm__
static int fault_in(const char *call) { return strcmp(call, IN) == 0 ? FAULT : NO_FAULT; }
#else
static int fault_in(const char *call) {
    static int fault = -1;
    if (fault < 0) {
#define NAME(fault) #fault,
        static const char *const names[] = {FAULTS(NAME)};
        for (fault = 0; strcmp(names[fault], getenv("FAULT")) != 0;)
            if (++fault == sizeof names / sizeof *names) abort();
    }
    return strcmp(call, getenv("IN")) == 0 ? fault : NO_FAULT;
}
#endif

static uint8_t log_copy[CHART_LOG_LENGTH] __attribute__((aligned(16))), charts_copy[CHART_CHARTS_LENGTH] __attribute__((aligned(16)));

static void store(uint8_t *to, const uint8_t *from, uint32_t at, uint32_t length) {
#ifndef __arm__ /* as the archive for x86-64 does it: each store that is seen takes time */
    typedef uint32_t sixteen __attribute__((vector_size(16), may_alias));
    for (; length >= 16; at += 16, length -= 16) *(volatile sixteen *)(void *)(to + at) = *(const sixteen *)(const void *)(from + at);
#endif
    for (uint32_t k = at; k < at + length; k += 4) *(volatile uint32_t *)(void *)(to + k) = *(const uint32_t *)(const void *)(from + k);
}
static void store_row(uint8_t *log, uint32_t row) { store(log, log_copy, CHART_ROW_LENGTH * row, CHART_ROW_LENGTH); }
static void store_page(uint8_t *charts, uint32_t at) {
    store(charts, charts_copy, at + 16, 16);
    store(charts, charts_copy, at, 16);
}
static uint32_t fuse_of_session;
static void store_half_row(uint8_t *log, uint32_t row, uint32_t half) { store(log, log_copy, CHART_ROW_LENGTH * row + 8 * half, 8); }

/* The rows from number `first`, counted from 0, on, and the page if there is one. */
static void store_all(uint8_t *log, uint32_t first, uint32_t rows, uint8_t *charts, int page, int fault) {
    uint32_t row = first, end = first + rows, page_at = CHART_PAGE_LENGTH * (uint32_t)page;
    if (page >= 0 && rows > 0 && (fault == PAGE_FIRST || (fault == PAGE_FIRST_WITHOUT_FUSE && fuse_of_session == CHART_NO_FUSE))) {
        store_page(charts, page_at);
        page = -1;
    }
    if (rows >= 1 && fault == ROW_OVERWRITTEN)
        for (uint32_t k = 0; k < CHART_ROW_LENGTH; k += 4) *(volatile uint32_t *)(void *)(log + CHART_ROW_LENGTH * row + k) = UINT32_MAX;
    if (rows >= 1 && fault == ROW_IN_PART) { /* what is there already is not stored */
        for (uint32_t k = CHART_ROW_LENGTH * row; k < CHART_ROW_LENGTH * (row + 1); k += 4)
            if (memcmp(log + k, log_copy + k, 4) != 0) store(log, log_copy, k, 4);
        row++;
    }
    if (rows >= 2 && fault == ROWS_EXCHANGED) {
        store_row(log, row + 1);
        store_row(log, row);
        row += 2;
    }
    if (rows >= 2 && fault == ROWS_IN_HALVES) {
        for (uint32_t half = 0; half < 2; half++) {
            store_half_row(log, row, half);
            store_half_row(log, row + 1, half);
        }
        row += 2;
    }
#ifndef __arm__ /* a Cortex-M0 has no store that reaches two rows */
    if (rows >= 2 && fault == ROWS_AT_ONCE) {
        uint32_t at = CHART_ROW_LENGTH * row + 12;
        store(log, log_copy, at - 12, 12);
        *(volatile uint64_t *)(void *)(log + at) = *(const uint64_t *)(const void *)(log_copy + at);
        store(log, log_copy, at + 8, 12);
        row += 2;
    }
#endif
    while (row < end) store_row(log, row++);
    if (rows >= 2 && fault == ROW_AGAIN) store_half_row(log, first, 0);
    if (rows > 0 && end < CHART_ROWS && fault == ROW_TOO_MANY) store_half_row(log, end, 0);
    if (page < 0) return;
    if (rows > 0 && fault == PAGE_IN_HALVES) {
        store(charts, charts_copy, page_at + 16, 16);
        store_half_row(log, first, 0);
        store(charts, charts_copy, page_at, 16);
    } else if (fault == MARK_FIRST) store(charts, charts_copy, page_at, CHART_PAGE_LENGTH);
    else store_page(charts, page_at);
    if (fault == PAGE_TWICE) store_page(charts, page_at);
}

static uint32_t rows_in(const uint8_t *log) {
    uint32_t rows = 0;
    while (rows < CHART_ROWS && log[CHART_ROW_LENGTH * rows] != 0) rows++;
    return rows;
}

#define ARRAYS                                                                                                                                           \
    uint32_t *head, uint16_t *visits, uint16_t *scopes, uint8_t *tail, uint8_t *copy, uint8_t *log, uint64_t log_length, uint8_t *charts,                 \
        uint64_t charts_length
#define AND ,
#define BETWEEN(call, parameters, arguments, page, fuse_is)                                                                                              \
    chart_answer __real_##call(ARRAYS parameters);                                                                                                       \
    chart_answer __wrap_##call(ARRAYS parameters);                                                                                                       \
    chart_answer __wrap_##call(ARRAYS parameters) {                                                                                                      \
        uint32_t first = rows_in(log);                                                                                                                   \
        fuse_of_session = fuse_is;                                                                                                                       \
        memcpy(log_copy, log, sizeof log_copy);                                                                                                          \
        memcpy(charts_copy, charts, sizeof charts_copy);                                                                                                 \
        chart_answer answer = __real_##call(head, visits, scopes, tail, copy, log_copy, log_length, charts_copy, charts_length arguments);               \
        store_all(log, first, chart_rows(answer), charts, chart_pages(answer) ? (int)(page) : -1, fault_in(#call));                                      \
        return answer;                                                                                                                                   \
    }
BETWEEN(chart_open_on, AND uint32_t fuse, AND fuse, -1, fuse)
BETWEEN(chart_begin_on, , , -1, fuse_of_session)
BETWEEN(chart_change_on, AND uint16_t visit AND uint8_t cell AND int16_t amount, AND visit AND cell AND amount, -1, fuse_of_session)
BETWEEN(chart_hand_over_on, AND uint16_t giver AND uint16_t receiver AND uint8_t cell, AND giver AND receiver AND cell, -1, fuse_of_session)
BETWEEN(chart_hand_over_all_on, AND uint16_t giver AND uint16_t receiver, AND giver AND receiver, -1, fuse_of_session)
BETWEEN(chart_commit_on, AND uint16_t visit, AND visit, -1, fuse_of_session)
BETWEEN(chart_abort_on, AND uint16_t visit, AND visit, -1, fuse_of_session)
BETWEEN(chart_force_on, , , -1, fuse_of_session)
BETWEEN(chart_flush_on, AND uint8_t page, AND page, page, fuse_of_session)
