/*
 * Calls and openings of which the order of their stores is to be seen (order.sh). For each that is watched a line is printed with the units that it has to store, in their order: as many rows as the
 * answer counts, from the first that the log has not, and the page of a flush.
 *
 * One session comes without a fuse, and with a fuse of as many writes as it made: answers and bytes have to be the same. Then it comes with every smaller fuse, and its answers have to count as many
 * writes as the fuse has, so that the order of the stores is that of the writes which the fuse counts. There the calls are watched from the one on in which the fuse burns; those before it are watched
 * in the first two. Last are the longest openings. With FIRST_SESSIONS all ends after the first two sessions: test_order.sh holds that to be the beginning of the whole.
 */
#include <stdio.h>
#include <stdlib.h>
#include <string.h>

#include "chart_store.h"
#include "marks.h"

#define PAGE_OF_PROCESSOR 4096u
static struct {
    uint8_t log[CHART_LOG_LENGTH], charts[CHART_CHARTS_LENGTH], rest[PAGE_OF_PROCESSOR - CHART_CHARTS_LENGTH];
} stored __attribute__((aligned(PAGE_OF_PROCESSOR)));
static chart_ram ram;
static const chart_store store = {&ram, stored.log, CHART_LOG_LENGTH, stored.charts, CHART_CHARTS_LENGTH};

enum { OPEN, BEGIN, CHANGE, HAND_OVER, HAND_OVER_ALL, COMMIT, ABORT, FORCE, FLUSH, CALLS_THAT_STORE, OTHER = CALLS_THAT_STORE, CALLS };
static unsigned most_rows[CALLS]; /* that a call of the kind has stored */

static uint32_t rows_before, writes; /* writes: those that the answers of a session count */
static int last;                     /* the number of the last answer */

/* The calls of the session without a fuse: what each answered, and the writes up to its end. In a session with a fuse a call is watched if that is more than the fuse has. */
static struct {
    chart_answer answer;
    uint32_t writes;
} unlimited[400];
static unsigned calls, different; /* calls of this session; those of them that answered something else */
static int watch_all = 1;
static uint32_t fuse_now;

static int watched(void) { return watch_all || unlimited[calls].writes > fuse_now; }

static void before(void) {
    if (calls == sizeof unlimited / sizeof *unlimited) abort();
    rows_before = 0;
    while (rows_before < CHART_ROWS && stored.log[CHART_ROW_LENGTH * rows_before] != 0) rows_before++;
    if (watched()) mark_begin();
}
static chart_answer after(int call, chart_answer a, int page) {
    if (watched()) {
        mark_end();
        if (chart_rows(a) > most_rows[call]) most_rows[call] = chart_rows(a);
        for (uint32_t k = 1; k <= chart_rows(a); k++) printf(" %lu", (unsigned long)(rows_before + k));
        if (chart_pages(a) == 1) printf(" p%d", page);
        puts("");
    }
    writes += chart_rows(a) + chart_pages(a);
    last = chart_number(a);
    if (fuse_now == CHART_NO_FUSE) {
        unlimited[calls].answer = a;
        unlimited[calls].writes = writes;
    }
    different += unlimited[calls].answer != a;
    calls++;
    return a;
}
#define WATCHED(call, made) (before(), after(call, made, -1))
static void flush(uint8_t page) {
    before();
    after(FLUSH, chart_flush(&store, page), page);
}
static uint16_t begin(void) { return (uint16_t)chart_value(WATCHED(BEGIN, chart_begin(&store))); }
static void change(uint16_t visit, int cell) { WATCHED(CHANGE, chart_change(&store, visit, (uint8_t)cell, (int16_t)(cell - 100))); }

static void format(void) {
    static const int32_t cells[CHART_CELLS];
    chart_format(&store, cells, CHART_CELLS);
    chart_open(&store, CHART_NO_FUSE);
}

/* Every call that stores anything does so here: while few rows wait, and while 64 of them do. */
static void session(uint32_t fuse) {
    uint8_t page[CHART_PAGE_LENGTH];
    writes = calls = different = 0;
    fuse_now = fuse;
    WATCHED(OPEN, chart_open(&store, fuse));
    uint16_t v = begin(), w = begin();
    for (int k = 0; k < 70; k++) change(k % 2 ? v : w, 3 * k % 50);
    for (int k = 0; k < 60; k++) WATCHED(HAND_OVER, chart_hand_over(&store, k % 2 ? v : w, k % 2 ? w : v, 0));
    WATCHED(OTHER, chart_read(&store, 0));
    flush(1);
    change(v, 8);
    change(v, 100);
    flush(1); /* the row of cell 100 goes on waiting */
    flush(1);
    flush(20);
    for (int k = 0; k < 64; k++) WATCHED(HAND_OVER_ALL, chart_hand_over_all(&store, k % 2 ? w : v, k % 2 ? v : w));
    change(v, 2);
    change(v, 3);
    WATCHED(FORCE, chart_force(&store));
    change(v, 1);
    WATCHED(COMMIT, chart_commit(&store, w));
    WATCHED(ABORT, chart_abort(&store, v)); /* more than 64 undo rows */
    uint16_t x = begin();
    for (int k = 0; k < 64; k++) change(x, k % 20);
    uint16_t y = begin(); /* 64 rows wait */
    change(y, 30);
    memcpy(page, stored.charts, sizeof page);
    WATCHED(OTHER, chart_redo_page(stored.log, CHART_LOG_LENGTH, page, sizeof page, 0));
    WATCHED(COMMIT, chart_commit(&store, y));
    flush(4);
    flush(0);
}

int main(void) {
    static uint8_t log_kept[CHART_LOG_LENGTH], charts_kept[CHART_CHARTS_LENGTH], log_after[CHART_LOG_LENGTH], charts_after[CHART_CHARTS_LENGTH];
    mark_memory(stored.log, stored.charts);

    /* Five visits with changes, handed round, are active when the power fails. */
    format();
    for (int k = 0; k < 5; k++) begin();
    for (int k = 0; k < 60; k++) change((uint16_t)(1 + k % 5), k % 20);
    for (int k = 0; k < 5; k++) WATCHED(HAND_OVER, chart_hand_over(&store, (uint16_t)(1 + k), (uint16_t)(1 + (k + 1) % 5), (uint8_t)k));
    flush(0);
    memcpy(log_kept, stored.log, sizeof log_kept);
    memcpy(charts_kept, stored.charts, sizeof charts_kept);

    session(CHART_NO_FUSE);
    uint32_t all = writes;
    if (last != CHART_DONE) return puts("the session without a fuse fails"), 1;
    memcpy(log_after, stored.log, sizeof log_after);
    memcpy(charts_after, stored.charts, sizeof charts_after);

    memcpy(stored.log, log_kept, sizeof log_kept);
    memcpy(stored.charts, charts_kept, sizeof charts_kept);
    session(all);
    if (different || memcmp(stored.log, log_after, sizeof log_after) != 0 || memcmp(stored.charts, charts_after, sizeof charts_after) != 0)
        return printf("with a fuse of %lu the session is not the same as without one\n", (unsigned long)all), 1;

#ifndef FIRST_SESSIONS
    watch_all = 0;
    for (uint32_t fuse = 0; fuse < all; fuse++) {
        memcpy(stored.log, log_kept, sizeof log_kept);
        memcpy(stored.charts, charts_kept, sizeof charts_kept);
        session(fuse);
        if (last != CHART_CLOSED || writes != fuse)
            return printf("a session with a fuse of %lu counts %lu writes and ends with %d\n", (unsigned long)fuse, (unsigned long)writes, last), 1;
    }
    watch_all = 1;

    /* The openings that store the most rows, of one cell and of 64. */
    for (int cells = 1; cells <= 64; cells += 63) {
        fuse_now = calls = 0;
        format();
        begin();
        for (int k = 0; k < 2047; k++) calls = 0, change(1, k % cells);
        WATCHED(FORCE, chart_force(&store));
        WATCHED(OPEN, chart_open(&store, CHART_NO_FUSE));
    }
#endif
    for (int call = 0; call < CALLS_THAT_STORE; call++)
        if (most_rows[call] == 0) return printf("no call of kind %d has stored a row\n", call), 1;
    return last != CHART_DONE;
}
