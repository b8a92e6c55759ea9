/*
 * The workloads of bench (bench/src/workloads.rs has the same names and calls), and others that take longer, for measure.py: each measured call comes between two
 * marks, which plugin.c counts from and to, and below a painted stack. First a line with the bytes of RAM, then one for each measured call:
 * workload|deepest stack|rows stored|pages stored. The program returns 1 if a call gives another answer than it should.
 */
#include <stdio.h>
#include <stdlib.h>
#include <string.h>

#include "chart_store.h"
#include "marks.h"

static uint8_t stored_log[CHART_LOG_LENGTH] __attribute__((aligned(16)));
static uint8_t stored_charts[CHART_CHARTS_LENGTH] __attribute__((aligned(32)));
static chart_ram ram;
static chart_store store = {&ram, stored_log, CHART_LOG_LENGTH, stored_charts, CHART_CHARTS_LENGTH};

/* ---- The calls, all of one type ---- */

typedef chart_answer call(uint32_t a, uint32_t b, uint32_t c);

static const int32_t cells[CHART_CELLS];
static uint8_t page[CHART_PAGE_LENGTH];

#define CALL(name, made)                                                                                                                                 \
    __attribute__((noipa)) static chart_answer name(uint32_t a, uint32_t b, uint32_t c) {                                                                \
        (void)a, (void)b, (void)c;                                                                                                                       \
        return made;                                                                                                                                     \
    }
CALL(nothing, 0)
CALL(format, chart_format(&store, cells, CHART_CELLS))
CALL(open_with, chart_open(&store, a))
CALL(begin, chart_begin(&store))
CALL(change, chart_change(&store, (uint16_t)a, (uint8_t)b, (int16_t)c))
CALL(hand_over, chart_hand_over(&store, (uint16_t)a, (uint16_t)b, (uint8_t)c))
CALL(hand_over_all, chart_hand_over_all(&store, (uint16_t)a, (uint16_t)b))
CALL(commit, chart_commit(&store, (uint16_t)a))
CALL(abort_visit, chart_abort(&store, (uint16_t)a))
CALL(force, chart_force(&store))
CALL(flush, chart_flush(&store, (uint8_t)a))
CALL(read_cell, chart_read(&store, (uint8_t)a))
CALL(redo_page, chart_redo_page(stored_log, CHART_LOG_LENGTH, page, CHART_PAGE_LENGTH, (uint8_t)a))

/* ---- The stack ---- */

#define PAINT 0xC0DEC0DEu
#define PAINTED 4096u /* words */
#define OWN 16u       /* words below the stack pointer that are not painted, since the function that paints may use them */

static volatile uint32_t *stack_of_caller;

__attribute__((noipa)) static void paint(volatile uint32_t *stack) {
    stack_of_caller = stack;
    for (uint32_t k = OWN; k < PAINTED; k++) stack[-(int)k] = PAINT;
}
__attribute__((noipa)) static uint32_t depth(void) {
    uint32_t k = PAINTED - 1;
    while (k > OWN && stack_of_caller[-(int)k] == PAINT) k--;
    return 4 * k;
}

/* ---- Workloads ---- */

static const char *workload;
static int number; /* that the measured calls are to answer; all others answer 0 */

static void expect(chart_answer answer, int expected) {
    if (chart_number(answer) == expected) return;
    printf("%s: answered %d, not %d\n", workload, chart_number(answer), expected);
    exit(1);
}

static void prepare(call *make, uint32_t a, uint32_t b, uint32_t c) { expect(make(a, b, c), CHART_DONE); }

__attribute__((noipa)) static void measure(call *make, uint32_t a, uint32_t b, uint32_t c) {
    volatile uint32_t *stack;
    __asm__ volatile("mov %0, sp" : "=r"(stack));
    paint(stack);
    mark_begin();
    chart_answer answer = make(a, b, c);
    mark_end();
    printf("%s|%lu|%u|%u\n", workload, (unsigned long)depth(), chart_rows(answer), chart_pages(answer));
    expect(answer, number);
}

static void start(const char *name, int answers) {
    workload = name;
    number = answers;
    prepare(format, 0, 0, 0);
    prepare(open_with, CHART_NO_FUSE, 0, 0);
}

/* Power is lost, and the store is opened. */
static void measure_opening(void) {
    memset(&ram, 0xA5, sizeof ram);
    measure(open_with, CHART_NO_FUSE, 0, 0);
}

static void changes(uint32_t count, uint32_t of_cells) {
    for (uint32_t k = 0; k < count; k++) prepare(change, 1, k % of_cells, 100);
}
static void open_changes(const char *name, uint32_t count, uint32_t of_cells) {
    start(name, CHART_DONE);
    prepare(begin, 0, 0, 0);
    changes(count, of_cells);
    prepare(force, 0, 0, 0);
    measure_opening();
}

/* A full log: 61 visits of 64 changes, and visits of none. */
static void committed(void) {
    for (uint32_t v = 1; v <= 96; v++) {
        prepare(begin, 0, 0, 0);
        for (uint32_t k = 0; k < 64 && v <= 61; k++) prepare(change, v, k, 11);
        prepare(commit, v, 0, 0);
    }
}

static void ends(const char *name, call *end) {
    start(name, CHART_DONE);
    for (uint32_t v = 1; v <= 250; v++) {
        prepare(begin, 0, 0, 0);
        prepare(change, v, 3, 7);
        measure(end, v, 0, 0);
    }
}

static void long_abort(const char *name, uint32_t of_cells) {
    start(name, CHART_DONE);
    prepare(begin, 0, 0, 0);
    changes(2047, of_cells);
    measure(abort_visit, 1, 0, 0);
}

static void open_long(const char *name, uint32_t rows) {
    uint32_t left = CHART_ROWS - rows, visits = (rows - left) / 64;
    start(name, CHART_DONE);
    for (uint32_t v = 1; v <= visits; v++) {
        prepare(begin, 0, 0, 0);
        for (uint32_t k = 0; k < 62; k++) prepare(change, v, k, 100);
        prepare(commit, v, 0, 0);
    }
    prepare(begin, 0, 0, 0);
    for (uint32_t k = 1; k < left; k++) prepare(change, visits + 1, 0, 100);
    prepare(force, 0, 0, 0);
    measure_opening();
}

static void rejected(const char *name, int answers, uint8_t *byte, uint8_t wrong) {
    start(name, answers);
    committed();
    *byte = wrong;
    for (int k = 0; k < 3; k++) measure_opening();
}

static void of_bench(void) {
    start("format", CHART_DONE);
    for (int k = 0; k < 4; k++) measure(format, 0, 0, 0);

    start("read", CHART_DONE);
    for (uint32_t k = 0; k < 2240; k++) measure(read_cell, k % 224, 0, 0);

    start("begin", CHART_DONE);
    for (uint32_t round = 0; round < 16; round++) {
        for (int k = 0; k < 15; k++) measure(begin, 0, 0, 0);
        for (uint32_t k = 1; k <= 15; k++) prepare(commit, 15 * round + k, 0, 0);
    }

    start("change, a new scope", CHART_DONE);
    for (uint32_t v = 1; v <= 50; v++) {
        prepare(begin, 0, 0, 0);
        for (uint32_t k = 0; k < 64; k++) measure(change, v, k, 5);
        prepare(commit, v, 0, 0);
    }

    start("change, in a scope", CHART_DONE);
    prepare(begin, 0, 0, 0);
    changes(8, 8);
    for (uint32_t k = 0; k < 1600; k++) measure(change, 1, k % 8, 100);

    start("hand over", CHART_DONE);
    prepare(begin, 0, 0, 0);
    prepare(begin, 0, 0, 0);
    changes(8, 8);
    for (uint32_t k = 0; k < 1600; k++) measure(hand_over, 1 + k / 8 % 2, 2 - k / 8 % 2, k % 8);

    start("hand over of a whole visit, 8 scopes", CHART_DONE);
    prepare(begin, 0, 0, 0);
    prepare(begin, 0, 0, 0);
    changes(8, 8);
    for (uint32_t k = 0; k < 1600; k++) measure(hand_over_all, 1 + k % 2, 2 - k % 2, 0);

    ends("commit", commit);
    ends("abort of one change", abort_visit);

    start("force of 64 rows", CHART_DONE);
    prepare(begin, 0, 0, 0);
    for (int k = 0; k < 25; k++) {
        changes(64, 8);
        measure(force, 0, 0, 0);
    }

    start("flush", CHART_DONE);
    prepare(begin, 0, 0, 0);
    changes(64, 64);
    prepare(force, 0, 0, 0);
    for (uint32_t k = 0; k < 3200; k++) measure(flush, k % 32, 0, 0);

    start("refused change", CHART_NOT_ACTIVE);
    for (uint32_t k = 0; k < 2000; k++) measure(change, 9, k % 224, 1);

    start("visits of 10 changes and 2 hand-overs", CHART_DONE);
    prepare(begin, 0, 0, 0);
    for (uint32_t v = 2; v <= 101; v++) {
        measure(begin, 0, 0, 0);
        for (uint32_t k = 0; k < 10; k++) measure(change, v, (v + k) % 200, 250 - v);
        for (uint32_t k = 0; k < 2; k++) measure(hand_over, v, v - 1, (v + k) % 200);
        measure(commit, v - 1, 0, 0);
    }

    long_abort("abort of 2,047 changes of one cell", 1);
    long_abort("abort of 2,047 changes of 64 cells", 64);

    start("open: empty log", CHART_DONE);
    measure_opening();

    start("open: 4,096 committed rows", CHART_DONE);
    committed();
    measure_opening();

    open_changes("open: 63 open changes of one cell", 63, 1);
    open_changes("open: 255 open changes of one cell", 255, 1);
    open_changes("open: 1,023 open changes of one cell", 1023, 1);
    open_changes("open: 2,047 open changes of one cell", 2047, 1);
    open_changes("open: 1,023 open changes of 64 cells", 1023, 64);
    open_changes("open: 2,047 open changes of 64 cells", 2047, 64);
    open_long("open: 3,072 rows, 1,024 to write", 3072);
    open_long("open: 3,840 rows, 256 to write", 3840);

    start("open: 16 visits, many hand-overs", CHART_DONE);
    for (int k = 0; k < 16; k++) prepare(begin, 0, 0, 0);
    for (uint32_t round = 1; round <= 4; round++)
        for (uint32_t v = 1; v <= 16; v++) {
            prepare(change, v, v % 4, round);
            prepare(hand_over, v, v % 16 + 1, v % 4);
        }
    prepare(force, 0, 0, 0);
    measure_opening();

    start("open: 3,840 rows, hand-overs of one cell", CHART_DONE);
    prepare(begin, 0, 0, 0);
    prepare(begin, 0, 0, 0);
    prepare(change, 1, 0, 100);
    for (uint32_t row = 3; row < 3840; row++) prepare(hand_over, 2 - row % 2, 1 + row % 2, 0);
    prepare(force, 0, 0, 0);
    measure_opening();

    start("open: 2,047 changes undone, of 64 cells", CHART_DONE);
    prepare(begin, 0, 0, 0);
    changes(2047, 64);
    prepare(abort_visit, 1, 0, 0);
    prepare(force, 0, 0, 0);
    measure_opening();

    start("commit, power fails in its force", CHART_CLOSED);
    for (uint32_t v = 1; v <= 20; v++) {
        prepare(open_with, CHART_NO_FUSE, 0, 0);
        prepare(open_with, 1 + 32, 0, 0);
        prepare(begin, 0, 0, 0);
        for (uint32_t k = 0; k < 63; k++) prepare(change, v, k, 5);
        measure(commit, v, 0, 0);
    }

    start("open: power fails in its undo rows", CHART_CLOSED);
    prepare(begin, 0, 0, 0);
    changes(2047, 64);
    prepare(force, 0, 0, 0);
    for (int k = 0; k < 3; k++) measure(open_with, 600, 0, 0);

    rejected("open: rejected for its last row", CHART_WRONG_BYTES, stored_log + 65535, 1);
    rejected("open: rejected for a rule in its last row", CHART_BREAKS_RULE, stored_log + 65521, 97);
    rejected("open: rejected for its last page", CHART_BAD_PAGE, stored_charts + 31 * 32 + 2, 1);

    start("a page alone: 4,096 committed rows", CHART_DONE);
    committed();
    for (uint32_t p = 0; p < 32; p++) {
        memcpy(page, stored_charts + 32 * p, sizeof page);
        measure(redo_page, p, 0, 0);
    }
}

/* ---- Calls about the goal ---- */

/* The end of a visit with so many changes, each of another cell, whose rows wait. */
static void ends_changes(const char *name, call *end, uint32_t count) {
    start(name, CHART_DONE);
    prepare(begin, 0, 0, 0);
    for (uint32_t k = 0; k < count; k++) prepare(change, 1, k, 5);
    measure(end, 1, 0, 0);
}

static void calls_about_goal(void) {
    ends_changes("commit of 5 changes", commit, 5);
    ends_changes("commit of 10 changes", commit, 10);
    ends_changes("abort of 2 changes", abort_visit, 2);
    ends_changes("abort of 10 changes", abort_visit, 10);
    ends_changes("begin, 20 rows wait", begin, 20);
    ends_changes("force of 30 rows", force, 30);
    ends_changes("flush, 30 rows wait", flush, 30); /* of page 1: 14 of them go */
}

/* ---- Calls and openings at the limits ---- */

/* Of 64 cells, two on each page: so that the forward part of an opening has to go over the log for all 32 pages. */
static uint32_t spread(uint32_t k) { return CHART_CELLS_PER_PAGE * (k / 2) + k % 2; }

/* 64 scopes, all made and held by the last of the active visits; one change of each, and these rows wait. */
static void start_full(const char *name, uint32_t visits) {
    start(name, CHART_DONE);
    for (uint32_t v = 1; v <= visits; v++) prepare(begin, 0, 0, 0);
    for (uint32_t k = 0; k < 64; k++) prepare(change, visits, spread(k), 5);
}

static void calls_at_limits(void) {
    static const char *const waits[2] = {", 64 scopes, 64 rows wait", ", 64 scopes, no row waits"};
    for (int forced = 0; forced < 2; forced++) {
        static const struct {
            const char *name;
            call *make;
            uint32_t visits, a, b, c;
        } made[] = {
            {"begin", begin, 15, 0, 0, 0},
            {"change", change, 16, 16, 218, 5},
            {"hand over", hand_over, 16, 16, 15, 218},
            {"hand over of a whole visit", hand_over_all, 16, 16, 15, 0},
            {"commit", commit, 16, 16, 0, 0},
            {"abort of no change", abort_visit, 16, 1, 0, 0},
            {"flush", flush, 16, 31, 0, 0},
        };
        for (size_t k = 0; k < sizeof made / sizeof *made; k++) {
            static char name[80];
            snprintf(name, sizeof name, "%s%s", made[k].name, waits[forced]);
            start_full(name, made[k].visits);
            if (forced) prepare(force, 0, 0, 0);
            measure(made[k].make, made[k].a, made[k].b, made[k].c);
        }
    }
}

/* Sixteen visits change 64 cells in turn; where `undone`, an opening has undone the changes before the one that is measured. */
static void sixteen_visits(const char *name, uint32_t count, int undone) {
    start(name, CHART_DONE);
    for (int k = 0; k < 16; k++) prepare(begin, 0, 0, 0);
    for (uint32_t k = 0; k < count; k++) prepare(change, 1 + k % 16, spread(k % 64), 100);
    prepare(force, 0, 0, 0);
    if (undone) prepare(open_with, CHART_NO_FUSE, 0, 0);
    measure_opening();
}

/* A full log in which 64 scopes last nearly from its first row to its last: two changes of each but one, and hand-overs between them. To find the change before
 * an undone one, the check of the log goes over all hand-overs for each scope. */
static void wide_scopes(const char *name) {
    start(name, CHART_DONE);
    for (int k = 0; k < 16; k++) prepare(begin, 0, 0, 0);
    for (int round = 0; round < 2; round++) {
        for (uint32_t k = 0; k < 49; k++) prepare(change, 16, spread(k), 100);
        for (uint32_t v = 1; v <= 14; v++) prepare(change, v, 223, 100);
        if (round == 1) break;
        prepare(change, 15, 223, 100);
        for (uint32_t rows = 0; rows < CHART_ROWS - 2 * (16 + 2 * 63 + 1); rows++) prepare(hand_over, 15 + rows % 2, 16 - rows % 2, 223);
    }
    prepare(force, 0, 0, 0);
    prepare(open_with, CHART_NO_FUSE, 0, 0);
    measure_opening();
}

static void openings_at_limits(void) {
    sixteen_visits("open: 2,032 open changes of 16 visits and 64 cells", 2032, 0);
    sixteen_visits("open: 2,032 changes undone, of 16 visits and 64 cells", 2032, 1);
    wide_scopes("open: 127 changes undone, 3,810 hand-overs between them");
}

/* ---- Opening time over rows: series/rows of the log ---- */

static void series(void) {
    static char name[80];
    for (uint32_t rows = 0; rows <= CHART_ROWS; rows += 256) {
        snprintf(name, sizeof name, "series/committed changes/%lu", (unsigned long)rows);
        start(name, CHART_DONE);
        for (uint32_t v = 1, written = 0; written < rows; v++) {
            uint32_t count = written + 128 <= CHART_ROWS ? 62 : 0; /* the last rows of a full log are of visits without changes, which need no room to be undone */
            prepare(begin, 0, 0, 0);
            for (uint32_t k = 0; k < count; k++) prepare(change, v, spread(k), 11);
            prepare(commit, v, 0, 0);
            written += 2 + count;
        }
        measure_opening();
    }
    for (uint32_t rows = 256; rows <= 2048; rows += 256) {
        snprintf(name, sizeof name, "series/open changes, one cell/%lu", (unsigned long)rows);
        open_changes(name, rows - 1, 1);
        snprintf(name, sizeof name, "series/open changes, 16 visits, 64 cells/%lu", (unsigned long)rows);
        sixteen_visits(name, rows - 16, 0);
        snprintf(name, sizeof name, "series/undone changes, 16 visits, 64 cells/%lu", (unsigned long)(2 * rows));
        sixteen_visits(name, rows - 16, 1);
    }
    wide_scopes("series/undone changes, hand-overs between/4096");
}

int main(void) {
    mark_memory(stored_log, stored_charts);
    printf("%lu\n", (unsigned long)sizeof ram);
    workload = "nothing";
    measure(nothing, 0, 0, 0);
    of_bench();
    calls_about_goal();
    calls_at_limits();
    openings_at_limits();
    series();
    return 0;
}
