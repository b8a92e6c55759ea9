/*
 * The chart store from C: a day at the scale, with a power failure in it. Each answer is printed and checked, and what each session has stored; the program
 * returns 1 if any of them differs.
 */
#include <stdio.h>
#include <string.h>

#include "chart_store.h"

/* In firmware these two lie in the memory that keeps its bytes, which has to store a row or a page whole or not at all (the header says how). */
static uint8_t stored_log[CHART_LOG_LENGTH];
static uint8_t stored_charts[CHART_CHARTS_LENGTH];

static chart_ram ram;

/* What every call is lent. */
static const chart_store store = {&ram, stored_log, sizeof stored_log, stored_charts, sizeof stored_charts};

static int failures = 0;

/* All that the store is lent, as the last call left it. */
static chart_ram ram_before;
static uint8_t log_before[CHART_LOG_LENGTH], charts_before[CHART_CHARTS_LENGTH];

static void remember(void) {
    ram_before = ram;
    memcpy(log_before, stored_log, sizeof log_before);
    memcpy(charts_before, stored_charts, sizeof charts_before);
}

/* The sums of the counts of a session: an opening and the calls after it. */
static unsigned rows_stored, pages_stored;

static void expect(const char *what, chart_answer a, int number, int32_t value) {
    int same = chart_number(a) == number && chart_value(a) == value;
    printf("%-40s %2d %6d %4u %5u  %s%s\n", what, chart_number(a), (int)chart_value(a), chart_rows(a), chart_pages(a), chart_text(chart_number(a)),
           same ? "" : "   <- not as expected");
    failures += !same;
    rows_stored += chart_rows(a);
    pages_stored += chart_pages(a);
    remember();
}

/* The session ends, and its calls have stored so many rows and pages. */
static void expect_stored(unsigned rows, unsigned pages) {
    int same = rows_stored == rows && pages_stored == pages;
    printf("%-50s %4u %5u%s\n", "  the session has stored", rows_stored, pages_stored, same ? "" : "   <- not as expected");
    failures += !same;
    rows_stored = pages_stored = 0;
}

/* The answer is as expected and counts no stored write, and no byte of RAM, log and charts has changed since the last call. */
static void expect_unchanged(const char *what, chart_answer a, int number, int32_t value) {
    int changed = memcmp(&ram_before, &ram, sizeof ram) != 0 || memcmp(log_before, stored_log, sizeof log_before) != 0 ||
                  memcmp(charts_before, stored_charts, sizeof charts_before) != 0;
    expect(what, a, number, value);
    if (changed || chart_rows(a) != 0 || chart_pages(a) != 0) {
        puts("   <- a byte has changed, or a stored write is counted");
        failures++;
    }
}

/* An opening that rejects the log, whatever was in RAM: it leaves log and charts as they were, sets no byte of RAM and counts no stored write. Service staff
 * read the hint. */
static void expect_rejected(const char *what, const chart_store *s, int number, int32_t value) {
    static const chart_ram zero = {{0}, {0}, {0}, {0}, {0}};
    memset(&ram, 0xA5, sizeof ram);
    remember();
    chart_answer a = chart_open(s, CHART_NO_FUSE);
    int changed = memcmp(log_before, stored_log, sizeof log_before) != 0 || memcmp(charts_before, stored_charts, sizeof charts_before) != 0;
    expect(what, a, number, value);
    const char *hint = chart_service_hint(chart_number(a));
    printf("  %s\n", hint);
    if (changed || memcmp(&ram, &zero, sizeof ram) != 0 || chart_rows(a) != 0 || chart_pages(a) != 0 || *hint == '\0') {
        puts("   <- log or charts have changed, a byte of RAM is set, a stored write is counted, or there is no hint");
        failures++;
    }
}

/* A page alone, by the stored log. */
static chart_answer redo(uint8_t *page, uint64_t length, uint8_t number) {
    return chart_redo_page(stored_log, sizeof stored_log, page, length, number);
}

int main(void) {
    int32_t cells[CHART_CELLS] = {0};
    const chart_store *s = &store;
    chart_store short_log = store, no_charts = store;
    uint8_t page[CHART_PAGE_LENGTH];
    uint8_t *const stored_page = stored_charts + CHART_PAGE_LENGTH;
    static const chart_ram zero = {{0}, {0}, {0}, {0}, {0}};
    cells[7] = 70000;

    puts("call                                 number  value rows pages");
    expect("format, cell 7 at 70,000 g", chart_format(s, cells, CHART_CELLS), CHART_DONE, 0);
    expect_unchanged("begin before any opening", chart_begin(s), CHART_CLOSED, 0);
    expect("open, no fuse", chart_open(s, CHART_NO_FUSE), CHART_DONE, 0);

    expect("begin: the person's visit", chart_begin(s), CHART_DONE, 1);
    expect("begin: the dietitian's visit", chart_begin(s), CHART_DONE, 2);
    expect("visit 1 weighs 350 g less in cell 7", chart_change(s, 1, 7, -350), CHART_DONE, 3);
    expect("read cell 7", chart_read(s, 7), CHART_DONE, 69650);
    expect("visit 1 hands cell 7 over to visit 2", chart_hand_over(s, 1, 2, 7), CHART_DONE, 4);
    expect("visit 1 adds 90 g to cell 8", chart_change(s, 1, 8, 90), CHART_DONE, 5);
    expect("visit 2 commits: cell 7 lasts", chart_commit(s, 2), CHART_DONE, 6);
    /* Page 1 alone, as an opening would have it before it undoes cell 8: the page that the flush then stores. */
    memcpy(page, stored_page, sizeof page);
    expect_unchanged("redo page 1 alone", redo(page, sizeof page, 1), CHART_DONE, 0);
    expect_unchanged("once more: no row is above its mark", redo(page, sizeof page, 1), CHART_DONE, 0);
    expect_unchanged("redo page 32", redo(page, sizeof page, CHART_PAGES), CHART_NO_SUCH_PAGE, 0);
    expect_unchanged("redo a page one byte short", redo(page, sizeof page - 1, 1), CHART_WRONG_LENGTH, 0);
    expect("flush the page of cell 8", chart_flush(s, 8 / CHART_CELLS_PER_PAGE), CHART_DONE, 0);
    if (memcmp(page, stored_page, sizeof page) != 0) {
        puts("   <- the page redone alone is not the page that was stored");
        failures++;
    }
    expect_stored(6, 1); /* each begin stored its row, the commit rows 3 to 6, the flush its page: the rows of the page were stored */

    /* The plug is pulled: RAM is lost, log and charts stay as they are. */
    memset(&ram, 0xA5, sizeof ram);
    expect("open: cell 8 undone, visit 1 ended", chart_open(s, CHART_NO_FUSE), CHART_DONE, 2);
    expect("read cell 7", chart_read(s, 7), CHART_DONE, 69650);
    expect("read cell 8", chart_read(s, 8), CHART_DONE, 0);
    expect_stored(2, 0); /* an undo row and an abort row */

    /* The plug is pulled in the middle of a commit: of the change's row and its own only the first lands. */
    expect("open, two writes land", chart_open(s, 2), CHART_DONE, 0);
    expect("begin", chart_begin(s), CHART_DONE, 3);
    expect("visit 3 weighs 120 g more in cell 7", chart_change(s, 3, 7, 120), CHART_DONE, 10);
    expect("visit 3 commits: the power fails", chart_commit(s, 3), CHART_CLOSED, 0);
    if (memcmp(&ram, &zero, sizeof ram) != 0) {
        puts("   <- the power failure left something in RAM");
        failures++;
    }
    expect_unchanged("read cell 7: closed", chart_read(s, 7), CHART_CLOSED, 0);
    ram.head[1] = 7;
    ram.copy[0] = 1;
    remember();
    expect_unchanged("begin: closed, whatever RAM holds", chart_begin(s), CHART_CLOSED, 0);
    expect_stored(2, 0); /* the writes of the fuse: the row of the begin, and in the commit that of the change */
    expect("open: the weighing is undone", chart_open(s, CHART_NO_FUSE), CHART_DONE, 2);
    expect("read cell 7", chart_read(s, 7), CHART_DONE, 69650);

    /* Refusals change nothing. */
    expect_unchanged("change by a visit that ended", chart_change(s, 3, 7, 1), CHART_NOT_ACTIVE, 0);
    expect_unchanged("visit 259 is not visit 3", chart_abort(s, 259), CHART_NOT_ACTIVE, 0);
    expect_unchanged("flush page 32", chart_flush(s, CHART_PAGES), CHART_NO_SUCH_PAGE, 0);
    expect_unchanged("read cell 224", chart_read(s, CHART_CELLS), CHART_NO_SUCH_CELL, 0);
    short_log.log_length -= CHART_ROW_LENGTH;
    no_charts.charts_length = 0;
    expect_unchanged("a log one row short", chart_force(&short_log), CHART_WRONG_LENGTH, 0);
    expect_unchanged("no charts", chart_open(&no_charts, CHART_NO_FUSE), CHART_WRONG_LENGTH, 0);
    cells[5] = CHART_FORMAT_GRAMS + 1;
    expect_unchanged("format, cell 5 out of range", chart_format(s, cells, CHART_CELLS), CHART_OUT_OF_RANGE, 5);
    expect("force", chart_force(s), CHART_DONE, 0);
    expect("begin: its number goes on a slip", chart_begin(s), CHART_DONE, 4);
    expect_stored(3, 0); /* an undo row and an abort row, and the row of the begin; no row waited for the force */

    /* The plug is pulled again: the number on the slip is not given to another visit. */
    memset(&ram, 0xA5, sizeof ram);
    expect("open: visit 4 ended", chart_open(s, CHART_NO_FUSE), CHART_DONE, 1);

    /* A change of shift: all that a visit holds goes over to another, in one row. */
    expect("begin: the dietitian's visit", chart_begin(s), CHART_DONE, 5);
    expect("begin: her colleague's visit", chart_begin(s), CHART_DONE, 6);
    expect("visit 5 adds 500 g to cell 7", chart_change(s, 5, 7, 500), CHART_DONE, 17);
    expect("visit 5 adds 60 g to cell 8", chart_change(s, 5, 8, 60), CHART_DONE, 18);
    expect("visit 5 hands all over to visit 6", chart_hand_over_all(s, 5, 6), CHART_DONE, 19);
    expect_unchanged("once more: it holds nothing", chart_hand_over_all(s, 5, 6), CHART_HOLDS_NONE, 0);
    expect("visit 5 aborts: it has nothing to undo", chart_abort(s, 5), CHART_DONE, 20);
    expect("visit 6 commits: both cells last", chart_commit(s, 6), CHART_DONE, 21);
    expect("read cell 7", chart_read(s, 7), CHART_DONE, 70150);
    expect("read cell 8", chart_read(s, 8), CHART_DONE, 60);

    /* A busy clinic: visit 257 has a high byte, in byte 10 of its rows. */
    for (uint16_t visit = 7; visit <= 256; visit++) {
        chart_answer begun = chart_begin(s), ended = chart_commit(s, visit);
        if (chart_value(begun) != visit || chart_number(ended) != CHART_DONE) {
            puts("   <- one of 250 visits did not begin and commit");
            failures++;
        }
        rows_stored += chart_rows(begun) + chart_rows(ended);
    }
    expect("250 visits later, begin", chart_begin(s), CHART_DONE, 257);
    expect("visit 257 commits", chart_commit(s, 257), CHART_DONE, 523);
    if (stored_log[CHART_ROW_LENGTH * 521 + 1] != 1 || stored_log[CHART_ROW_LENGTH * 521 + 10] != 1) {
        puts("   <- row 522 has not the two bytes of visit 257");
        failures++;
    }
    expect_stored(510, 0); /* the abort row of visit 4, each begin's row, rows 17 to 21 by the commit of visit 6, and two rows for each of the later visits */

    /* Rejected logs, each for another reason. Row 3 is a change by visit 1. */
    stored_log[CHART_ROW_LENGTH * 2 + 1] = 0;
    expect_rejected("open: row 3 is by visit 0", s, CHART_BREAKS_RULE, 3);
    stored_log[CHART_ROW_LENGTH * 2 + 2] = 1;
    expect_rejected("open: it has a receiver as well", s, CHART_WRONG_BYTES, 3);
    memset(stored_log, 0, sizeof stored_log);
    for (uint8_t visit = 1; visit <= CHART_ACTIVE_VISITS + 1; visit++) {
        uint8_t *row = stored_log + CHART_ROW_LENGTH * (visit - 1);
        row[0] = 1; /* begin */
        row[1] = visit;
        row[4] = visit; /* the row's own number */
    }
    expect_rejected("open: row 17 begins a 17th visit", s, CHART_OVER_LIMIT, 17);

    puts(failures == 0 ? "all as expected" : "NOT all as expected");
    return failures != 0;
}
