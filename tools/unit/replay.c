/*
 * Pseudo-random calls, the same on every machine: good and bad arguments, visits above 255, fuses, RAM that is lost, altered or full of garbage, damaged logs and
 * charts, wrong lengths, and every buffer at an address with no more alignment than its type asks for. After every call a hash takes in the answer and every byte
 * of the buffers and of the guards between them; it is printed after each STEP calls and after the last. Two machines that print the same have answered and left
 * the same.
 *
 * At the end stands how often each call gave which answer. The program returns 1 if a guard was written to, if a call gave an answer that the header does not
 * list for it, and, from CALLS_FOR_ALL calls on, if one that it lists was not met.
 */
#include <stdio.h>
#include <string.h>

#include "chart_store.h"

#define CALLS_FOR_ALL 20000
#ifndef CALLS
#define CALLS CALLS_FOR_ALL
#endif
#ifndef SEED
#define SEED 1
#endif
#ifndef STEP
#define STEP 1000
#endif

/* ---- Chance ---- */

static uint64_t chance = 0x9E3779B97F4A7C15u * (SEED + 1u);

static uint32_t any(void) { /* xorshift, Marsaglia 2003 */
    chance ^= chance << 13;
    chance ^= chance >> 7;
    chance ^= chance << 17;
    return (uint32_t)(chance >> 32);
}
/* No expression has two of these, whose order C would leave to the compiler. */
static uint32_t below(uint32_t n) { return any() % n; }
static int one_in(uint32_t n) { return below(n) == 0; }

/* ---- The memory: nine buffers, and guards before, between and behind them ---- */

enum { HEAD, VISITS, SCOPES, TAIL, COPY, LOG, CHARTS, CELLS, PAGE, BUFFERS };
static const struct {
    uint32_t length, alignment; /* in bytes; the alignment is that of the type in the header */
} buffers[BUFFERS] = {
    [HEAD] = {sizeof((chart_ram *)0)->head, 4},     [VISITS] = {sizeof((chart_ram *)0)->visits, 2}, [SCOPES] = {sizeof((chart_ram *)0)->scopes, 2},
    [TAIL] = {sizeof((chart_ram *)0)->tail, 1},     [COPY] = {sizeof((chart_ram *)0)->copy, 1},     [LOG] = {CHART_LOG_LENGTH, 1},
    [CHARTS] = {CHART_CHARTS_LENGTH, 1},            [CELLS] = {4 * CHART_CELLS, 4},                 [PAGE] = {CHART_PAGE_LENGTH, 1},
};
#define GUARD 16u /* bytes of a guard at least */
#define SLACK 16u /* addresses that a buffer may be at, before its alignment */
#define MEMORY (sizeof(chart_ram) + CHART_LOG_LENGTH + CHART_CHARTS_LENGTH + 4 * CHART_CELLS + CHART_PAGE_LENGTH + (BUFFERS + 1) * (GUARD + SLACK))
static union {
    uint8_t bytes[MEMORY];
    uint32_t words[MEMORY / 4];
} memory __attribute__((aligned(32)));
static uint32_t at[BUFFERS + 1]; /* where each buffer begins; behind the last is the end of the memory */

#define NUMBERS(type, buffer) ((type *)(void *)(memory.bytes + at[buffer]))
#define BYTES(buffer) (memory.bytes + at[buffer])

static uint8_t guard_byte(uint32_t place) { return (uint8_t)(place * 167u + 89u); }

/* Calls `each` with every byte of the guards; gives how many of these calls gave something other than 0. */
static uint32_t over_guards(int (*each)(uint32_t place)) {
    uint32_t place = 0, count = 0;
    for (int b = 0; b <= BUFFERS; b++) {
        for (; place < at[b]; place++) count += each(place) != 0;
        if (b < BUFFERS) place += buffers[b].length;
    }
    return count;
}
static int set_guard(uint32_t place) { return memory.bytes[place] = guard_byte(place), 0; }
static int guard_differs(uint32_t place) { return memory.bytes[place] != guard_byte(place); }

static void scatter(uint8_t *bytes, uint32_t length) {
    for (uint32_t k = 0; k < length; k++) bytes[k] = (uint8_t)any();
}

static uint8_t log_kept[CHART_LOG_LENGTH], charts_kept[CHART_CHARTS_LENGTH];
static void keep_stored(void) {
    memcpy(log_kept, BYTES(LOG), sizeof log_kept);
    memcpy(charts_kept, BYTES(CHARTS), sizeof charts_kept);
}
static void restore_stored(void) {
    memcpy(BYTES(LOG), log_kept, sizeof log_kept);
    memcpy(BYTES(CHARTS), charts_kept, sizeof charts_kept);
}

/* Every buffer moves; log and charts take their bytes along, and RAM is lost. */
static void place_buffers(void) {
    uint32_t place = 0;
    keep_stored();
    for (int b = 0; b < BUFFERS; b++) {
        place += GUARD + below(SLACK);
        at[b] = place += (0u - place) % buffers[b].alignment;
        place += buffers[b].length;
    }
    at[BUFFERS] = MEMORY;
    over_guards(set_guard);
    for (int b = 0; b < BUFFERS; b++) scatter(BYTES(b), buffers[b].length);
    restore_stored();
}

/* ---- The hash ---- */

/* Two numbers of 32 bits. A word changes the pair by a bijection, and different words change it differently: so one difference cannot vanish. That several cancel
 * out takes a coincidence in 64 bits, which are mixed at each word. */
static uint32_t hash[2] = {1, 2};

static uint32_t turned(uint32_t x, int left) { return x << left | x >> (32 - left); }

static void take(const uint32_t *words, uint32_t count) {
    uint32_t a = hash[0], b = hash[1];
    for (uint32_t k = 0; k < count; k++) {
        a = turned(a ^ words[k], 15) * 0xCC9E2D51u;
        b = turned(b ^ a, 13) * 0x1B873593u + 1u;
    }
    hash[0] = a;
    hash[1] = b;
}

/* ---- Damage ---- */

static void set_byte(uint8_t *bytes, uint32_t length) {
    uint8_t *byte = bytes + below(length);
    *byte = (uint8_t)any();
}
static void flip(uint8_t *bytes, uint32_t length) {
    uint32_t bit = below(8 * length);
    bytes[bit / 8] ^= (uint8_t)(1u << bit % 8);
}

/* A cell of the charts becomes the highest or the lowest that an opening takes, or the one beyond it. */
static void cell_at_bound(void) {
    uint32_t page = below(CHART_PAGES), place = below(CHART_CELLS_PER_PAGE), grams = CHART_STORED_GRAMS + below(2);
    uint8_t *cell = BYTES(CHARTS) + CHART_PAGE_LENGTH * page + 4 + 4 * place;
    if (one_in(2)) grams = 0u - grams;
    for (int k = 0; k < 4; k++) cell[k] = (uint8_t)(grams >> 8 * k);
}

struct row {
    uint8_t kind;
    uint16_t visit, receiver;
    uint8_t cell;
    uint16_t undone, grams;
};
enum { BEGINS = 1, CHANGES, HANDS_OVER, UNDOES, COMMITS, ABORTS, HANDS_ALL_OVER };

static void put_row(uint32_t number, struct row row) {
    const uint8_t bytes[CHART_ROW_LENGTH] = {row.kind,
                                             (uint8_t)row.visit,
                                             (uint8_t)row.receiver,
                                             row.cell,
                                             (uint8_t)number,
                                             (uint8_t)(number >> 8),
                                             (uint8_t)row.undone,
                                             (uint8_t)(row.undone >> 8),
                                             (uint8_t)row.grams,
                                             (uint8_t)(row.grams >> 8),
                                             (uint8_t)(row.visit >> 8),
                                             (uint8_t)(row.receiver >> 8)};
    memcpy(BYTES(LOG) + CHART_ROW_LENGTH * (number - 1), bytes, sizeof bytes);
}

/* A log of other firmware, which may have gone beyond a limit: begins; one visit with many changes; or committed visits, with numbers above 255, up to a full log. */
static void foreign_log(void) {
    uint32_t rows = 0, count;
    memset(BYTES(LOG), 0, CHART_LOG_LENGTH);
    memset(BYTES(CHARTS), 0, CHART_CHARTS_LENGTH);
    switch (below(3)) {
    case 0:
        for (count = 1 + below(18); rows < count;) rows++, put_row(rows, (struct row){BEGINS, .visit = (uint16_t)rows});
        break;
    case 1: {
        uint8_t cells = (uint8_t)(one_in(3) ? 60 + below(6) : 1 + below(60));
        put_row(++rows, (struct row){BEGINS, .visit = 1});
        for (count = one_in(4) ? 2040 + below(16) : 1 + below(200); rows < count;)
            rows++, put_row(rows, (struct row){CHANGES, .visit = 1, .cell = (uint8_t)(rows % cells), .grams = (uint16_t)any()});
        break;
    }
    default:
        for (count = one_in(2) ? 2010 + below(39) : below(400); rows < 2 * count;) {
            uint16_t visit = (uint16_t)(rows / 2 + 1);
            put_row(++rows, (struct row){BEGINS, .visit = visit});
            put_row(++rows, (struct row){COMMITS, .visit = visit});
        }
    }
}

/* An allowed log with a row of every kind, of which two rows are then exchanged, or a byte is set. */
static void damaged_log_of_every_kind(void) {
    struct row rows[] = {
        {BEGINS, .visit = 1},
        {BEGINS, .visit = 2},
        {CHANGES, .visit = 1, .cell = 3, .grams = 500},
        {HANDS_OVER, .visit = 1, .receiver = 2, .cell = 3},
        {CHANGES, .visit = 1, .cell = 5, .grams = 0xFF00},
        {HANDS_ALL_OVER, .visit = 1, .receiver = 2},
        {BEGINS, .visit = 3},
        {CHANGES, .visit = 3, .cell = 200, .grams = 1},
        {COMMITS, .visit = 3},
        {UNDOES, .visit = 2, .cell = 5, .undone = 5, .grams = 0xFF00},
        {UNDOES, .visit = 2, .cell = 3, .undone = 3, .grams = 500},
        {ABORTS, .visit = 2},
        {CHANGES, .visit = 1, .cell = 7, .grams = 9},
    };
    const uint32_t count = sizeof rows / sizeof *rows;
    uint32_t one = below(count), other = below(count), how = below(3);
    if (how == 0) {
        struct row row = rows[one];
        rows[one] = rows[other];
        rows[other] = row;
    }
    memset(BYTES(LOG), 0, CHART_LOG_LENGTH);
    memset(BYTES(CHARTS), 0, CHART_CHARTS_LENGTH);
    for (uint32_t k = 0; k < count; k++) put_row(k + 1, rows[k]);
    if (how == 1) BYTES(LOG)[CHART_ROW_LENGTH * one] = (uint8_t)below(9); /* another kind */
    if (how == 2) set_byte(BYTES(LOG), CHART_ROW_LENGTH * (count + 1));
}

static uint32_t rows_in_log(void) {
    uint32_t rows = 0;
    while (rows < CHART_ROWS && BYTES(LOG)[CHART_ROW_LENGTH * rows] != 0) rows++;
    return rows;
}

/* Garbage with counters at or about the limits of those of an open store, and small numbers in the tables, so that visits, cells and rows are found in them. */
static void plausible_garbage(void) {
    uint32_t *head = NUMBERS(uint32_t, HEAD);
    for (int b = HEAD; b <= COPY; b++) scatter(BYTES(b), buffers[b].length);
    head[1] = below(2);
    head[3] = one_in(2) ? below(CHART_ROWS) : CHART_ROWS - CHART_ROWS_WAITING + below(2 * CHART_ROWS_WAITING);
    head[4] = below(CHART_ROWS_WAITING + 2);
    head[6] = below(CHART_ACTIVE_VISITS + 2);
    head[7] = below(CHART_SCOPES + 2);
    for (uint32_t k = 0; k < 2 * CHART_ACTIVE_VISITS; k++) NUMBERS(uint16_t, VISITS)[k] = (uint16_t)below(6);
    for (uint32_t k = 0; k < 7 * CHART_SCOPES; k++) NUMBERS(uint16_t, SCOPES)[k] = (uint16_t)below(one_in(6) ? CHART_ROWS + 2 : 6);
}

/* ---- The calls ---- */

enum { FORMAT, OPEN, BEGIN, CHANGE, HAND_OVER, HAND_OVER_ALL, COMMIT, ABORT, FORCE, FLUSH, READ, REDO_PAGE, KINDS };
#define NUMBERS_OF_ANSWERS 18 /* 0 to 17 */
#define END_OF_ANSWERS 255
static const struct {
    const char *name;
    uint8_t often;      /* of the calls of an open store */
    uint8_t answers[9]; /* those that the header lists for the call */
} calls[KINDS] = {
    [FORMAT] = {"format", 0, {0, 1, 2, END_OF_ANSWERS}},
    [OPEN] = {"open", 8, {0, 1, 3, 4, 5, 16, 17, END_OF_ANSWERS}},
    [BEGIN] = {"begin", 6, {0, 1, 5, 6, 7, 8, END_OF_ANSWERS}},
    [CHANGE] = {"change", 30, {0, 1, 5, 8, 9, 10, 11, END_OF_ANSWERS}},
    [HAND_OVER] = {"hand over", 8, {0, 1, 5, 8, 9, 10, 12, 13, END_OF_ANSWERS}},
    [HAND_OVER_ALL] = {"hand over all", 7, {0, 1, 5, 8, 9, 12, 13, END_OF_ANSWERS}},
    [COMMIT] = {"commit", 5, {0, 1, 5, 9, END_OF_ANSWERS}},
    [ABORT] = {"abort", 6, {0, 1, 5, 9, END_OF_ANSWERS}},
    [FORCE] = {"force", 3, {0, 1, 5, END_OF_ANSWERS}},
    [FLUSH] = {"flush", 4, {0, 1, 5, 14, END_OF_ANSWERS}},
    [READ] = {"read", 3, {0, 1, 5, 10, END_OF_ANSWERS}},
    [REDO_PAGE] = {"redo page", 3, {0, 1, 14, END_OF_ANSWERS}},
};

static int is_listed(int call, int number) {
    const uint8_t *answers = calls[call].answers;
    while (*answers != END_OF_ANSWERS && *answers != number) answers++;
    return *answers == number;
}

/* At times visits, scopes and rows are to add up: then sessions and visits seldom end, the power holds, and nothing happens to RAM. */
static int calm = 0;

static uint64_t log_length, charts_length, cells_length, page_length;

/* Of a length: 32 bits cannot tell the first of these from the right one. */
static uint64_t another_length(uint64_t length) {
    uint64_t high = any(), low = any();
    switch (below(4)) {
    case 0: return length + ((1 + high) << 32);
    case 1: return high << 32 | low;
    case 2: return length - 1 + 2 * below(2);
    default: return 0;
    }
}

static void choose_lengths(void) {
    log_length = CHART_LOG_LENGTH;
    charts_length = CHART_CHARTS_LENGTH;
    cells_length = CHART_CELLS;
    page_length = CHART_PAGE_LENGTH;
    if (one_in(60)) log_length = another_length(log_length);
    if (one_in(60)) charts_length = another_length(charts_length);
    if (one_in(20)) cells_length = another_length(cells_length);
    if (one_in(20)) page_length = another_length(page_length);
}

/* Active visits by the table in RAM mostly, else one near the newest or any. */
static uint16_t a_visit(void) {
    const uint32_t *head = NUMBERS(uint32_t, HEAD);
    if (one_in(30)) return (uint16_t)any();
    if (one_in(20) || head[6] - 1 >= CHART_ACTIVE_VISITS) return (uint16_t)(head[5] + 1 - below(3));
    return NUMBERS(uint16_t, VISITS)[2 * below(head[6])];
}
static uint8_t a_cell(void) { return (uint8_t)(one_in(20) ? CHART_CELLS - 8 + below(40) : one_in(2) ? below(CHART_CELLS) : below(9)); }
static uint8_t a_page(void) { return (uint8_t)(one_in(20) ? any() : one_in(20) ? CHART_PAGES - 1 + below(3) : below(CHART_PAGES)); }

#define ARRAYS                                                                                                                                           \
    NUMBERS(uint32_t, HEAD), NUMBERS(uint16_t, VISITS), NUMBERS(uint16_t, SCOPES), BYTES(TAIL), BYTES(COPY), BYTES(LOG), log_length, BYTES(CHARTS),       \
        charts_length

/* The functions over the arrays themselves, so that each array has an address of its own. */
static chart_answer make(int call) {
    uint16_t visit = a_visit(), receiver = a_visit();
    uint8_t cell = a_cell(), page = a_page();
    uint32_t scopes_in_use = NUMBERS(uint32_t, HEAD)[7];
    if (call == HAND_OVER && scopes_in_use - 1 < CHART_SCOPES && !one_in(3)) { /* of a scope in use, by its holder */
        const uint16_t *scope = NUMBERS(uint16_t, SCOPES) + 7 * below(scopes_in_use);
        visit = scope[1];
        cell = (uint8_t)scope[2];
    }
    switch (call) {
    case FORMAT: {
        int32_t *cells = NUMBERS(int32_t, CELLS);
        for (uint32_t k = 0; k < CHART_CELLS; k++) cells[k] = (int32_t)below(2 * CHART_FORMAT_GRAMS + 1) - CHART_FORMAT_GRAMS;
        if (one_in(4)) {
            int32_t *odd_cell = cells + below(CHART_CELLS);
            int32_t beside = (int32_t)below(3);
            *odd_cell = one_in(4) ? (int32_t)any() : one_in(2) ? CHART_FORMAT_GRAMS + beside : beside - CHART_FORMAT_GRAMS - 2;
        }
        return chart_format_on(ARRAYS, cells, cells_length);
    }
    case OPEN: return chart_open_on(ARRAYS, one_in(2) || calm ? CHART_NO_FUSE : one_in(8) ? any() : below(one_in(2) ? 10 : 200));
    case BEGIN: return chart_begin_on(ARRAYS);
    case CHANGE: return chart_change_on(ARRAYS, visit, cell, (int16_t)any());
    case HAND_OVER: return chart_hand_over_on(ARRAYS, visit, receiver, cell);
    case HAND_OVER_ALL: return chart_hand_over_all_on(ARRAYS, visit, receiver);
    case COMMIT: return chart_commit_on(ARRAYS, visit);
    case ABORT: return chart_abort_on(ARRAYS, visit);
    case FORCE: return chart_force_on(ARRAYS);
    case FLUSH: return chart_flush_on(ARRAYS, page);
    case READ: return chart_read_on(ARRAYS, cell);
    default:
        if (page < CHART_PAGES && !one_in(8)) memcpy(BYTES(PAGE), BYTES(CHARTS) + page * CHART_PAGE_LENGTH, CHART_PAGE_LENGTH);
        return chart_redo_page(BYTES(LOG), log_length, BYTES(PAGE), page_length, page);
    }
}

/* A store that was closed is opened mostly, and one that was rejected is formatted soon. An open one gets calls by their weights. */
static int choose_call(int last) {
    static uint32_t until_format = 0;
    const uint32_t *head = NUMBERS(uint32_t, HEAD);
    if (until_format == 0) {
        until_format = one_in(3) ? 300 + below(3000) : 1 + below(300);
        return FORMAT;
    }
    if (!calm || head[0] == 0) until_format--;
    if (one_in(calm ? 500 : 250)) calm = !calm;
    if (last == CHART_WRONG_BYTES || last == CHART_BREAKS_RULE || last == CHART_OVER_LIMIT) until_format %= 8;
    if ((head[0] == 0 || last == CHART_CLOSED) && !one_in(5)) return OPEN;
    if (head[6] == 0 && one_in(2)) return BEGIN;
    for (;;) {
        int call = (int)below(KINDS);
        int rare = calm && (call == OPEN || call == COMMIT || call == ABORT);
        if (below(30) < calls[call].often && !(rare && !one_in(60))) return call;
    }
}

/* Something that happens to the memory before a call. Gives 1 where log and charts are to be put back after it. */
static int disturb(int call) {
    if (!calm) {
        if (one_in(150)) place_buffers();
        if (one_in(80)) plausible_garbage();
        if (one_in(100)) {
            int b = HEAD + (int)below(COPY + 1);
            flip(BYTES(b), buffers[b].length);
        }
        if (call == BEGIN && one_in(100)) NUMBERS(uint32_t, HEAD)[5] = CHART_VISITS + (any() << 16);
    }
    if (call != OPEN && call != REDO_PAGE) return 0;
    if (call == OPEN && one_in(12)) return foreign_log(), 0;
    if (!one_in(3)) return 0;
    keep_stored();
    if (one_in(2)) return damaged_log_of_every_kind(), 1;
    uint32_t row = below(rows_in_log() + 1) % CHART_ROWS;
    switch (below(5)) {
    case 0: flip(BYTES(CHARTS), CHART_CHARTS_LENGTH); break;
    case 1: cell_at_bound(); break;
    case 2: flip(BYTES(LOG), CHART_LOG_LENGTH); break;
    case 3: flip(BYTES(LOG) + CHART_ROW_LENGTH * row, CHART_ROW_LENGTH); break;
    default: set_byte(BYTES(LOG) + CHART_ROW_LENGTH * row + 1, 1); /* the visit: the row stays well formed */
    }
    return 1;
}

int main(void) {
    static uint32_t answered[KINDS][NUMBERS_OF_ANSWERS];
    uint32_t highest_visit = 0, most_rows = 0, cut = 0;
    int failed = 0, number = CHART_CLOSED;
    place_buffers();
    for (uint32_t n = 1; n <= CALLS; n++) {
        int call = choose_call(number);
        choose_lengths();
        int put_back = disturb(call);
        chart_answer answer = make(call);
        number = chart_number(answer);
        uint32_t words[3] = {(uint32_t)call, (uint32_t)answer, (uint32_t)(answer >> 32)};
        take(words, 3);
        take(memory.words, MEMORY / 4);
        if (put_back) {
            restore_stored();
            NUMBERS(uint32_t, HEAD)[0] = 0; /* RAM is that of the damaged store: it has to be opened again */
        }
        if (n % STEP == 0 || n == CALLS) printf("%lu %08lx%08lx\n", (unsigned long)n, (unsigned long)hash[0], (unsigned long)hash[1]);

        if (over_guards(guard_differs) > 0) {
            printf("call %lu, %s, has written beyond a buffer\n", (unsigned long)n, calls[call].name);
            return 1;
        }
        if (!is_listed(call, number)) {
            printf("call %lu, %s, has answered %d\n", (unsigned long)n, calls[call].name, number);
            return 1;
        }
        answered[call][number]++;
        if (call == BEGIN && number == CHART_DONE && (uint32_t)chart_value(answer) > highest_visit) highest_visit = (uint32_t)chart_value(answer);
        if (chart_rows(answer) > most_rows) most_rows = chart_rows(answer);
        cut += number == CHART_CLOSED && chart_rows(answer) > 0;
    }
    for (int c = 0; c < KINDS; c++) {
        printf("%-14s", calls[c].name);
        for (const uint8_t *listed = calls[c].answers; *listed != END_OF_ANSWERS; listed++) {
            uint32_t times = answered[c][*listed];
            printf(" %d:%lu", *listed, (unsigned long)times);
            failed |= times == 0;
        }
        puts("");
    }
    printf("highest visit begun %lu; most rows stored by a call %lu; calls cut after a stored write %lu\n", (unsigned long)highest_visit, (unsigned long)most_rows,
           (unsigned long)cut);
    failed |= highest_visit <= 255 || most_rows <= CHART_ROWS_WAITING + 1 || cut == 0;
    if (CALLS < CALLS_FOR_ALL) return 0;
    if (failed) puts("something that the replay is to meet was not met");
    return failed;
}
