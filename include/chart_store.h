/*
 * The chart store of a body composition scale's base unit, for C.
 *
 * Visits add signed grams to cells through a write-ahead log, a visit can hand its changes of a cell, or all that it holds, over to another, and the power
 * may fail at every stored write. The library keeps nothing of its own: it has no global variable, asks for no memory, starts nothing and makes no system
 * call. All that it works on is lent to it for the time of one call, and is worked on where it lies:
 *
 *   ram     a chart_ram, 3,040 bytes. It may hold anything before chart_format or chart_open.
 *   log     CHART_LOG_LENGTH bytes that keep their contents without power: the stored log, 4,096 rows of 16 bytes.
 *   charts  CHART_CHARTS_LENGTH bytes that keep their contents without power: the stored charts, 32 pages of 32 bytes.
 *
 * A chart_store says where they are; docs/FORMAT.md has what every byte of them means.
 *
 * What the host sees to
 *
 *   - The pointers are not null, are aligned as their types ask, and point to as many bytes as their types and the lengths say.
 *   - RAM, log, charts, the cells of a format and a page lent alone do not overlap.
 *   - Two calls on the same store do not run at the same time, not even in an interrupt.
 *   - Between two calls it leaves RAM, log and charts alone. If it does not, each call still ends with an answer, but what it stores may be wrong.
 *   - The stack has room for a call: see below.
 *   - The memory of log and charts stores as is said next.
 *
 * Nothing else is asked: a log, charts, cells or a page of another length are refused (CHART_WRONG_LENGTH), and no argument and no contents of RAM, log,
 * charts and page can make a call trap, run on or write elsewhere. A refused call changes no byte, with two exceptions, which leave every byte of RAM 0.
 * One is an opening that rejects the store (CHART_WRONG_BYTES, CHART_BREAKS_RULE, CHART_OVER_LIMIT, CHART_BAD_PAGE). The other is a call or an opening that
 * closes the store (CHART_CLOSED, where the power fails or the log is full); the rows that it stored before are in the log.
 *
 * What the memory of log and charts must do
 *
 * A call other than a format writes one row (16 bytes) or one page (32 bytes) of the stored memory at a time, in the order that write-ahead logging needs. If
 * the power fails at any point between two of these writes, chart_open brings the store back: every change whose holder has a commit row in the log is there,
 * every other one is undone. That supposes of the memory:
 *
 *   Each row and each page is stored whole or not at all, and in the order in which the call writes them.
 *
 * The library writes them by plain stores to the lent addresses, with no barrier. That the stores come in this order is checked of both archives, and not
 * proved. docs/FORMAT.md says which stores they make of a row and of a page, and which kinds of memory fit: flash, EEPROM and parts behind a driver do not.
 * So the host provides:
 *
 *   - memory-mapped FRAM or MRAM whose bus writes go straight to the cells, the log at a multiple of 16 and the charts at a multiple of 32 bytes;
 *   - no cache and no write buffer that holds these stores back or reorders them;
 *   - power that is known to hold from the first store of a row or a page to its last: brown-out detection that warns early, and a capacitor. A reset in the
 *     middle of a call (watchdog, detector, debugger) counts as a power failure, and may not fall inside a row or a page either.
 *
 * Where the part cannot store 16 or 32 bytes as one, as on a bus of 32 bits, it takes hold-up energy for the few microseconds of one row or page, and a
 * processor that is not stopped inside one. For instance, after the warning the host starts no further call, and the one that runs returns on the
 * capacitor, which then has to last for the longest call: docs/FORMAT.md has the rows that each call stores. Without that such a part must not be used: a
 * page that is torn between its mark and its cells is not seen by the check of an opening, and a committed change is then missing or counted twice; and a
 * commit row of a visit above 255 that is torn before its byte 10 may commit another visit.
 *
 * Which processor
 *
 * The archive libembed.a is for x86-64 Linux, the only target of the toolchain. The proofs are about the source, on a machine whose usize has 64 bits, and the
 * lengths below are 64-bit numbers (uint64_t) on every machine. For a Cortex-M0 (ARMv6-M) tools/unit makes another archive from the same module: it is outside
 * the proof, and was tried on a model of the processor. The calls use the stack only. How much of it was measured, on x86-64 (folder `bench`) and on the model
 * (folder `tools/unit`), and is not proved.
 *
 * When the log is full
 *
 * The log is not emptied: it takes 4,096 rows, and each visit takes two of them at least. When CHART_NO_ROOM comes, the host ends all visits, for which there
 * is always room, reads the cells, and formats the store with them. It sees to three things:
 *
 *   - It keeps the values that it read in other memory that keeps its bytes without power, until the format has answered done. During the format the power
 *     must hold; if it fails, log and charts are lost. A start that finds values kept formats the store with them again, before it opens it.
 *   - A format refuses a cell beyond 1,000,000 g either way (CHART_OUT_OF_RANGE), and changes may have moved one further. The host then formats that cell
 *     within the bound, a visit adds the rest, and the values are kept until that visit has committed.
 *   - Visits and rows are numbered from 1 again: a visit's number that was noted before may be given to another visit.
 */
#ifndef CHART_STORE_H
#define CHART_STORE_H

#include <stdint.h>

#ifdef __cplusplus
extern "C" {
#endif

/* Of this header. The archive does not know it: link the two from one version. */
#define CHART_VERSION 7

/* ---- Limits ---- */

#define CHART_LOG_LENGTH 65536u   /* bytes of the stored log */
#define CHART_CHARTS_LENGTH 1024u /* bytes of the stored charts, and of their copy in RAM */
#define CHART_ROWS 4096u          /* rows of the stored log, numbered from 1 */
#define CHART_ROW_LENGTH 16u      /* bytes of a row */
#define CHART_ROWS_WAITING 64u    /* rows that wait in RAM at most */
#define CHART_CELLS 224u          /* cells, numbered from 0 */
#define CHART_PAGES 32u           /* pages, numbered from 0 */
#define CHART_PAGE_LENGTH 32u     /* bytes of a page */
#define CHART_CELLS_PER_PAGE 7u   /* cell c lies on page c / 7 */
#define CHART_VISITS 65535u       /* the highest visit number, from 1; the log has rows for 2,048 visits at most */
#define CHART_ACTIVE_VISITS 16u   /* visits that are active at a time */
#define CHART_SCOPES 64u          /* scopes in use at a time: a scope is the changes of one cell by one visit between two of its hand-overs of the cell */

#define CHART_FORMAT_GRAMS 1000000   /* a format takes cells from -1,000,000 to 1,000,000 g */
#define CHART_STORED_GRAMS 200000000 /* an opening takes stored cells from -200,000,000 to 200,000,000 g */

/* The fuse that never burns: no number of stored writes ends the session. A fuse of 4,294,967,295 writes is not offered. */
#define CHART_NO_FUSE 4294967295u

/* ---- What is lent ---- */

/* The store's RAM. What the numbers say is the library's affair (docs/FORMAT.md has it). After a format that is done, a call in which the fuse burns, and an
 * opening that rejects log or page all of them are 0. */
typedef struct chart_ram {
    uint32_t head[8];     /* phase, kind of the fuse, writes left, rows stored, rows waiting, visits begun, visits active, scopes in use */
    uint16_t visits[32];  /* 16 active visits */
    uint16_t scopes[448]; /* 64 scopes */
    uint8_t tail[1024];   /* the rows that wait */
    uint8_t copy[1024];   /* the charts with every change so far */
} chart_ram;

/* Where a store's memory is: chart_store s = {&ram, log, CHART_LOG_LENGTH, charts, CHART_CHARTS_LENGTH}; */
typedef struct chart_store {
    chart_ram *ram;
    uint8_t *log;
    uint64_t log_length; /* CHART_LOG_LENGTH */
    uint8_t *charts;
    uint64_t charts_length; /* CHART_CHARTS_LENGTH */
} chart_store;

/* ---- Answers ---- */

/* What a call answers: bits 0 to 31 have the value, signed; bits 32 to 39 the refusal number, 0 for done; bits 40 to 55 the rows that the call stored, and
 * bits 56 to 63 the pages.
 *
 * The two counts say which calls wear the memory: each row and each page is one stored write. A row counts for the call that stores it, whichever call added
 * it: an opening, a begin, a commit, a force, a flush, or a call that adds a row while CHART_ROWS_WAITING rows wait (an abort may do so several times). A format
 * counts none, and so does a refused call, but for one in which the power fails, or the log is full (CHART_CLOSED): it counts what landed before. */
typedef uint64_t chart_answer;

static inline int chart_number(chart_answer a) { return (int)((a >> 32) & 255u); }
static inline int32_t chart_value(chart_answer a) { return (int32_t)(uint32_t)(a & 4294967295u); }
static inline unsigned chart_rows(chart_answer a) { return (unsigned)((a >> 40) & 65535u); }
static inline unsigned chart_pages(chart_answer a) { return (unsigned)((a >> 56) & 255u); }

/* The refusal numbers. Where no value is named it is 0. */
enum {
    CHART_DONE = 0,
    CHART_WRONG_LENGTH = 1,    /* log or charts have another length, or a format other than CHART_CELLS cells; redo page: log or page have another length */
    CHART_OUT_OF_RANGE = 2,    /* format: a cell beyond 1,000,000 g either way; the value is the first such cell */
    CHART_WRONG_BYTES = 3,     /* open: the first row that is not allowed has an unknown kind, a byte set that must be 0, or another own number, or stands after the end; the value is the row. The store is closed; log and charts are unchanged */
    CHART_BAD_PAGE = 4,        /* open: a page with a mark other than 0 that is no change or undo row of it, bytes 2-3 not 0, or a cell beyond 200,000,000 g either way; the value is the first such page. Else as 3 */
    CHART_CLOSED = 5,          /* the store is closed, or the power failed in this call (the fuse burnt) and it is closed now: open it again. Also where RAM was altered: its counters are beyond their limits, or a commit or an abort by its tables needs more rows than the log has, which closes the store */
    CHART_VISITS_USED_UP = 6,  /* begin: 65,535 visits were begun. Only RAM that was altered says so: no log has so many rows */
    CHART_TOO_MANY_ACTIVE = 7, /* begin: 16 visits are active */
    CHART_NO_ROOM = 8,         /* begin, change, hand over, hand over all: the log has no room besides what active visits need to end */
    CHART_NOT_ACTIVE = 9,      /* the visit is not active; hand over, hand over all: the giver or the receiver is not */
    CHART_NO_SUCH_CELL = 10,   /* the cell is above 223 */
    CHART_SCOPES_USED_UP = 11, /* change: it would start a scope, and 64 are in use */
    CHART_SAME_VISIT = 12,     /* hand over, hand over all: giver and receiver are the same visit */
    CHART_HOLDS_NONE = 13,     /* hand over: the giver holds no change of the cell; hand over all: it holds no change at all */
    CHART_NO_SUCH_PAGE = 14,   /* flush, redo page: the page is above 31 */
    CHART_BREAKS_RULE = 16,    /* open: the bytes of the first row that is not allowed are right, and it breaks a rule on visits, cells, holders or undo rows. Else as 3 */
    CHART_OVER_LIMIT = 17      /* open: that row breaks no such rule, and is beyond 16 active visits, 64 scopes or the free rows. Else as 3 */
};

/* A refusal number in words, for a message. */
static inline const char *chart_text(int number) {
    switch (number) {
    case CHART_DONE: return "done";
    case CHART_WRONG_LENGTH: return "a buffer has another length";
    case CHART_OUT_OF_RANGE: return "a cell is beyond 1,000,000 g";
    case CHART_WRONG_BYTES: return "a row of the log has wrong bytes";
    case CHART_BAD_PAGE: return "a page does not go with the log";
    case CHART_CLOSED: return "the store is closed";
    case CHART_VISITS_USED_UP: return "all 65,535 visits are used up";
    case CHART_TOO_MANY_ACTIVE: return "16 visits are active";
    case CHART_NO_ROOM: return "the log has no room";
    case CHART_NOT_ACTIVE: return "the visit is not active";
    case CHART_NO_SUCH_CELL: return "there is no such cell";
    case CHART_SCOPES_USED_UP: return "all 64 scopes are in use";
    case CHART_SAME_VISIT: return "giver and receiver are the same visit";
    case CHART_HOLDS_NONE: return "the giver holds no change to hand over";
    case CHART_NO_SUCH_PAGE: return "there is no such page";
    case CHART_BREAKS_RULE: return "a row of the log breaks a rule";
    case CHART_OVER_LIMIT: return "a row of the log is beyond a limit";
    default: return "not a number of this store";
    }
}

/* For service staff: what a rejected log points to, in one sentence; empty for every other number. It is a hint and no proof: a byte that changed by itself can
 * make a well-formed row of another visit, and so can a row that was torn; and a log in another layout has wrong bytes. */
static inline const char *chart_service_hint(int number) {
    switch (number) {
    case CHART_WRONG_BYTES: return "These bytes are no row of this store: suspect the memory chip or its supply, and if it is row 1, a log in another layout.";
    case CHART_BREAKS_RULE: return "The row is well formed, but does not follow from the rows before it: suspect other firmware, rows of two logs, or a torn last row, before the chip.";
    case CHART_OVER_LIMIT: return "The row follows from the rows before it, but is beyond 16 active visits, 64 scopes or the free rows: suspect firmware with other limits, or a torn last row, before the chip.";
    default: return "";
    }
}

/* ---- The library's functions ---- */

/* They take each array by itself; the calls below take a chart_store, and are what a program uses. */

#define CHART_ARRAYS                                                                                                                                      \
    uint32_t *head, uint16_t *visits, uint16_t *scopes, uint8_t *tail, uint8_t *copy, uint8_t *log, uint64_t log_length, uint8_t *charts,                 \
        uint64_t charts_length

chart_answer chart_format_on(CHART_ARRAYS, const int32_t *cells, uint64_t cells_length);
chart_answer chart_open_on(CHART_ARRAYS, uint32_t fuse);
chart_answer chart_begin_on(CHART_ARRAYS);
chart_answer chart_change_on(CHART_ARRAYS, uint16_t visit, uint8_t cell, int16_t amount);
chart_answer chart_hand_over_on(CHART_ARRAYS, uint16_t giver, uint16_t receiver, uint8_t cell);
chart_answer chart_hand_over_all_on(CHART_ARRAYS, uint16_t giver, uint16_t receiver);
chart_answer chart_commit_on(CHART_ARRAYS, uint16_t visit);
chart_answer chart_abort_on(CHART_ARRAYS, uint16_t visit);
chart_answer chart_force_on(CHART_ARRAYS);
chart_answer chart_flush_on(CHART_ARRAYS, uint8_t page);
chart_answer chart_read_on(CHART_ARRAYS, uint8_t cell);

#undef CHART_ARRAYS

/* ---- The calls ---- */

#define CHART_OF(s)                                                                                                                                       \
    (s)->ram->head, (s)->ram->visits, (s)->ram->scopes, (s)->ram->tail, (s)->ram->copy, (s)->log, (s)->log_length, (s)->charts, (s)->charts_length

/* Makes an empty store: no rows, and each cell at its value of `cells` (CHART_CELLS numbers, in grams; cells_length counts numbers). The power must hold
 * until it returns; if it did not, the store has to be formatted again, since an opening may accept what is there. Once this is done the store is closed, until
 * it is opened. Value 0. Refusals 1, 2. */
static inline chart_answer chart_format(const chart_store *s, const int32_t *cells, uint64_t cells_length) {
    return chart_format_on(CHART_OF(s), cells, cells_length);
}

/* Opens the store: checks log and pages, brings the copy of the charts up to the log, undoes what no visit committed, and ends the visits that were active.
 * It comes first after every start, and may come at any time; unless it is refused by 1, what was in RAM is lost, the rows that wait too. The fuse is
 * CHART_NO_FUSE, or the number of stored writes that still land in this session, for tests of a power failure: the write after the last one is not made and
 * the call answers CHART_CLOSED.
 * Value: the rows that it wrote. Refusals 1, then 3, 16 or 17, 4, 5. Of the first row that is not allowed 3 comes before 16, and 16 before 17. */
static inline chart_answer chart_open(const chart_store *s, uint32_t fuse) { return chart_open_on(CHART_OF(s), fuse); }

/* Begins a visit, and stores the rows that wait, then its own, 65 at most: once this has answered done, its number is given to no other visit until the store
 * is formatted, whatever happens to the power. If the fuse burns in it, it answers 5, no visit has begun, and its row is not in the log: the next begin has
 * that number. If the power itself fails before it returns, its row may be in the log: the number is then used, and the next opening ends that visit.
 * Value: its number. Refusals 1, 5, 6, 7, 8. */
static inline chart_answer chart_begin(const chart_store *s) { return chart_begin_on(CHART_OF(s)); }

/* The visit adds `amount` grams to the cell. The row waits in RAM, as those of a hand-over and of an abort do. Value: the row's number.
 * Refusals 1, 5, 9, 10, 11, 8. */
static inline chart_answer chart_change(const chart_store *s, uint16_t visit, uint8_t cell, int16_t amount) {
    return chart_change_on(CHART_OF(s), visit, cell, amount);
}

/* The receiver becomes the holder of all changes of the cell that the giver holds: they last if the receiver commits. Value: the row's number.
 * Refusals 1, 5, 9, 12, 10, 13, 8. */
static inline chart_answer chart_hand_over(const chart_store *s, uint16_t giver, uint16_t receiver, uint8_t cell) {
    return chart_hand_over_on(CHART_OF(s), giver, receiver, cell);
}

/* The receiver becomes the holder of all changes that the giver holds, of whichever cells: the same as chart_hand_over for each of these cells, by a single
 * row. Value: the row's number. Refusals 1, 5, 9, 12, 13, 8. */
static inline chart_answer chart_hand_over_all(const chart_store *s, uint16_t giver, uint16_t receiver) {
    return chart_hand_over_all_on(CHART_OF(s), giver, receiver);
}

/* Commits the visit, and stores the rows that wait, then its own, 65 at most: once this has answered done, all changes that it holds last, whatever happens to
 * the power. If the fuse burns in it, it answers 5, and its row is not in the log: none of these changes lasts. If the power itself fails before it returns, its
 * row may be in the log, and all of them last then. Value: the row's number. Refusals 1, 5, 9. */
static inline chart_answer chart_commit(const chart_store *s, uint16_t visit) { return chart_commit_on(CHART_OF(s), visit); }

/* Takes back all changes that the visit holds, each by an undo row, and ends it by an abort row. If the power fails before these rows are stored, none of the
 * changes lasts either. Value: the number of the abort row. Refusals 1, 5, 9. */
static inline chart_answer chart_abort(const chart_store *s, uint16_t visit) { return chart_abort_on(CHART_OF(s), visit); }

/* Stores the rows that wait in RAM. Value 0. Refusals 1, 5. */
static inline chart_answer chart_force(const chart_store *s) { return chart_force_on(CHART_OF(s)); }

/* Stores the page, after the rows that it depends on, so that the next opening has less to do. Value 0. Refusals 1, 5, 14. */
static inline chart_answer chart_flush(const chart_store *s, uint8_t page) { return chart_flush_on(CHART_OF(s), page); }

/* Reads a cell, with every change so far, committed or not. Value: grams. Refusals 1, 5, 10. */
static inline chart_answer chart_read(const chart_store *s, uint8_t cell) { return chart_read_on(CHART_OF(s), cell); }

#undef CHART_OF

/* ---- A page alone ---- */

/* The forward part of an opening for one page, by the log and that page's bytes alone: each change or undo row of the page above its mark is applied, and the
 * last one becomes the mark. It is no call of a store: it is lent no RAM, stores nothing, and may come at any time between two calls.
 *
 *   log     the stored log, CHART_LOG_LENGTH bytes; it is only read
 *   page    a copy in RAM of the CHART_PAGE_LENGTH bytes that the stored charts have of page `number`; it is worked on where it lies
 *
 * Never lend it the stored charts themselves: mark and cells are written one after another, and a power failure between two of them would tear the page.
 *
 * Where chart_open would take log and charts, the page is then as that opening has it before it undoes anything: with the changes that no visit committed.
 * Rows that wait in RAM are not in the log, and so not in the page. The pages may be taken in any order, and any of them again; a page that was redone does
 * not change any more by the same log. All 32 of them give the copy from which the opening goes on:
 *
 *     uint8_t copy[CHART_CHARTS_LENGTH];
 *     unsigned p;
 *     memcpy(copy, charts, sizeof copy);
 *     for (p = CHART_PAGES; p-- > 0;)
 *         chart_redo_page(log, CHART_LOG_LENGTH, copy + p * CHART_PAGE_LENGTH, CHART_PAGE_LENGTH, (uint8_t)p);
 *
 * Log and page are not checked. Whatever bytes they hold, it goes by the rows before the first one whose kind is 0, ends, and changes no byte but those of the
 * mark and of the cells. Value 0, and no stored writes. Refusals 1, 14; they change nothing. */
chart_answer chart_redo_page(const uint8_t *log, uint64_t log_length, uint8_t *page, uint64_t page_length, uint8_t number);

#ifdef __cplusplus
}
#endif

#endif
