/*
 * The calls of chart_store.h, for the comparison. Each function here makes the chart_store as the header shows it, calls the inline function of the header, and takes
 * the answer apart by the header's own functions: so the header lies between the cases and the archive.
 */
#include <stddef.h>

#include "chart_store.h"

/* An answer in four numbers, with the types that the header's functions give. */
struct parts {
    int number;
    int32_t value;
    unsigned rows;
    unsigned pages;
};

static struct parts parts_of(chart_answer a) {
    struct parts parts = {chart_number(a), chart_value(a), chart_rows(a), chart_pages(a)};
    return parts;
}

#define LENT chart_ram *ram, uint8_t *log, uint64_t log_length, uint8_t *charts, uint64_t charts_length
#define STORE chart_store s = {ram, log, log_length, charts, charts_length}

void header_format(struct parts *answer, LENT, const int32_t *cells, uint64_t cells_length) {
    STORE;
    *answer = parts_of(chart_format(&s, cells, cells_length));
}

/* Without a fuse it hands over the header's CHART_NO_FUSE. */
void header_open(struct parts *answer, LENT, int limited, uint32_t writes) {
    STORE;
    *answer = parts_of(chart_open(&s, limited ? writes : CHART_NO_FUSE));
}

void header_begin(struct parts *answer, LENT) {
    STORE;
    *answer = parts_of(chart_begin(&s));
}

void header_change(struct parts *answer, LENT, uint16_t visit, uint8_t cell, int16_t amount) {
    STORE;
    *answer = parts_of(chart_change(&s, visit, cell, amount));
}

void header_hand_over(struct parts *answer, LENT, uint16_t giver, uint16_t receiver, uint8_t cell) {
    STORE;
    *answer = parts_of(chart_hand_over(&s, giver, receiver, cell));
}

void header_hand_over_all(struct parts *answer, LENT, uint16_t giver, uint16_t receiver) {
    STORE;
    *answer = parts_of(chart_hand_over_all(&s, giver, receiver));
}

void header_commit(struct parts *answer, LENT, uint16_t visit) {
    STORE;
    *answer = parts_of(chart_commit(&s, visit));
}

void header_abort(struct parts *answer, LENT, uint16_t visit) {
    STORE;
    *answer = parts_of(chart_abort(&s, visit));
}

void header_force(struct parts *answer, LENT) {
    STORE;
    *answer = parts_of(chart_force(&s));
}

void header_flush(struct parts *answer, LENT, uint8_t page) {
    STORE;
    *answer = parts_of(chart_flush(&s, page));
}

void header_read(struct parts *answer, LENT, uint8_t cell) {
    STORE;
    *answer = parts_of(chart_read(&s, cell));
}

void header_redo_page(struct parts *answer, const uint8_t *log, uint64_t log_length, uint8_t *page, uint64_t page_length, uint8_t number) {
    *answer = parts_of(chart_redo_page(log, log_length, page, page_length, number));
}

/* What the header's functions take of any number. */
void header_parts(struct parts *answer, chart_answer a) { *answer = parts_of(a); }

const char *header_text(int number) { return chart_text(number); }

const char *header_service_hint(int number) { return chart_service_hint(number); }

/* ---- Names, with what C has for them ---- */

struct named {
    const char *name;
    int64_t number;
};

#define NAMED(name) {#name, (int64_t)(name)}
#define OFFSET(field) {"chart_ram." #field, (int64_t)offsetof(chart_ram, field)}
#define WIDTH(field) {"chart_ram." #field "[0]", (int64_t)sizeof(((chart_ram *)0)->field[0])}

static const struct named constants[] = {
    NAMED(CHART_LOG_LENGTH),
    NAMED(CHART_CHARTS_LENGTH),
    NAMED(CHART_ROWS),
    NAMED(CHART_ROW_LENGTH),
    NAMED(CHART_ROWS_WAITING),
    NAMED(CHART_CELLS),
    NAMED(CHART_PAGES),
    NAMED(CHART_PAGE_LENGTH),
    NAMED(CHART_CELLS_PER_PAGE),
    NAMED(CHART_VISITS),
    NAMED(CHART_ACTIVE_VISITS),
    NAMED(CHART_SCOPES),
    NAMED(CHART_FORMAT_GRAMS),
    NAMED(CHART_STORED_GRAMS),
    NAMED(CHART_NO_FUSE),
    NAMED(CHART_DONE),
    NAMED(CHART_WRONG_LENGTH),
    NAMED(CHART_OUT_OF_RANGE),
    NAMED(CHART_WRONG_BYTES),
    NAMED(CHART_BAD_PAGE),
    NAMED(CHART_CLOSED),
    NAMED(CHART_VISITS_USED_UP),
    NAMED(CHART_TOO_MANY_ACTIVE),
    NAMED(CHART_NO_ROOM),
    NAMED(CHART_NOT_ACTIVE),
    NAMED(CHART_NO_SUCH_CELL),
    NAMED(CHART_SCOPES_USED_UP),
    NAMED(CHART_SAME_VISIT),
    NAMED(CHART_HOLDS_NONE),
    NAMED(CHART_NO_SUCH_PAGE),
    NAMED(CHART_BREAKS_RULE),
    NAMED(CHART_OVER_LIMIT),
    {"chart_ram", (int64_t)sizeof(chart_ram)},
    OFFSET(head),
    OFFSET(visits),
    OFFSET(scopes),
    OFFSET(tail),
    OFFSET(copy),
    WIDTH(head),
    WIDTH(visits),
    WIDTH(scopes),
    WIDTH(tail),
    WIDTH(copy),
    {"chart_answer", (int64_t)sizeof(chart_answer)},
    {0, 0},
};

/* The last one has no name. */
const struct named *header_constants(void) { return constants; }
