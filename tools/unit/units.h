/*
 * The stored writes of a call, as they are seen: each store to log and charts is told with its place, counted in the log with the charts behind it. A unit is one row or one page. An entry is begun
 * where a store goes to another unit than the one before it; it is written as the number of the row, from 1, or p and the number of the page. Behind it stands
 *
 *   *   where a byte of it was stored more than once
 *   -   where it was left before each of its bytes was stored
 *   <   where a byte of a page's first half, which has the mark, was stored before the other half was complete
 *   ?   where one store reached another unit too, or bytes changed that no store was seen for
 */
#ifndef UNITS_H
#define UNITS_H

#include <stdint.h>
#include <stdio.h>
#include <stdlib.h>

enum { UNIT_ROW_LENGTH = 16, UNIT_PAGE_LENGTH = 32, UNIT_LOG_LENGTH = 65536, UNIT_CHARTS_LENGTH = 1024, UNIT_ROWS = UNIT_LOG_LENGTH / UNIT_ROW_LENGTH };

static struct unit_entry {
    uint32_t unit, bytes; /* bytes: those that were stored, a bit each */
    int again, early, beyond;
} units[4 * UNIT_ROWS];
static unsigned unit_count;
static int unit_none; /* bytes changed before any store was seen */

static void units_begin(void) { unit_count = 0, unit_none = 0; }

static void unit_odd(void) { *(unit_count > 0 ? &units[unit_count - 1].beyond : &unit_none) = 1; }

static void unit_stored(uint32_t place, uint32_t length) {
    for (uint32_t k = place; k < place + length; k++) {
        int row = k < UNIT_LOG_LENGTH;
        uint32_t at = row ? k % UNIT_ROW_LENGTH : k % UNIT_PAGE_LENGTH;
        uint32_t unit = row ? k / UNIT_ROW_LENGTH : UNIT_ROWS + (k - UNIT_LOG_LENGTH) / UNIT_PAGE_LENGTH;
        if (unit_count == 0 || units[unit_count - 1].unit != unit) {
            if (k > place) unit_odd();
            if (unit_count == sizeof units / sizeof *units) abort();
            units[unit_count++] = (struct unit_entry){.unit = unit};
        }
        struct unit_entry *entry = &units[unit_count - 1];
        entry->again |= (int)(entry->bytes >> at & 1);
        entry->early |= !row && at < UNIT_PAGE_LENGTH / 2 && entry->bytes >> UNIT_PAGE_LENGTH / 2 != 0xFFFF;
        entry->bytes |= (uint32_t)1 << at;
    }
}

static void units_end(FILE *file) {
    if (unit_none) fputc('?', file);
    for (struct unit_entry *entry = units; entry < units + unit_count; entry++) {
        int row = entry->unit < UNIT_ROWS;
        if (row) fprintf(file, " %lu", (unsigned long)entry->unit + 1);
        else fprintf(file, " p%lu", (unsigned long)entry->unit - UNIT_ROWS);
        if (entry->again) fputc('*', file);
        if (entry->bytes != (row ? 0xFFFF : 0xFFFFFFFF)) fputc('-', file);
        if (entry->early) fputc('<', file);
        if (entry->beyond) fputc('?', file);
    }
    fputc('\n', file);
}

#endif
