/*
 * Marks in the run of a program. On the model they do nothing, and plugin.c finds them by their names; on x86-64 stores.c has them.
 *
 *   mark_memory   where log and charts are: a byte of each is stored as it was
 *   mark_begin    what is watched begins
 *   mark_end      it ends
 */
#ifndef MARKS_H
#define MARKS_H

#include <stdint.h>

#ifdef __arm__
__attribute__((noipa)) static void mark_memory(volatile uint8_t *log, volatile uint8_t *charts) {
    *log = *log;
    *charts = *charts;
}
__attribute__((noipa)) static void mark_begin(void) { __asm__ volatile("" ::: "memory"); }
__attribute__((noipa)) static void mark_end(void) { __asm__ volatile("" ::: "memory"); }
#else
void mark_memory(uint8_t *log, uint8_t *charts);
void mark_begin(void);
void mark_end(void);
#endif

#endif
