/*
 * A plugin for QEMU's model. It watches a program between mark_begin and mark_end (marks.h), which it finds by their names, and writes a line for each such pair:
 *
 *   counts=FILE   instructions; cycles of a Cortex-M0; multiplications among the instructions; the most cycles from the first store of a row to its last, and
 *                 the same of a page
 *   stores=FILE   the units of log and charts in the order in which they are stored to, in the form of units.h
 *
 * The cycles are those of ARM's manual (Cortex-M0 Technical Reference Manual, ARM DDI 0432, table of instruction timings), with no wait states and a multiplier
 * of one cycle.
 */
#include <inttypes.h>
#include <stdbool.h>
#include <stdio.h>
#include <stdlib.h>
#include <string.h>

#include "units.h"

/* QEMU's interface for plugins, version 1, as far as it is used here; Debian has no package with its header. */
typedef uint64_t qemu_plugin_id_t;
typedef uint32_t qemu_plugin_meminfo_t;
struct qemu_plugin_tb;
struct qemu_plugin_insn;
struct qemu_info_t;
enum { QEMU_PLUGIN_CB_NO_REGS };
enum { QEMU_PLUGIN_MEM_W = 2 }; /* QEMU 7.2 reports loads here too */
typedef void (*at_translation)(qemu_plugin_id_t, struct qemu_plugin_tb *);
typedef void (*at_instruction)(unsigned, void *);
typedef void (*at_memory)(unsigned, qemu_plugin_meminfo_t, uint64_t, void *);
void qemu_plugin_register_vcpu_tb_trans_cb(qemu_plugin_id_t, at_translation);
size_t qemu_plugin_tb_n_insns(const struct qemu_plugin_tb *);
struct qemu_plugin_insn *qemu_plugin_tb_get_insn(const struct qemu_plugin_tb *, size_t);
const void *qemu_plugin_insn_data(const struct qemu_plugin_insn *);
uint64_t qemu_plugin_insn_vaddr(const struct qemu_plugin_insn *);
const char *qemu_plugin_insn_symbol(const struct qemu_plugin_insn *);
void qemu_plugin_register_vcpu_insn_exec_cb(struct qemu_plugin_insn *, at_instruction, int, void *);
void qemu_plugin_register_vcpu_mem_cb(struct qemu_plugin_insn *, at_memory, int, int, void *);
bool qemu_plugin_mem_is_store(qemu_plugin_meminfo_t);
unsigned qemu_plugin_mem_size_shift(qemu_plugin_meminfo_t);
__attribute__((visibility("default"))) int qemu_plugin_version = 1;

static FILE *counts, *stores;
static bool on;

/* ---- Instructions and cycles ---- */

enum kind { PLAIN, CONDITIONAL, MULTIPLICATION };

static uint64_t instructions, cycles, multiplications;
static struct {
    uint32_t address;
    enum kind kind;
} last;

static unsigned ones(unsigned x) { return (unsigned)__builtin_popcount(x); }

/* The cycles of an instruction by its first half-word; of a conditional branch those of one that is not taken. */
static unsigned cost(unsigned i, enum kind *kind) {
    *kind = PLAIN;
    if (i >> 11 >= 0x1D) return 4;                                       /* 32 bits: BL, MRS, MSR, DMB, DSB, ISB */
    if ((i & 0xF000) == 0xD000 && (i & 0x0F00) < 0x0E00) {               /* B<cc> */
        *kind = CONDITIONAL;
        return 1;
    }
    if ((i & 0xFFC0) == 0x4340) {                                        /* MUL */
        *kind = MULTIPLICATION;
        return 1;
    }
    if ((i & 0xF800) == 0xE000) return 3;                                /* B */
    if ((i & 0xFF00) == 0x4700) return 3;                                /* BX, BLX */
    if ((i & 0xFD87) == 0x4487) return 3;                                /* ADD and MOV to PC */
    if ((i & 0xF800) == 0x4800) return 2;                                /* LDR of a literal */
    if ((i & 0xF000) == 0x5000 || (i & 0xE000) == 0x6000) return 2;      /* LDR and STR by a register, of a word and of a byte by a number */
    if ((i & 0xE000) == 0x8000) return 2;                                /* LDR and STR of a half-word, and by SP */
    if ((i & 0xF000) == 0xC000) return 1 + ones(i & 0xFF);               /* LDM, STM */
    if ((i & 0xFE00) == 0xB400) return 1 + ones(i & 0x1FF);              /* PUSH */
    if ((i & 0xFE00) == 0xBC00) return (i & 0x100 ? 4 : 1) + ones(i & 0x1FF); /* POP; with PC it is a return */
    return 1;
}

static void at_each(unsigned cpu, void *data) {
    (void)cpu;
    uintptr_t d = (uintptr_t)data;
    uint32_t address = (uint32_t)d;
    if (!on) return;
    if (last.kind == CONDITIONAL && address != last.address + 2) cycles += 2; /* it was taken */
    instructions++;
    cycles += d >> 32 & 255;
    last.address = address;
    last.kind = (enum kind)(d >> 40);
    multiplications += last.kind == MULTIPLICATION;
}

/* ---- Stores to log and charts ---- */

static uint32_t log_at, charts_at, unit, no_unit = UINT32_MAX;
static uint64_t unit_began, longest_row, longest_page;

static void at_announcement(unsigned cpu, qemu_plugin_meminfo_t info, uint64_t address, void *data) {
    (void)cpu, (void)data;
    if (!qemu_plugin_mem_is_store(info)) return;
    if (!log_at) log_at = (uint32_t)address;
    else if (!charts_at) charts_at = (uint32_t)address;
    else abort();
}

static void at_store(unsigned cpu, qemu_plugin_meminfo_t info, uint64_t address, void *data) {
    (void)cpu, (void)data;
    uint32_t in_log = (uint32_t)address - log_at, in_charts = (uint32_t)address - charts_at;
    bool row = log_at && in_log < UNIT_LOG_LENGTH, page = charts_at && in_charts < UNIT_CHARTS_LENGTH;
    if (!on || !(row || page) || !qemu_plugin_mem_is_store(info)) return;
    unit_stored(row ? in_log : UNIT_LOG_LENGTH + in_charts, 1u << qemu_plugin_mem_size_shift(info)); /* a Cortex-M0 has no store that is not aligned */
    if (units[unit_count - 1].unit != unit) {
        unit = units[unit_count - 1].unit;
        unit_began = cycles;
    }
    uint64_t *longest = row ? &longest_row : &longest_page;
    if (cycles - unit_began > *longest) *longest = cycles - unit_began;
}

/* ---- Marks ---- */

static void at_begin(unsigned cpu, void *data) {
    (void)cpu, (void)data;
    on = true;
    instructions = cycles = multiplications = longest_row = longest_page = 0;
    last.kind = PLAIN;
    unit = no_unit;
    units_begin();
}

static void at_end(unsigned cpu, void *data) {
    (void)cpu, (void)data;
    on = false;
    if (counts)
        fprintf(counts, "%" PRIu64 " %" PRIu64 " %" PRIu64 " %" PRIu64 " %" PRIu64 "\n", instructions, cycles, multiplications, longest_row, longest_page);
    if (stores) units_end(stores);
}

static void translated(qemu_plugin_id_t id, struct qemu_plugin_tb *block) {
    (void)id;
    for (size_t k = 0; k < qemu_plugin_tb_n_insns(block); k++) {
        struct qemu_plugin_insn *insn = qemu_plugin_tb_get_insn(block, k);
        const char *symbol = qemu_plugin_insn_symbol(insn);
        uint16_t code;
        memcpy(&code, qemu_plugin_insn_data(insn), sizeof code);
        enum kind kind;
        uintptr_t d = cost(code, &kind);
        d = (uint32_t)qemu_plugin_insn_vaddr(insn) | d << 32 | (uintptr_t)kind << 40;
        bool returns = code == 0x4770; /* BX LR, of which each mark has one */
        if (counts) qemu_plugin_register_vcpu_insn_exec_cb(insn, at_each, QEMU_PLUGIN_CB_NO_REGS, (void *)d);
        if (symbol && !strcmp(symbol, "mark_memory")) qemu_plugin_register_vcpu_mem_cb(insn, at_announcement, QEMU_PLUGIN_CB_NO_REGS, QEMU_PLUGIN_MEM_W, NULL);
        else if (symbol && !strcmp(symbol, "mark_begin") && returns) qemu_plugin_register_vcpu_insn_exec_cb(insn, at_begin, QEMU_PLUGIN_CB_NO_REGS, NULL);
        else if (symbol && !strcmp(symbol, "mark_end") && returns) qemu_plugin_register_vcpu_insn_exec_cb(insn, at_end, QEMU_PLUGIN_CB_NO_REGS, NULL);
        else qemu_plugin_register_vcpu_mem_cb(insn, at_store, QEMU_PLUGIN_CB_NO_REGS, QEMU_PLUGIN_MEM_W, NULL);
    }
}

__attribute__((visibility("default"))) int qemu_plugin_install(qemu_plugin_id_t id, const struct qemu_info_t *info, int argc, char **argv) {
    (void)info;
    for (int k = 0; k < argc; k++) {
        FILE **file = !strncmp(argv[k], "counts=", 7) ? &counts : !strncmp(argv[k], "stores=", 7) ? &stores : NULL;
        if (!file || !(*file = fopen(argv[k] + 7, "w"))) return fprintf(stderr, "plugin: %s?\n", argv[k]), 1;
    }
    qemu_plugin_register_vcpu_tb_trans_cb(id, translated);
    return 0;
}
