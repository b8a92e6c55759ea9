/*
 * The marks of marks.h on x86-64 Linux: between mark_begin and mark_end log and charts are read-only, so that each store to them raises SIGSEGV with its address. Then the memory is made writable for
 * this one instruction (the trap flag raises SIGTRAP after it), and read-only again. The instruction is made to run twice, from the same registers: over bytes that are the complement of what was there,
 * and over what was there. The bytes that come out alike are those that it stored, also where it stored what was there. At mark_end the units are written to standard error (units.h).
 *
 * An instruction that reads the bytes which it stores to has other bytes come out, and so has one that reaches further than the window: the unit is marked by a question mark. What is not seen is a
 * store by the kernel, and one from another thread; the archive has neither.
 */
#define _GNU_SOURCE
#include <signal.h>
#include <stdio.h>
#include <stdlib.h>
#include <string.h>
#include <sys/mman.h>
#include <ucontext.h>

#include "chart_store.h"
#include "marks.h"
#include "units.h"

#define TRAP_FLAG 0x100

static uint8_t *memory; /* the log, with the charts behind it, at the beginning of a page of the processor's */
static uint8_t shadow[CHART_LOG_LENGTH + CHART_CHARTS_LENGTH];
static int on, writable = 1;

static void allow(int what) {
    if (mprotect(memory, sizeof shadow, what) != 0) abort();
    writable = what & PROT_WRITE;
}

/* The store that is stepped over: the bytes that it may reach, what came out of them the first time, and the registers before it. */
static struct {
    size_t from, length;
    int times;
    uint8_t first[256];
    gregset_t registers;
} step;

static void again(ucontext_t *context) {
    memcpy(context->uc_mcontext.gregs, step.registers, sizeof step.registers);
    context->uc_mcontext.gregs[REG_EFL] |= TRAP_FLAG;
}

static void at_store(int signal_number, siginfo_t *info, void *context) {
    size_t place = (size_t)((uint8_t *)info->si_addr - memory);
    if (place >= sizeof shadow || writable) {
        signal(signal_number, SIG_DFL); /* a fault of the program's own, which comes again */
        return;
    }
    allow(PROT_READ | PROT_WRITE);
    if (!on) return; /* between two calls the program may store */
    size_t end = place + sizeof step.first / 2 < sizeof shadow ? place + sizeof step.first / 2 : sizeof shadow;
    step.from = place < sizeof step.first / 2 ? 0 : place - sizeof step.first / 2;
    step.length = end - step.from;
    step.times = 0;
    memcpy(step.registers, ((ucontext_t *)context)->uc_mcontext.gregs, sizeof step.registers);
    for (size_t k = step.from; k < end; k++) memory[k] = (uint8_t)~shadow[k];
    again(context);
}

static void after_store(int signal_number, siginfo_t *info, void *context) {
    (void)signal_number, (void)info;
    if (step.times++ == 0) {
        memcpy(step.first, memory + step.from, step.length);
        memcpy(memory + step.from, shadow + step.from, step.length);
        again(context);
        return;
    }
    ((ucontext_t *)context)->uc_mcontext.gregs[REG_EFL] &= ~TRAP_FLAG;
    for (size_t k = 0, next; k < step.length; k = next) {
        int stored = step.first[k] == memory[step.from + k];
        for (next = k; next < step.length && (step.first[next] == memory[step.from + next]) == stored; next++) {
            if (stored) shadow[step.from + next] = memory[step.from + next];
        }
        if (stored) unit_stored((uint32_t)(step.from + k), (uint32_t)(next - k));
    }
    if (memcmp(shadow, memory, sizeof shadow) != 0) {
        unit_odd();
        memcpy(shadow, memory, sizeof shadow);
    }
    allow(PROT_READ);
}

void mark_memory(uint8_t *log, uint8_t *charts) {
    struct sigaction action = {.sa_flags = SA_SIGINFO};
    if (charts != log + CHART_LOG_LENGTH || CHART_LOG_LENGTH != UNIT_LOG_LENGTH || CHART_CHARTS_LENGTH != UNIT_CHARTS_LENGTH) abort();
    memory = log;
    setvbuf(stderr, NULL, _IOFBF, BUFSIZ);
    action.sa_sigaction = at_store;
    sigaction(SIGSEGV, &action, NULL);
    action.sa_sigaction = after_store;
    sigaction(SIGTRAP, &action, NULL);
}

void mark_begin(void) {
    if (writable) {
        memcpy(shadow, memory, sizeof shadow);
        allow(PROT_READ);
    }
    units_begin();
    on = 1;
}

void mark_end(void) {
    on = 0;
    units_end(stderr);
}
