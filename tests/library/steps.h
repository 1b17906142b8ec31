/* A call of one seat is stopped after so many instructions, and another seat makes calls in the middle of it, on the same thread: its trap flag
 * has a signal after each instruction (single_steps.c tells whether it has one here). */
#define _GNU_SOURCE
#include <mvrlu.h>
#include <signal.h>
#include <stdio.h>
#include <stdlib.h>
#include <string.h>
#include <ucontext.h>

enum { TRAP_FLAG = 0x100 };

static volatile unsigned long steps, stop_at;
static void (*volatile between)(void);

static void fail(const char *what, long long got) {
    printf("steps: %s: %lld (after %lu instructions)\n", what, got, stop_at);
    exit(1);
}

/* Counts an instruction. At the wanted one it stops counting, and the other seat makes its calls. */
static void step(int signal, siginfo_t *info, void *context) {
    (void)signal, (void)info;
    if (++steps != stop_at) return;
    ((ucontext_t *)context)->uc_mcontext.gregs[REG_EFL] &= ~(greg_t)TRAP_FLAG;
    between();
}

/* Has each signal of the trap flag counted. */
static void stop_by_steps(void) {
    struct sigaction action;
    memset(&action, 0, sizeof action);
    action.sa_sigaction = step;
    action.sa_flags = SA_SIGINFO;
    if (sigaction(SIGTRAP, &action, NULL) != 0) fail("no signal", 0);
}

/* From here on each instruction of this thread is counted, until it was stopped or this ends. */
static void count_from(unsigned long at, void (*meanwhile)(void)) {
    steps = 0;
    stop_at = at;
    between = meanwhile;
    __asm__ volatile("pushfq\n\torq $0x100, (%%rsp)\n\tpopfq" ::: "memory", "cc");
}

static void count_no_more(void) { __asm__ volatile("pushfq\n\tandq $-0x101, (%%rsp)\n\tpopfq" ::: "memory", "cc"); }

/* Of a call that was given up. */
static void want_nothing_done(const mvrlu_reply *reply, int32_t status, uint64_t value) {
    if (reply->status != status || reply->value != value) fail("what came first", (long long)reply->value);
    if (reply->time != 0 || reply->committed != 0 || reply->second != 0) fail("a place of what was not done", (long long)reply->time);
}
