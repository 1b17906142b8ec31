/* Whether a thread that sets its trap flag has a signal after each instruction: 0 where it does. */
#define _GNU_SOURCE
#include <signal.h>

static volatile sig_atomic_t steps;

static void step(int signal) {
    (void)signal;
    steps++;
}

int main(void) {
    if (signal(SIGTRAP, step) == SIG_ERR) return 1;
    __asm__ volatile("pushfq\n\torq $0x100, (%%rsp)\n\tpopfq" ::: "memory", "cc");
    __asm__ volatile("nop\n\tnop\n\tpushfq\n\tandq $-0x101, (%%rsp)\n\tpopfq" ::: "memory", "cc");
    return steps < 2;
}
