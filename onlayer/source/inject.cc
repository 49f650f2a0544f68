#include "inject.h"
#include <signal.h>
#include <sys/ptrace.h>
#include <sys/syscall.h>
#include <sys/wait.h>
#include <unistd.h>
#ifndef PTRACE_GETSIGMASK
#define PTRACE_GETSIGMASK (__ptrace_request)0x420a
#define PTRACE_SETSIGMASK (__ptrace_request)0x420b
#endif

static const int INSTRUCTION = 2;              // bytes of `syscall`

Injection::Injection(int task) : task(task) {
    u64 all = ~0ull;
    ptrace(PTRACE_GETREGS, task, 0, &before);
    ptrace(PTRACE_GETSIGMASK, task, sizeof mask, &mask);
    ptrace(PTRACE_SETSIGMASK, task, sizeof all, &all);
}

Injection::~Injection() {
    before.rax = before.orig_rax;
    before.orig_rax = -1;
    before.rip -= INSTRUCTION;
    ptrace(PTRACE_SETREGS, task, 0, &before);
    ptrace(PTRACE_SETSIGMASK, task, sizeof mask, &mask);
    if (was_stopped) syscall(SYS_tkill, task, SIGSTOP);
}

// Up to the next beginning or end of a call.
void Injection::go_on() {
    int status;
    do {
        ptrace(PTRACE_SYSCALL, task, 0, 0);
        if (waitpid(task, &status, __WALL) != task) throw Lost{0};
        if (!WIFSTOPPED(status) || status >> 16 == PTRACE_EVENT_EXIT) throw Lost{status};
        was_stopped = was_stopped || status >> 8 == SIGSTOP;    // the one signal that can't be held back
    } while (WSTOPSIG(status) != (SIGTRAP | 0x80));
}

// The first call takes the place of the one that was about to be made; each later one is begun anew.
long Injection::call(long number, const std::array<u64, 6> &arguments) {
    user_regs_struct now = before;
    now.rax = number, now.orig_rax = has_begun ? -1 : number;
    now.rdi = arguments[0], now.rsi = arguments[1], now.rdx = arguments[2];
    now.r10 = arguments[3], now.r8 = arguments[4], now.r9 = arguments[5];
    if (has_begun) now.rip -= INSTRUCTION;
    ptrace(PTRACE_SETREGS, task, 0, &now);
    if (has_begun) go_on();
    has_begun = true;
    go_on();
    ptrace(PTRACE_GETREGS, task, 0, &now);
    return (long)now.rax;
}
