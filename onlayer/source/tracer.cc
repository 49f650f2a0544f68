#include "tracer.h"
#include <errno.h>
#include <fcntl.h>
#include <linux/sched.h>
#include <linux/seccomp.h>
#include <string.h>
#include <sys/mman.h>
#include <sys/ptrace.h>
#include <sys/syscall.h>
#include <sys/user.h>
#include <sys/wait.h>
#include <unistd.h>
#include "filter.h"
#include "inject.h"
#include "text.h"

static const long RESTART = -512;              // ERESTARTSYS: what an interrupted call stands at until its signal is delivered

void Tracer::start(int pid, bool is_watched) {
    root = pid;
    Process &process = world.new_process(pid);
    process.is_watched = is_watched;
    process.tasks = {pid};
    world.by_task[pid] = &process;
}

// ---- births

Process &Tracer::copy_process(Process &parent, int task) {
    Process &child = world.new_process(task);
    child.hides = parent.hides, child.is_watched = parent.is_watched;
    if (parent.table.empty()) return child;
    Reply reply = world.say(parent, "fork");
    if (!reply.ok()) throw Fault("the layer can't fork for " + world.title(parent) + ": " + reply.text);
    child.user = parent.user, child.group = parent.group;
    world.name_in_layer(child, (int)reply.number(1));
    for (auto &[number, entry] : parent.table) world.enter(child, number, entry->file, entry->layer);
    return child;
}

void Tracer::born(int parent_task, int task) {
    Process *parent = world.by_task[parent_task], *process = parent;
    if (status_of(task).group == task && !same_table(parent_task, task)) process = &copy_process(*parent, task);
    process->tasks.insert(task);
    world.by_task[task] = process;
    if (early.erase(task)) ptrace(PTRACE_CONT, task, 0, 0);
}

void Tracer::split(int task) {
    Process *shared = world.by_task[task];
    if (!shared || shared->tasks.size() < 2) return;
    shared->tasks.erase(task);
    if (shared->pid == task) shared->pid = *shared->tasks.begin();
    Process &own = copy_process(*shared, task);
    own.tasks = {task};
    world.by_task[task] = &own;
}

// ---- exec

void Tracer::close_on_exec(Process &process, int task) {
    std::vector<int> closed;
    std::vector<std::string> lines;
    if (process.table.empty()) return;
    for (auto &[number, entry] : process.table)
        if (!entry->file->shown || !same_file(task, number, entry->file->shown.get())) closed.push_back(number);
    for (int number : closed) lines.push_back("flags " + text(process.table[number]->layer) + " x");
    lines.push_back("exec");
    world.layer->make_all(process.layer, lines);
    world.drop(process, closed, false);
}

// A name as the program spells it.
static std::string spelled(const World &world, const std::string &word) {
    if (word.empty()) return "without a name";
    return word[0] == 'a' ? "@" + name_bytes(word.substr(2)) : world.names.spelling(word);
}

void Tracer::note_inherited(Process &process) {
    for (auto &[number, entry] : process.table)
        if (entry->file->listening)
            world.inherited.push_back({entry, {process.program, spelled(world, entry->file->name), process.pid, number}});
}

void Tracer::executed(int task, int before) {
    auto found = world.by_task.find(before);
    Process *process = found != world.by_task.end() ? found->second : world.by_task[task];
    std::set<int> others = process->tasks;
    for (int other : others) {
        bool is_old = other == before || other == task;
        if (!is_old && status_of(other).group != task) continue;
        world.end(other);                      // the threads are gone, and what they waited for with them
        if (!is_old) world.by_task.erase(other), process->tasks.erase(other);
    }
    if (before != task) world.by_task.erase(before), process->tasks.erase(before), process->tasks.insert(task);
    world.by_task[task] = process;
    if (process->tasks.size() > 1) split(task), process = world.by_task[task];
    process->pid = task, process->program = program_of(task), process->ids_changed = true, process->hides = false;
    process->changes++;
    close_on_exec(*process, task);
    if (process->layer) world.layer->note("process " + text(task) + " executes " + process->program);
    note_inherited(*process);
    world.settle();
}

// ---- ends

void Tracer::ended(int task) {
    auto found = world.by_task.find(task);
    if (found == world.by_task.end()) return;
    Process &process = *found->second;
    world.by_task.erase(found);
    process.tasks.erase(task);
    world.end(task);
    copies.erase(task), put_off.erase(task), sent_again.erase(task);
    if (process.tasks.empty()) {
        if (process.pid == root) calls_at_end = world.layer->calls();
        if (process.layer) world.layer->make(process.layer, "exit"), world.layer->note("process " + text(process.pid) + " has exited");
        process.table.clear();
    }
    world.settle();
}

// ---- calls of which the filters tell the tracer

// Whether the call that the task is about to make has to be told. A child that was born while its parent's filter was
// installed may have none.
bool Tracer::begins_something(const Process &process, int task) {
    user_regs_struct registers;
    u64 flags = 0;
    ptrace(PTRACE_GETREGS, task, 0, &registers);
    switch (registers.orig_rax) {
    case SYS_clone: case SYS_seccomp: case SYS_prctl: return !process.is_watched;
    case SYS_clone3:
        return !process.is_watched && read_value(task, registers.rdi, flags) && flags & CLONE_FILES && !(flags & CLONE_THREAD);
    }
    return true;
}

void Tracer::traced(int task, unsigned why) {
    Process *process = world.by_task[task];
    if (why == COPIES) return begin_copy(task);
    if (why == FOREIGN && process) world.stop_foreign(*process);
    try {
        if (why == BEGINS && process && begins_something(*process, task)) watch(*process, task);
    } catch (const Lost &lost) {
        return handle_status(task, lost.status);
    }
    ptrace(PTRACE_CONT, task, 0, 0);
}

// From now on all calls of the process that may concern the layer are told: the filter is installed in all its threads, and
// the call that is about to be made is made under it.
void Tracer::watch(Process &process, int task) {
    const u64 size = 4096, flags = SECCOMP_FILTER_FLAG_NEW_LISTENER | SECCOMP_FILTER_FLAG_TSYNC | SECCOMP_FILTER_FLAG_TSYNC_ESRCH;
    std::vector<sock_filter> code = watching_filter();
    Injection injection(task);
    u64 page = injection.call(SYS_mmap, {0, size, PROT_READ | PROT_WRITE, MAP_PRIVATE | MAP_ANONYMOUS, ~0ull, 0});
    sock_fprog program = {(unsigned short)code.size(), (sock_filter *)(page + sizeof program)};
    bool is_there = write_value(task, page, program) && write_memory(task, page + sizeof program, code.data(), code.size() * sizeof code[0]);
    long number = is_there ? injection.call(SYS_seccomp, {SECCOMP_SET_MODE_FILTER, flags, page, UNTOLD, 0, 0}) : -EFAULT;
    File listener = number < 0 ? File() : take_file(process.pid, (int)number);
    if (number >= 0) injection.call(SYS_close, {(u64)number, UNTOLD, 0, 0, 0, 0});
    injection.call(SYS_munmap, {page, size, 0, 0, 0, 0});
    if (number == -EBUSY) return;              // it came by another thread's first call
    if (!listener) throw Fault("the filter can't be installed in " + world.title(process) + ": " + strerror(number < 0 ? (int)-number : errno));
    world.listen_to(std::move(listener));
    process.is_watched = true;
}

// ---- a copy by F_DUPFD, whose number the kernel chooses

void Tracer::begin_copy(int task) {
    user_regs_struct registers;
    ptrace(PTRACE_GETREGS, task, 0, &registers);
    Call call;
    call.task = task, call.process = world.by_task[task];
    NumberRef entry = call.process ? world.find(call, (int)registers.rdi) : nullptr;
    if (!entry) {
        ptrace(PTRACE_CONT, task, 0, 0);
        return;
    }
    Reply reply = world.say(*call.process, "dup " + text(entry->layer));
    world.counts.answered++;
    if (reply.error) {
        registers.orig_rax = -1, registers.rax = -reply.error;
        ptrace(PTRACE_SETREGS, task, 0, &registers);
        ptrace(PTRACE_CONT, task, 0, 0);
        return;
    }
    copies[task] = {entry->file, (int)reply.number(1)};
    ptrace(PTRACE_SYSCALL, task, 0, 0);
}

void Tracer::end_copy(int task) {
    auto found = copies.find(task);
    if (found != copies.end()) {
        user_regs_struct registers;
        ptrace(PTRACE_GETREGS, task, 0, &registers);
        Process &process = *world.by_task[task];
        long number = (long)registers.rax;
        if (number >= 0) world.enter(process, (int)number, found->second.file, found->second.layer);
        else world.layer->make(process.layer, "close " + text(found->second.layer));
        copies.erase(found);
        world.settle();
    }
    ptrace(PTRACE_CONT, task, 0, 0);
}

// ---- signals

static bool is_caught(int task, int signal) {
    return status_of(task).caught & 1ull << (signal - 1);
}

// A handler is about to run in a task that waits: the call ends with what it has.
void Tracer::interrupt(int task, int signal) {
    auto found = world.calls.find(task);
    if (found != world.calls.end() && found->second.waits() && is_caught(task, signal)) world.interrupt(found->second);
}

// The answer of a call that a signal has interrupted is put in its place; true where the signal has to wait for more.
bool Tracer::answer_at_signal(int task) {
    auto found = world.calls.find(task);
    if (found == world.calls.end() || found->second.waits()) return false;
    const Call &call = found->second;
    user_regs_struct registers;
    ptrace(PTRACE_GETREGS, task, 0, &registers);
    if ((long)registers.rax != RESTART || (int)registers.orig_rax != call.nr()) return false;
    if (call.state != Call::ENDED || call.result.way == Result::PASS) return true;
    registers.rax = call.result.error ? -call.result.error : call.result.value;
    registers.orig_rax = -1;
    ptrace(PTRACE_SETREGS, task, 0, &registers);
    world.calls.erase(found);
    return false;
}

// Whether a handler is about to run in place of a call that no signal cuts off on Linux, and that nobody has answered yet.
static bool cuts_off(int task, int signal) {
    static const std::set<int> whole = {SYS_close, SYS_close_range, SYS_dup, SYS_dup2, SYS_dup3, SYS_socket, SYS_socketpair, SYS_bind, SYS_listen,
                                        SYS_shutdown, SYS_getsockname, SYS_getpeername, SYS_getsockopt, SYS_setsockopt};
    user_regs_struct registers;
    ptrace(PTRACE_GETREGS, task, 0, &registers);
    return (long)registers.rax == RESTART && whole.count((int)registers.orig_rax) && is_caught(task, signal);
}

void Tracer::deliver_signal(int task, int signal) {
    siginfo_t info;
    memset(&info, 0, sizeof info);
    auto again = sent_again.find(task);
    if (again != sent_again.end() && !again->second.empty() && again->second.front().si_signo == signal) {
        info = again->second.front();
        again->second.erase(again->second.begin());
        ptrace(PTRACE_SETSIGINFO, task, 0, &info);
    }
    interrupt(task, signal);
    if (!answer_at_signal(task) && !cuts_off(task, signal)) {
        ptrace(PTRACE_CONT, task, 0, signal);
        return;
    }
    ptrace(PTRACE_GETSIGINFO, task, 0, &info);
    put_off[task].push_back(info);
    ptrace(PTRACE_CONT, task, 0, 0);
}

void Tracer::send_put_off(int task) {
    auto found = put_off.find(task);
    if (found == put_off.end()) return;
    for (siginfo_t &info : found->second) {
        sent_again[task].push_back(info);
        syscall(SYS_tgkill, status_of(task).group, task, info.si_signo);
    }
    put_off.erase(found);
}

// ---- stops

bool Tracer::handle_event(int task, int event) {
    unsigned long message = 0;
    ptrace(PTRACE_GETEVENTMSG, task, 0, &message);
    switch (event) {
    case PTRACE_EVENT_FORK:
    case PTRACE_EVENT_VFORK:
    case PTRACE_EVENT_CLONE: born(task, (int)message); return true;
    case PTRACE_EVENT_EXEC: executed(task, (int)message); return true;
    case PTRACE_EVENT_EXIT: ended(task); return true;
    case PTRACE_EVENT_STOP: return true;
    case PTRACE_EVENT_SECCOMP: traced(task, (unsigned)message); return false;
    }
    return true;
}

void Tracer::handle_stop(int task, int status) {
    int signal = WSTOPSIG(status), event = status >> 16;
    if (!world.by_task.count(task) && event != PTRACE_EVENT_EXEC && event != PTRACE_EVENT_EXIT) {
        early.insert(task);
        return;
    }
    if (signal == (SIGTRAP | 0x80)) return end_copy(task);
    if (!event) return deliver_signal(task, signal);
    bool stays_stopped = event == PTRACE_EVENT_STOP && (signal == SIGSTOP || signal == SIGTSTP || signal == SIGTTIN || signal == SIGTTOU);
    if (stays_stopped) ptrace(PTRACE_LISTEN, task, 0, 0);
    else if (handle_event(task, event)) ptrace(PTRACE_CONT, task, 0, 0);
}

void Tracer::handle_status(int task, int status) {
    if (WIFSTOPPED(status)) return handle_stop(task, status);
    if (task == root) root_status = status;
    ended(task);
}

void Tracer::reap() {
    for (;;) {
        int status, task = waitpid(-1, &status, __WALL | WNOHANG);
        if (task <= 0) return;
        handle_status(task, status);
    }
}

// Its end isn't told before that of its other threads was taken.
int Tracer::wait_for_root() {
    for (int status, task = 1; root_status < 0 && task > 0;)
        if ((task = waitpid(-1, &status, __WALL)) > 0) handle_status(task, status);
    return root_status;
}
