#include "supervisor.h"
#include <errno.h>
#include <linux/audit.h>
#include <linux/close_range.h>
#include <string.h>
#include <sys/ioctl.h>
#include <sys/resource.h>
#include <sys/signalfd.h>
#include <sys/syscall.h>
#include <sys/wait.h>
#include <unistd.h>
#include "filter.h"
#include "report.h"
#include "text.h"

static const int IDLE = 1000;                  // milliseconds after which a deadlock is looked for
static const int MOST_READY = 16;              // events at once

sigset_t watched_signals() {
    sigset_t all;
    sigemptyset(&all);
    for (int signal : {SIGCHLD, SIGUSR1, SIGINT, SIGTERM, SIGHUP, SIGQUIT}) sigaddset(&all, signal);
    return all;
}

static bool is_same(const seccomp_data &one, const seccomp_data &other) {
    return one.nr == other.nr && !memcmp(one.args, other.args, sizeof one.args);
}

// Whether a signal has interrupted the task in this call before: it goes on then. Another call has taken the place of that one.
bool Supervisor::comes_again(const seccomp_notif &told, int listener) {
    auto found = world.calls.find((int)told.pid);
    if (found == world.calls.end()) return false;
    if (!is_same(found->second.data, told.data)) {
        world.end((int)told.pid);
        return false;
    }
    found->second.listener = listener;
    world.renew(found->second, told.id);
    return true;
}

// A call that has the program's tasks go on with tables of their own.
static bool parts_tables(const Call &call) {
    return call.nr() == SYS_unshare || (call.nr() == SYS_close_range && call.argument(2) & CLOSE_RANGE_UNSHARE);
}

// The task's process, with which it may have a table of its own from this call on.
Process *Supervisor::process_of(const Call &call) {
    if (!world.by_task.count(call.task)) tracer.reap();
    if (world.by_task.count(call.task) && parts_tables(call)) tracer.split(call.task);
    return world.process_of(call.task);
}

void Supervisor::take_notification(int listener) {
    seccomp_notif told;
    memset(&told, 0, sizeof told);
    if (ioctl(listener, SECCOMP_IOCTL_NOTIF_RECV, &told)) return;
    int task = (int)told.pid;
    if (!comes_again(told, listener)) {
        Call &call = world.calls[task];
        call.id = told.id, call.listener = listener, call.task = task, call.data = told.data;
        call.process = process_of(call);
        begin(call);
    }
    auto left = world.calls.find(task);
    if (left == world.calls.end() || left->second.state == Call::ENDED) tracer.send_put_off(task);
}

void Supervisor::begin(Call &call) {
    if (!call.process) {
        world.complain("a call of an unknown task " + text(call.task) + " is let through");
        return world.let_through(call);
    }
    if (call.data.arch != AUDIT_ARCH_X86_64 || call.nr() & 0x40000000) return world.stop_foreign(*call.process);
    if (world.options.verbose) world.layer->note(world.title(*call.process) + " " + call_name(call.nr()) + " " + text(call.argument(0)));
    world.begin(call);
}

// A signal that asks onlayer to end is for the command, and where that has ended for all that it has left.
void Supervisor::pass_on(const signalfd_siginfo &info) {
    bool is_terminals = info.ssi_code > 0;     // the terminal has sent it to the command too
    if (world.by_task.count(tracer.root)) {
        if (!is_terminals) kill(tracer.root, info.ssi_signo);
        return;
    }
    for (auto &process : world.processes)
        if (!process->tasks.empty()) kill(process->pid, info.ssi_signo);
}

void Supervisor::take_signals() {
    signalfd_siginfo info;
    while (read(signals.get(), &info, sizeof info) == sizeof info) {
        if (info.ssi_signo == SIGUSR1) report_now(world);
        else if (info.ssi_signo != SIGCHLD) pass_on(info);
    }
    tracer.reap();
}

static bool may_come_from_outside(const World &world, std::map<int, Held> &holders, const Description &own) {
    return own.gate || world.outside->has_bridge(holders[own.id].peer);
}

void Supervisor::look_for_deadlock(bool was_idle) {
    size_t waiting = 0;
    for (auto &[task, call] : world.calls) waiting += call.waits();
    bool all_wait = was_idle && waiting && waiting == world.by_task.size() && world.next_deadline() > 1e17;
    std::map<int, Held> holders;
    if (all_wait) holders = world.layer->holders();
    for (auto &[task, call] : world.calls)
        all_wait = all_wait && !(call.waits() && may_come_from_outside(world, holders, *call.number->file));
    if (all_wait && !told_deadlock) report_deadlock(world);
    told_deadlock = all_wait;
}

void Supervisor::handle_event(const epoll_event &event) {
    int file = event.data.fd;
    if (file == world.outside->event_file()) return world.outside->handle_events();
    if (event.events & EPOLLIN && world.listeners.count(file)) return take_notification(file);
    if (event.events & EPOLLHUP) world.listeners.erase(file);    // all that had the filter have ended
}

void Supervisor::wait_for_something() {
    epoll_event ready[MOST_READY];
    double until = world.next_deadline();
    int limit = until > 1e17 ? IDLE : std::min(IDLE, std::max(0, (int)((until - now()) * 1000) + 1));
    int count = epoll_wait(world.events.get(), ready, MOST_READY, limit);
    for (int i = 0; i < count; i++)
        if (ready[i].data.fd == signals.get()) take_signals();
    for (int i = 0; i < count; i++) handle_event(ready[i]);
    world.outside->carry_all();
    if (world.next_deadline() <= now()) world.time_out();
    look_for_deadlock(count == 0 && limit == IDLE);
    if (count == 0) world.layer->flush();
}

int Supervisor::run() {
    sigset_t watched = watched_signals();
    signal(SIGPIPE, SIG_IGN);
    signals.reset(signalfd(-1, &watched, SFD_CLOEXEC | SFD_NONBLOCK));
    world.await(signals.get());
    world.await(world.outside->event_file());
    File listener;
    bool watches_at_once = geteuid() == 0;     // a program that drops the superuser's rights might refuse the filter later
    tracer.start(start_program(world.options.command, watches_at_once ? &listener : nullptr), watches_at_once);
    if (watches_at_once) world.listen_to(std::move(listener));
    rlimit most;
    getrlimit(RLIMIT_NOFILE, &most);
    most.rlim_cur = most.rlim_max;             // placeholders take two numbers a socket
    setrlimit(RLIMIT_NOFILE, &most);
    while (!world.by_task.empty()) wait_for_something();
    tracer.reap();
    world.layer->flush();
    report_end(world, tracer.calls_at_end);
    int status = tracer.wait_for_root();
    return WIFEXITED(status) ? WEXITSTATUS(status) : 128 + WTERMSIG(status);
}
