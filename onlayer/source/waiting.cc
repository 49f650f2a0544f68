// Answers, calls that wait, and what lets them go on.
#include <errno.h>
#include <fcntl.h>
#include <signal.h>
#include <stdio.h>
#include <string.h>
#include <sys/ioctl.h>
#include <sys/syscall.h>
#include <sys/time.h>
#include <unistd.h>
#include <algorithm>
#include "text.h"
#include "world.h"

static const double NEVER = 1e18;

// ---- calls that begin, and that come again

void World::begin(Call &call) {
    unsigned long lines = layer->calls();
    std::optional<Result> result = handle(call);
    if (!result && call.work.is_done()) result = call.work.take();
    bool is_own = !result || result->way != Result::PASS || layer->calls() != lines;
    is_own ? counts.answered++ : counts.passed++;
    if (result) call.result = *result;
    settle();                                  // what it changed is shown before it is answered
    if (!result) return;
    answer(call);
    settle();
}

void World::let_through(Call &call) {
    call.result = pass();
    answer(call);
}

void World::renew(Call &call, u64 id) {
    call.id = id;
    if (call.waits() || (call.state == Call::GIVES && !go_on(call))) return;
    call.result.raises_sigpipe = false;
    settle();
    answer(call);
    settle();
}

// Whether the call has come to its end.
bool World::go_on(Call &call) {
    call.state = Call::RUNS;
    std::exchange(call.at, nullptr).resume();
    if (!call.work.is_done()) return false;
    call.result = call.work.take();
    return true;
}

void World::resume(Call &call, Reply reply) {
    call.reply = std::move(reply);
    if (!go_on(call)) return;
    show_changed();                            // what it changed is shown before it is answered
    answer(call);
}

// ---- waiting

bool World::waits(const Call &call, unsigned flags) {
    return !call.interrupted && !(flags & MSG_DONTWAIT) && !(fcntl(call.number->file->shown.get(), F_GETFL) & O_NONBLOCK);
}

// Of the whole call: it is counted from where the call waits first.
void World::set_deadline(Call &call, int limit_option) const {
    if (call.deadline) return;
    timeval limit = {0, 0};
    socklen_t length = sizeof limit;
    getsockopt(call.number->file->shown.get(), SOL_SOCKET, limit_option, &limit, &length);
    call.deadline = limit.tv_sec || limit.tv_usec ? now() + limit.tv_sec + limit.tv_usec / 1e6 : NEVER;
}

unsigned World::pend(int process, const std::string &words, std::function<void(Reply)> then) {
    unsigned number = ++last_pending;
    std::optional<Reply> reply = layer->pend(number, process, words);
    if (!reply) pending[number] = std::move(then);
    else then(std::move(*reply));
    return reply ? 0 : number;
}

void World::cancel(unsigned pended) {
    if (pending.erase(pended)) layer->cancel(pended);
}

Task<Reply> World::ask(Call &call, std::string words, unsigned flags, int limit_option) {
    if (!waits(call, flags)) co_return say(*call.process, words);
    if (!sync_ids(*call.process)) co_return Reply::of_error(ENFILE);
    unsigned number = ++last_pending;
    std::optional<Reply> reply = layer->pend(number, call.process->layer, words);
    if (reply) co_return std::move(*reply);
    set_deadline(call, limit_option);
    if (now() >= call.deadline) {
        layer->cancel(number);
        co_return Reply::of_error(EAGAIN);
    }
    call.pending = number;
    pending[number] = [this, &call](Reply answer) { resume(call, std::move(answer)); };
    co_await Stop{call, Call::ASKS};
    call.pending = 0;
    co_return std::move(call.reply);
}

Task<int> World::pause(Call &call, double seconds, unsigned flags, int limit_option) {
    if (!waits(call, flags)) co_return EAGAIN;
    set_deadline(call, limit_option);
    if (now() >= call.deadline) co_return EAGAIN;
    call.retry = now() + seconds;
    call.reply = Reply();
    co_await Stop{call, Call::PAUSES};
    co_return call.reply.error;
}

// ---- what lets them go on

// Of the layer's answers to calls that were pending, the next. Whether there was one.
bool World::answer_next() {
    if (layer->answered.empty()) return false;
    Answer answer = std::move(layer->answered.front());
    layer->answered.pop_front();
    if (auto found = pending.extract(answer.number)) found.mapped()(std::move(answer.reply));
    return true;
}

void World::show_changed() {
    for (const Ref &file : std::exchange(changed, {})) placeholders.show(*file);
}

void World::settle() {
    if (std::exchange(is_settling, true)) return;
    do show_changed();
    while (answer_next() || !changed.empty());
    is_settling = false;
}

double World::next_deadline() const {
    double first = NEVER;
    for (auto &[task, call] : calls) {
        if (call.waits()) first = std::min(first, call.deadline);
        if (call.state == Call::PAUSES) first = std::min(first, call.retry);
    }
    return first;
}

void World::time_out() {
    double time = now();
    std::vector<int> late;
    for (auto &[task, call] : calls)
        if (call.waits() && (call.deadline <= time || (call.state == Call::PAUSES && call.retry <= time))) late.push_back(task);
    for (int task : late) {
        auto found = calls.find(task);
        if (found == calls.end() || !found->second.waits()) continue;
        bool is_over = found->second.deadline <= time;
        cancel(std::exchange(found->second.pending, 0));
        resume(found->second, is_over ? Reply::of_error(EAGAIN) : Reply());
    }
    settle();
}

// A call that comes to nothing is made anew by the kernel, or ends with EINTR, as the handler was installed.
void World::interrupt(Call &call) {
    int task = call.task;
    bool has_limit = call.deadline < NEVER;
    call.interrupted = true;
    cancel(std::exchange(call.pending, 0));
    call.reply = Reply::of_error(EAGAIN);
    if (go_on(call)) {
        if (call.result.error == EAGAIN && has_limit) call.result = fail(EINTR);
        let_go(std::move(call.number));
        if (call.result.way == Result::DONE && call.result.error != EAGAIN) call.state = Call::ENDED;
        else calls.erase(task);
    }
    settle();
}

void World::end(int task) {
    auto found = calls.find(task);
    if (found == calls.end()) return;
    cancel(found->second.pending);
    NumberRef number = std::move(found->second.number);
    calls.erase(found);
    let_go(std::move(number));
}

// ---- answers

// A stream's EPIPE comes with a signal, which is to find the call answered: the tracer answers it as the signal is delivered.
void World::raise_sigpipe(Call &call) {
    call.state = Call::ENDED;
    syscall(SYS_tgkill, call.process->pid, call.task, SIGPIPE);
}

// The call is gone behind this, but where a signal has kept the answer from it.
void World::answer(Call &call) {
    const Result result = call.result;
    int task = call.task, pid = call.process ? call.process->pid : 0;
    NumberRef number = std::move(call.number);
    call.work = {};
    bool is_blocked = result.raises_sigpipe && status_of(task).blocked & 1ull << (SIGPIPE - 1);
    if (result.raises_sigpipe && !is_blocked) {
        raise_sigpipe(call);
        return let_go(std::move(number));
    }
    seccomp_notif_resp response = {};
    response.id = call.id;
    if (result.way == Result::PASS) response.flags = SECCOMP_USER_NOTIF_FLAG_CONTINUE;
    else if (result.error) response.error = -result.error;
    else response.val = result.value;
    bool is_lost = ioctl(call.listener, SECCOMP_IOCTL_NOTIF_SEND, &response) && errno == ENOENT;
    if (is_lost) counts.put_off++, call.state = Call::ENDED;
    else calls.erase(task);
    if (result.raises_sigpipe) syscall(SYS_tgkill, pid, task, SIGPIPE);
    let_go(std::move(number));
}

void World::complain(const std::string &line) {
    if (complaints.insert(line).second) tell("onlayer: " + line + "\n");
}
Result World::refuse(Call &call, int error, const std::string &why) {
    counts.refused++;
    complain("refused: " + call_name(call.nr()) + " by " + title(*call.process) + ": " + why + "; it is answered with " + errno_name(error));
    return fail(error);
}
