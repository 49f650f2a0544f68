// Calls that copy and close numbers.
#include <errno.h>
#include <fcntl.h>
#include <linux/close_range.h>
#include <sys/prctl.h>
#include <sys/resource.h>
#include <sys/stat.h>
#include <sys/syscall.h>
#include <unistd.h>
#include <algorithm>
#include "calls.h"
#include "text.h"

// The kernel closes them behind this; until then they aren't the layer's, and mustn't be the kernel's either.
static void close_numbers(World &world, Call &call, std::vector<int> numbers) {
    struct stat file;
    numbers.erase(std::remove_if(numbers.begin(), numbers.end(), [&](int number) { return !world.find(call, number); }), numbers.end());
    for (int number : numbers)
        if (call.process->tasks.size() > 1 && !fstat(call.process->table[number]->file->shown.get(), &file)) call.process->closing[number] = file.st_ino;
    world.drop(*call.process, numbers);
}

Result answer_close(World &world, Call &call) {
    close_numbers(world, call, {call.argument(0)});
    return pass();
}

Result answer_close_range(World &world, Call &call) {
    unsigned first = call.data.args[0], last = call.data.args[1];
    if (call.data.args[2] & CLOSE_RANGE_CLOEXEC || first > last) return pass();
    std::vector<int> numbers;
    for (auto &[number, entry] : call.process->table)
        if ((unsigned)number >= first && (unsigned)number <= last) numbers.push_back(number);
    close_numbers(world, call, numbers);
    return pass();
}

static Task<Result> copy_to(World &world, Call &call, NumberRef entry, bool closes_on_exec, int at) {
    Reply reply = world.say(*call.process, "dup " + text(entry->layer));
    if (reply.error) co_return fail(reply.error);
    std::vector<Gift> gifts{{entry->file, (int)reply.number(1), closes_on_exec, at}};
    entry.reset();
    std::vector<int> numbers = co_await world.deliver(call, std::move(gifts));
    co_return answer_of(numbers[0]);
}

Task<Result> answer_dup(World &world, Call &call) {
    NumberRef entry = world.find(call, call.argument(0));
    if (!entry) co_return pass();
    co_return co_await copy_to(world, call, std::move(entry), false, -1);
}

static bool is_below_limit(const Call &call, int number) {
    rlimit limit;
    return number >= 0 && !prlimit(call.process->pid, RLIMIT_NOFILE, nullptr, &limit) && (rlim_t)number < limit.rlim_cur;
}

Task<Result> answer_dup2(World &world, Call &call) {
    int from = call.argument(0), to = call.argument(1);
    NumberRef entry = world.find(call, from);
    unsigned flags = call.nr() == SYS_dup3 ? call.data.args[2] : 0;
    if (from == to || flags & ~O_CLOEXEC || !is_below_limit(call, to)) co_return pass();    // refused, or nothing to do
    if (!entry) {
        struct stat file;
        bool is_open = !lstat(proc_path(call.task, "fd/" + text(from)).c_str(), &file);
        if (is_open) close_numbers(world, call, {to});
        co_return pass();
    }
    co_return co_await copy_to(world, call, std::move(entry), flags != 0, to);
}

// A process that hides could not be read or given descriptors by an ordinary user, so it only thinks that it does.
Result answer_prctl(World &, Call &call) {
    if (geteuid() == 0) return pass();
    if (call.data.args[0] == PR_GET_DUMPABLE) return call.process->hides ? done(0) : pass();
    if (call.data.args[1] > 1) return pass();
    call.process->hides = call.data.args[1] == 0;
    return done(0);
}
