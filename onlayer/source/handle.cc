// Which call is answered by what.
#include <errno.h>
#include <linux/aio_abi.h>
#include <linux/seccomp.h>
#include <sys/syscall.h>
#include <algorithm>
#include "calls.h"
#include "text.h"

static const long MOST_BLOCKS = 65536;          // of one io_submit that are looked at

// How a call is answered: at once, or by work that may wait.
struct Way {
    Result (*now)(World &, Call &) = nullptr;
    Task<Result> (*later)(World &, Call &) = nullptr;

    Way(Result (*answer)(World &, Call &)) : now(answer) {}
    Way(Task<Result> (*answer)(World &, Call &)) : later(answer) {}
    std::optional<Result> take(World &world, Call &call) const {
        if (now) return now(world, call);
        call.work = later(world, call);
        return {};
    }
};

static const std::map<int, Way> OF_SOCKETS = {
    {SYS_bind, answer_bind}, {SYS_listen, answer_listen}, {SYS_connect, answer_connect}, {SYS_accept, answer_accept},
    {SYS_accept4, answer_accept}, {SYS_shutdown, answer_shutdown}, {SYS_getsockname, answer_name}, {SYS_getpeername, answer_name},
    {SYS_getsockopt, answer_getsockopt}, {SYS_setsockopt, answer_setsockopt}, {SYS_write, answer_write}, {SYS_writev, answer_write},
    {SYS_pwritev2, answer_write}, {SYS_sendto, answer_write}, {SYS_sendmsg, answer_sendmsg}, {SYS_sendmmsg, answer_sendmmsg},
    {SYS_read, answer_read}, {SYS_readv, answer_read}, {SYS_preadv2, answer_read}, {SYS_recvfrom, answer_read},
    {SYS_recvmsg, answer_recvmsg}, {SYS_recvmmsg, answer_recvmmsg}, {SYS_ioctl, answer_queue_size}, {SYS_sendfile, answer_sendfile},
    {SYS_splice, answer_splice}};

static const std::map<int, Way> OTHERS = {
    {SYS_socket, answer_socket}, {SYS_socketpair, answer_socket}, {SYS_close, answer_close}, {SYS_close_range, answer_close_range},
    {SYS_dup, answer_dup}, {SYS_dup2, answer_dup2}, {SYS_dup3, answer_dup2}, {SYS_prctl, answer_prctl}};

static void note_use(World &world, const NumberRef &number) {
    for (auto &[entry, what] : world.inherited)
        if (auto same = entry.lock(); same && same->file == number->file && same->process == number->process) what.used = true;
}

bool may_fail(int call) { return OF_SOCKETS.count(call) || call == SYS_socket || call == SYS_socketpair; }

// --fail: the Nth such call.
static int planned_failure(World &world, Call &call) {
    for (Failure &failure : world.options.failures)
        if (failure.call == call.nr() && ++failure.seen == failure.at) return failure.error;
    return 0;
}

static std::optional<Result> take_unless_failing(World &world, Call &call, const Way &way) {
    int error = world.options.failures.empty() ? 0 : planned_failure(world, call);
    if (!error) return way.take(world, call);
    world.counts.failed++;
    world.layer->note("failed: " + call_name(call.nr()) + " by " + world.title(*call.process) + ", as asked, with " + errno_name(error));
    return fail(error);
}

// A socket of another process would come to this one without a call of the layer's.
static Result answer_pidfd_getfd(World &world, Call &call) {
    Process *other = world.process_of(pid_behind(call.task, call.argument(0)));
    if (!other) return pass();
    auto found = other->table.find(call.argument(1));
    if (found == other->table.end() || !found->second->file->is_socket()) return pass();
    return world.refuse(call, EPERM, "a socket of the layer can't be taken out of a process");
}

// The kernel's asynchronous reads and writes would meet the placeholder.
static Result answer_io_submit(World &world, Call &call) {
    u64 at;
    iocb block;
    for (long i = 0; i < std::min<long>(call.data.args[1], MOST_BLOCKS); i++) {
        bool is_there = read_value(call.task, call.data.args[2] + i * sizeof at, at) && read_value(call.task, at, block);
        if (is_there && block.aio_lio_opcode != IOCB_CMD_POLL && world.find_socket(call, block.aio_fildes))
            return world.refuse(call, EINVAL, "a socket of the layer has no asynchronous reads and writes");
    }
    return pass();
}

static std::optional<Result> of_other_file(World &world, Call &call) {
    int number = call.argument(0);
    if (call.nr() == SYS_splice && world.find_socket(call, call.argument(2))) {
        call.work = answer_splice(world, call);
        return {};
    }
    if (call.nr() == SYS_sendmsg && passes_own_socket(world, call))
        return world.refuse(call, EINVAL, "a socket of the layer can't be passed over one of the kernel's");
    if (!call.process->closing.empty() && world.is_being_closed(call, number)) return fail(EBADF);
    return pass();
}

static std::optional<Result> of_socket(World &world, Call &call, const Way &way) {
    call.number = world.find_socket(call, call.argument(0));
    if (!call.number) return of_other_file(world, call);
    bool has_offset = call.nr() == SYS_preadv2 || call.nr() == SYS_pwritev2;
    if (has_offset && (long)call.data.args[3] != -1) return fail(ESPIPE);
    if (!world.inherited.empty() && call.number->file->listening) note_use(world, call.number);
    return take_unless_failing(world, call, way);
}

std::optional<Result> World::handle(Call &call) {
    auto of_a_socket = OF_SOCKETS.find(call.nr());
    if (of_a_socket != OF_SOCKETS.end()) return of_socket(*this, call, of_a_socket->second);
    auto other = OTHERS.find(call.nr());
    if (other != OTHERS.end()) {
        if (call.process->tasks.size() > 1) call.process->changes++;    // another thread may stand between this and the kernel
        return take_unless_failing(*this, call, other->second);
    }
    switch (call.nr()) {
    case SYS_setuid: case SYS_setgid: case SYS_setreuid: case SYS_setregid: case SYS_setresuid: case SYS_setresgid: case SYS_setgroups:
        call.process->ids_changed = true;
        return pass();
    case SYS_io_uring_setup: return refuse(call, ENOSYS, "its rings bypass the supervisor");
    case SYS_io_submit: return answer_io_submit(*this, call);
    case SYS_seccomp:
        if (!(call.data.args[1] & SECCOMP_FILTER_FLAG_NEW_LISTENER)) return pass();
        return refuse(call, EBUSY, "a listener of the program's own can't stand beside onlayer's");
    case SYS_ptrace: return refuse(call, EPERM, "onlayer traces the program itself");
    case SYS_pidfd_getfd: return answer_pidfd_getfd(*this, call);
    }
    return pass();
}
