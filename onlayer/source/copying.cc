// sendfile and splice, which are reads and sends here.
#include <errno.h>
#include <fcntl.h>
#include <poll.h>
#include <sys/ioctl.h>
#include <sys/stat.h>
#include <sys/syscall.h>
#include <unistd.h>
#include <algorithm>
#include "calls.h"
#include "text.h"

static const size_t PIECE = 65536;             // what one trip to the layer carries
static const size_t MOST_SPLICED = 4096;       // bytes of one splice
static const double PAUSE = 0.002;             // seconds until a pipe is looked at again
static const unsigned SPLICE_FLAGS = SPLICE_F_MOVE | SPLICE_F_NONBLOCK | SPLICE_F_MORE | SPLICE_F_GIFT;

// Sends bytes of onlayer's own as those of the program, as soon as there is room for them.
static Task<Reply> send_bytes(World &world, Call &call, const std::string &bytes, unsigned flags) {
    std::string words = "send " + text(call.number->layer) + " - " + hex(bytes) + " - -";
    return world.ask(call, std::move(words), flags, SO_SNDTIMEO);
}
static Result failed(const Call &call, int error) {
    Result result = fail(error);
    result.raises_sigpipe = error == EPIPE && call.number->file->is_stream();
    return result;
}

// The next bytes of a file, none at its end; an error below 0.
static ssize_t read_piece(const File &source, off_t offset, size_t most, std::string &bytes) {
    bytes.resize(std::min(most, PIECE));
    ssize_t n = pread(source.get(), &bytes[0], bytes.size(), offset);
    bytes.resize(std::max<ssize_t>(n, 0));
    return n < 0 ? -errno : n;
}

Task<Result> answer_sendfile(World &world, Call &call) {
    File source = take_file(call.process->pid, call.argument(1));
    if (!source) co_return fail(EBADF);
    u64 offset_at = call.data.args[2];
    off_t offset = lseek(source.get(), 0, SEEK_CUR);
    if (offset < 0) co_return fail(EINVAL);
    if (offset_at && !read_value(call.task, offset_at, offset)) co_return fail(EFAULT);
    size_t all = std::min<size_t>(call.data.args[3], 0x7ffff000), copied = 0;
    int error = 0;
    std::string bytes;
    while (copied < all && !error) {
        ssize_t n = read_piece(source, offset, all - copied, bytes);
        if (n < 0) error = -n;
        if (n <= 0) break;
        Reply reply = co_await send_bytes(world, call, bytes, 0);
        error = reply.error;
        if (!error) offset += reply.number(1), copied += reply.number(1);
    }
    if (offset_at) write_value(call.task, offset_at, offset);
    else lseek(source.get(), offset, SEEK_SET);
    co_return error && !copied ? failed(call, error) : done(copied);
}

// How many bytes the pipe has, once it has some; 0 where nobody writes to it any more, an error below 0.
static Task<int> await_pipe(World &world, Call &call, const File &pipe, unsigned flags) {
    for (;;) {
        int waiting = 0;
        pollfd end = {pipe.get(), POLLIN, 0};
        poll(&end, 1, 0);
        if (ioctl(pipe.get(), FIONREAD, &waiting)) co_return -EINVAL;
        if (waiting || end.revents & POLLHUP) co_return waiting;
        if (int error = co_await world.pause(call, PAUSE, flags, SO_RCVTIMEO)) co_return -error;
    }
}

static Task<Result> splice_from_pipe(World &world, Call &call, File pipe, size_t all, unsigned flags) {
    int waiting = co_await await_pipe(world, call, pipe, flags);
    if (waiting <= 0) co_return answer_of(waiting);
    while (!call.number->file->has(OUT | HUP))
        if (int error = co_await world.pause(call, PAUSE, flags, SO_SNDTIMEO)) co_return fail(error);
    std::string bytes(std::min(std::min(all, (size_t)waiting), MOST_SPLICED), 0);
    ssize_t n = read(pipe.get(), &bytes[0], bytes.size()), sent = 0;
    if (n <= 0) co_return n ? fail(errno) : done(0);
    bytes.resize(n);
    while (sent < n) {                         // what was read is sent whole
        std::string rest = bytes.substr(sent);
        Reply reply = co_await send_bytes(world, call, rest, 0);
        if (reply.error) co_return sent ? done(sent) : failed(call, reply.error);
        sent += reply.number(1);
    }
    co_return done(sent);
}

static Task<Result> splice_to_pipe(World &world, Call &call, File pipe, size_t all, unsigned flags) {
    unsigned waits = flags & SPLICE_F_NONBLOCK ? MSG_DONTWAIT : 0;
    pollfd end = {pipe.get(), POLLOUT, 0};
    while (poll(&end, 1, 0) <= 0)
        if (int error = co_await world.pause(call, PAUSE, waits, SO_RCVTIMEO)) co_return fail(error);
    int queued = 0;
    ioctl(pipe.get(), FIONREAD, &queued);
    size_t room = std::max(fcntl(pipe.get(), F_GETPIPE_SZ) - queued, 1), most = std::min(std::min(all, room), MOST_SPLICED);
    Got got = co_await receive(world, call, most, 0, waits);
    if (got.error) co_return fail(got.error);
    ssize_t n = got.n ? write(pipe.get(), got.data.data(), got.data.size()) : 0;
    co_return n < 0 ? fail(errno) : done(n);
}

static bool is_pipe(const File &file) {
    struct stat found;
    return !fstat(file.get(), &found) && S_ISFIFO(found.st_mode);
}

// One of the two has to be a pipe, and none has an offset.
Task<Result> answer_splice(World &world, Call &call) {
    const auto &a = call.data.args;
    NumberRef into = world.find_socket(call, (int)a[2]);
    int pipe_at = into ? 0 : 2, socket_at = 2 - pipe_at;
    if (!a[4]) co_return done(0);
    if (a[5] & ~(u64)SPLICE_FLAGS) co_return fail(EINVAL);
    File pipe = take_file(call.process->pid, (int)a[pipe_at]);
    if (!pipe) co_return fail(EBADF);
    if (!is_pipe(pipe)) co_return fail(EINVAL);
    if (a[pipe_at + 1] || a[socket_at + 1]) co_return fail(a[pipe_at + 1] ? ESPIPE : EINVAL);
    if (!into) co_return co_await splice_to_pipe(world, call, std::move(pipe), a[4], a[5]);
    call.number = std::move(into);
    co_return co_await splice_from_pipe(world, call, std::move(pipe), a[4], a[5] & SPLICE_F_NONBLOCK ? MSG_DONTWAIT : 0);
}
