#include <errno.h>
#include <string.h>
#include <sys/syscall.h>
#include <sys/un.h>
#include <unistd.h>
#include <algorithm>
#include "calls.h"
#include "text.h"

static const size_t PIECE = 65536;             // of a stream; a record may be as long
static const int NO_NUMBER = 4095;             // what no table has open

// ---- control data

struct Items {
    std::vector<int> rights;
    std::string credentials;
    bool is_readable = true;
};

static std::string credentials_word(const World &world, const Call &call, const ucred &given) {
    long number = given.pid == call.task || given.pid == call.process->pid ? call.process->layer : 4294967295;
    auto found = world.by_task.find(given.pid);
    if (found != world.by_task.end() && found->second->layer) number = found->second->layer;
    return "c:" + text(number) + "," + text(given.uid) + "," + text(given.gid);
}

// Whether the item is one of those that Linux knows, and as long as it has to be.
static bool read_item(const World &world, const Call &call, const cmsghdr &head, const char *data, Items &items) {
    size_t length = head.cmsg_len - sizeof head, before = items.rights.size();
    ucred given;
    if (head.cmsg_type == SCM_RIGHTS) {
        items.rights.resize(before + length / sizeof(int));
        if (length >= sizeof(int)) memcpy(&items.rights[before], data, length / sizeof(int) * sizeof(int));
        return true;
    }
    if (head.cmsg_type != SCM_CREDENTIALS || length != sizeof given) return false;
    memcpy(&given, data, sizeof given);
    items.credentials = credentials_word(world, call, given);
    return true;
}

// The items of a control buffer, by Linux's walk (__scm_send): an unknown level is skipped, the numbers of a second item of
// rights follow those of the first, and a length that is no multiple of 4 is rounded down.
static Items read_items(const World &world, const Call &call, const std::string &buffer) {
    Items items;
    cmsghdr head;
    for (size_t from = 0; from + sizeof head <= buffer.size() && items.is_readable; from += CMSG_ALIGN(head.cmsg_len)) {
        memcpy(&head, &buffer[from], sizeof head);
        items.is_readable = head.cmsg_len >= sizeof head && head.cmsg_len <= buffer.size() - from;
        if (items.is_readable && head.cmsg_level == SOL_SOCKET) items.is_readable = read_item(world, call, head, &buffer[from] + sizeof head, items);
    }
    return items;
}

Control read_control(World &world, Call &call, u64 at, size_t length) {
    Control out;
    if (!length) return out;
    std::string buffer(std::min<size_t>(length, 65537), 0);
    if (length > 65536) out.error = ENOBUFS;
    else if (!read_memory(call.task, at, &buffer[0], length)) out.error = EFAULT;
    if (out.error) return out;
    Items items = read_items(world, call, buffer);
    out.is_broken = !items.is_readable;
    std::string words;
    for (int right : items.rights) {
        int number = right < 0 ? -EBADF : world.adopt(call, right);
        if (number < 0 && number != -EBADF) {
            out.error = -number;
            return out;
        }
        words += (words.empty() ? "r:" : ",") + text(number < 0 ? NO_NUMBER : number);
        out.rights += number >= 0;
    }
    if (!items.credentials.empty()) words += (words.empty() ? "" : "+") + items.credentials;
    if (!words.empty()) out.word = words;
    return out;
}

static bool is_of_unix(const File &socket) {
    int domain = 0;
    socklen_t length = sizeof domain;
    return socket && !getsockopt(socket.get(), SOL_SOCKET, SO_DOMAIN, &domain, &length) && domain == AF_UNIX;
}

bool passes_own_socket(World &world, Call &call) {
    msghdr head;
    if (call.process->table.empty() || !read_value(call.task, call.data.args[1], head) || !head.msg_control) return false;
    std::string buffer(std::min<size_t>(head.msg_controllen, 65536), 0);
    if (buffer.empty() || !read_memory(call.task, (u64)head.msg_control, &buffer[0], buffer.size())) return false;
    bool has_own = false;
    for (int right : read_items(world, call, buffer).rights) has_own = has_own || world.find_socket(call, right);
    return has_own && is_of_unix(take_file(call.process->pid, call.argument(0)));    // others don't take rights, and say so
}

// ---- sends

// A datagram of a bound socket to one outside: it is sent from where programs outside see that name.
static Result send_from_gate(Call &call, const Parts &parts, const Address &to) {
    sockaddr_un name = {AF_UNIX, {}};
    File target = to.sun_path.empty() ? File() : open_path(call.task, to.sun_path);
    std::string path = to.sun_path.empty() ? std::string(1, 0) + name_bytes(to.word.substr(2)) : proc_path(getpid(), "fd/" + text(target.get()));
    memcpy(name.sun_path, path.data(), std::min(path.size(), sizeof name.sun_path));
    std::string data;
    if (!gather(call.task, parts, 0, 4 * PIECE, data)) return fail(EFAULT);
    ssize_t n = sendto(call.number->file->gate.get(), data.data(), data.size(), MSG_DONTWAIT | MSG_NOSIGNAL, (sockaddr *)&name,
                       offsetof(sockaddr_un, sun_path) + path.size());
    return n < 0 ? fail(errno) : done(n);
}

// In pieces, as a stream's queue takes them.
static Task<Result> send_pieces(World &world, Call &call, Parts parts, Address to, Control control, unsigned flags) {
    bool is_stream = call.number->file->is_stream();
    std::string data, before = "send " + text(call.number->layer) + " " + to.word + " ", letters = flags & MSG_DONTWAIT ? " d" : " -";
    size_t done_bytes = 0, all = room_of(parts);
    for (;;) {
        if (!gather(call.task, parts, done_bytes, is_stream ? PIECE : PIECE + 1, data)) co_return done_bytes ? done(done_bytes) : fail(EFAULT);
        std::string words = before + hex(data) + " " + (done_bytes ? "-" : control.word) + letters;
        Reply reply = co_await world.ask(call, std::move(words), flags, SO_SNDTIMEO);
        if (reply.error && done_bytes) co_return done(done_bytes);
        Result result = reply.error ? fail(reply.error) : done(reply.number(1));
        result.raises_sigpipe = reply.error == EPIPE && is_stream && !(flags & MSG_NOSIGNAL);
        if (reply.error) co_return result;
        if (!done_bytes) world.counts.rights_sent += control.rights;
        done_bytes += result.value;
        if (!is_stream || done_bytes >= all || !result.value) co_return done(done_bytes);
    }
}

static Task<Result> send_parts(World &world, Call &call, Parts parts, Address to, Control control, unsigned flags) {
    if (flags & MSG_OOB) co_return world.refuse(call, EOPNOTSUPP, "the layer has no out-of-band data");
    if (to.is_outside && call.number->file->gate) co_return send_from_gate(call, parts, to);
    if (to.is_outside) co_return go_outside(world, call);
    co_return co_await send_pieces(world, call, std::move(parts), std::move(to), std::move(control), flags);
}

static Task<Result> send_message(World &world, Call &call, u64 at, unsigned flags) {
    Message message = read_message(call, at);
    if (message.error) co_return fail(message.error);
    msghdr &head = message.head;
    Address to;
    if (head.msg_name && head.msg_namelen) to = read_address(world, call, (u64)head.msg_name, head.msg_namelen, false);
    Control control = read_control(world, call, (u64)head.msg_control, head.msg_control ? head.msg_controllen : 0);
    if (control.is_broken) to = Address(), to.word = "u";    // which the layer refuses (EINVAL), once it has judged the items before
    if (control.error || to.error) co_return fail(control.error ? control.error : to.error);
    co_return co_await send_parts(world, call, std::move(message.parts), std::move(to), std::move(control), flags);
}

Task<Result> answer_write(World &world, Call &call) {
    const auto &a = call.data.args;
    bool is_vector = call.nr() == SYS_writev || call.nr() == SYS_pwritev2, is_sendto = call.nr() == SYS_sendto;
    Parts parts{{(void *)a[1], (size_t)a[2]}};
    int error = is_vector ? read_parts(call, a[1], a[2], parts) : 0;
    if (error) co_return fail(error == EMSGSIZE ? EINVAL : error);
    if (is_vector && !room_of(parts)) co_return done(0);
    Address to;
    if (is_sendto && a[4] && a[5]) to = read_address(world, call, a[4], (long)(int)a[5], false);
    if (to.error) co_return fail(to.error);
    Control none;
    co_return co_await send_parts(world, call, std::move(parts), std::move(to), std::move(none), is_sendto ? a[3] : flags_of_vector(call));
}

Task<Result> answer_sendmsg(World &world, Call &call) { return send_message(world, call, call.data.args[1], call.data.args[2]); }

Task<Result> answer_sendmmsg(World &world, Call &call) {
    const auto &a = call.data.args;
    unsigned count = std::min<u64>((unsigned)a[2], 1024);
    for (unsigned messages = 0; messages < count; messages++) {
        u64 at = a[1] + messages * sizeof(mmsghdr);
        Result result = co_await send_message(world, call, at, a[3]);
        if (result.way == Result::PASS || result.error) co_return messages ? done(messages) : result;
        unsigned sent = result.value;
        if (!write_value(call.task, at + offsetof(mmsghdr, msg_len), sent)) co_return messages ? done(messages) : fail(EFAULT);
    }
    co_return done(count);
}
