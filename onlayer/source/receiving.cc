#include <errno.h>
#include <string.h>
#include <sys/syscall.h>
#include <algorithm>
#include "calls.h"
#include "text.h"

static const size_t MOST_BYTES = 1 << 20, MOST_SPACE = 4294967295;

int read_parts(const Call &call, u64 at, size_t count, Parts &parts) {
    if (count > 1024) return EMSGSIZE;
    parts.resize(count);
    if (!read_memory(call.task, at, parts.data(), count * sizeof(iovec))) return EFAULT;
    return std::any_of(parts.begin(), parts.end(), [](const iovec &part) { return (ssize_t)part.iov_len < 0; }) ? EINVAL : 0;
}

unsigned flags_of_vector(const Call &call) {
    bool has_flags = call.nr() == SYS_preadv2 || call.nr() == SYS_pwritev2;
    return has_flags && call.data.args[5] & RWF_NOWAIT ? MSG_DONTWAIT : 0;
}

Message read_message(const Call &call, u64 at) {
    Message message;
    if (!read_value(call.task, at, message.head)) message.error = EFAULT;
    else message.error = read_parts(call, (u64)message.head.msg_iov, message.head.msg_iovlen, message.parts);
    return message;
}

static std::string letters_of(unsigned flags) {
    std::string letters = flags & MSG_DONTWAIT ? "d" : "";
    if (flags & MSG_PEEK) letters += "p";
    if (flags & MSG_TRUNC) letters += "t";
    if (flags & MSG_CMSG_CLOEXEC) letters += "x";
    return letters.empty() ? "-" : letters;
}

// What the reply says was in the message, and the open files that it gave.
static Got read_got(const World &world, const Reply &reply, unsigned flags, std::vector<Gift> &gifts) {
    Got got;
    got.n = reply.number(1), got.data = unhex(reply.word(2)), got.from = reply.word(5);
    for (auto &flag : split(std::string(reply.word(3)), '|'))
        got.flags |= flag == "TRUNC" ? MSG_TRUNC : flag == "CTRUNC" ? MSG_CTRUNC : flag == "EOR" ? MSG_EOR : 0;
    for (const Lead &lead : reply.leads)
        if (auto found = world.files.find(lead.description); found != world.files.end())
            gifts.push_back({found->second, lead.number, (flags & MSG_CMSG_CLOEXEC) != 0});
    for (auto &item : split(std::string(reply.word(4)), '+')) {
        auto fields = split(item.substr(std::min<size_t>(2, item.size())), ',');
        if (item.compare(0, 2, "c:") != 0 || fields.size() != 3) continue;
        got.has_credentials = true;
        got.credentials = {world.real_pid(atol(fields[0].c_str())), (uid_t)strtoul(fields[1].c_str(), nullptr, 10),
                           (gid_t)strtoul(fields[2].c_str(), nullptr, 10)};
    }
    return got;
}

static void take_rights(Got &got, const std::vector<int> &numbers) {
    for (int number : numbers) {
        if (number >= 0) got.rights.push_back(number);
        else got.flags |= MSG_CTRUNC;
    }
}

// With what was received before, of a call that wants all.
static Got joined(const std::string &before, Got got) {
    if (before.empty()) return got;
    got.data = before + got.data, got.n = got.data.size(), got.error = 0;
    return got;
}

Task<Got> receive(World &world, Call &call, size_t n, size_t space, unsigned flags) {
    Got got;
    got.error = flags & MSG_OOB ? world.refuse(call, EINVAL, "the layer has no out-of-band data").error : 0;
    if (got.error) co_return got;
    Ref own = call.number->file;
    std::string before, head = "recv " + text(call.number->layer) + " ", tail = " " + text(std::min(space, MOST_SPACE)) + " " + letters_of(flags);
    size_t least = flags & MSG_PEEK || !own->is_stream() ? 0 : flags & MSG_WAITALL ? n : std::min<size_t>(n, own->least_received);
    for (;;) {
        std::string words = head + text(std::min(n - before.size(), MOST_BYTES)) + tail;
        Reply reply = co_await world.ask(call, std::move(words), flags, SO_RCVTIMEO);
        std::vector<Gift> gifts;
        got = reply.error ? Got() : read_got(world, reply, flags, gifts);
        got.error = reply.error;
        own->has_arrived = own->has_arrived || (reply.lets_go_on && got.n > 0);    // what waited for room may have come
        if (!(flags & MSG_PEEK)) world.counts.rights_received += gifts.size();
        if (!gifts.empty()) {
            std::vector<int> numbers = co_await world.deliver(call, std::move(gifts));
            take_rights(got, numbers);
        }
        bool ends_early = !got.rights.empty() || (own->passes_credentials && own->told.bytes);    // what is left is of another sender
        bool wants_more = !got.error && got.n > 0 && !ends_early && before.size() + got.n < least;
        if (!wants_more) co_return joined(before, std::move(got));
        before += got.data;
    }
}

// ---- into the program's memory

static void append_item(std::string &control, int type, const void *data, size_t n) {
    cmsghdr head = {sizeof(cmsghdr) + n, SOL_SOCKET, type};
    control += std::string((char *)&head, sizeof head) + std::string((const char *)data, n);
    control.resize(CMSG_ALIGN(control.size()));
}

static bool write_message(const World &world, Call &call, u64 at, Message &message, const Got &got, unsigned flags) {
    msghdr &head = message.head;
    std::string control, name = got.from == "u" ? "" : address_bytes(world, got.from);
    if (got.has_credentials) append_item(control, SCM_CREDENTIALS, &got.credentials, sizeof got.credentials);
    if (!got.rights.empty()) append_item(control, SCM_RIGHTS, got.rights.data(), got.rights.size() * sizeof(int));
    if (control.size() > head.msg_controllen) control.resize(head.msg_controllen);
    if (head.msg_name && !write_memory(call.task, (u64)head.msg_name, name.data(), std::min<size_t>(name.size(), head.msg_namelen))) return false;
    if (head.msg_name) head.msg_namelen = name.size();
    if (!write_memory(call.task, (u64)head.msg_control, control.data(), control.size())) return false;
    head.msg_controllen = control.size();
    head.msg_flags = got.flags | (flags & MSG_CMSG_CLOEXEC);
    return scatter(call.task, message.parts, got.data) && write_value(call.task, at, head);
}

static Task<Result> receive_message(World &world, Call &call, u64 at, unsigned flags) {
    Message message = read_message(call, at);
    if (message.error) co_return fail(message.error);
    size_t space = message.head.msg_control ? message.head.msg_controllen : 0;
    Got got = co_await receive(world, call, room_of(message.parts), space, flags);
    if (got.error) co_return fail(got.error);
    co_return write_message(world, call, at, message, got, flags) ? done(got.n) : fail(EFAULT);
}

Task<Result> answer_read(World &world, Call &call) {
    const auto &a = call.data.args;
    bool is_recvfrom = call.nr() == SYS_recvfrom, is_vector = call.nr() == SYS_readv || call.nr() == SYS_preadv2;
    Parts parts{{(void *)a[1], (size_t)a[2]}};
    int error = is_vector ? read_parts(call, a[1], a[2], parts) : 0;
    if (error) co_return fail(error == EMSGSIZE ? EINVAL : error);
    size_t room = room_of(parts);
    if (!is_recvfrom && !room) co_return done(0);
    Got got = co_await receive(world, call, room, 0, is_recvfrom ? a[3] & ~MSG_CMSG_CLOEXEC : flags_of_vector(call));
    if (got.error) co_return fail(got.error);
    if (!scatter(call.task, parts, got.data)) co_return fail(EFAULT);
    std::string name = got.from == "u" ? "" : address_bytes(world, got.from);
    co_return !is_recvfrom || write_address(call, a[4], a[5], name) ? done(got.n) : fail(EFAULT);
}

Task<Result> answer_recvmsg(World &world, Call &call) { return receive_message(world, call, call.data.args[1], call.data.args[2]); }

static bool is_past_limit(Call &call) {
    timespec limit;
    if (!call.data.args[4] || !read_value(call.task, call.data.args[4], limit)) return false;
    if (!call.begun) call.begun = now();
    return now() >= call.begun + limit.tv_sec + limit.tv_nsec / 1e9;
}

// The limit is looked at after each message, as recvmmsg(2) says; a receive waits without one.
Task<Result> answer_recvmmsg(World &world, Call &call) {
    const auto &a = call.data.args;
    unsigned count = std::min<u64>((unsigned)a[2], 1024), messages = 0;
    bool is_past = is_past_limit(call) && messages;
    while (messages < count && !is_past) {
        unsigned flags = a[3] & ~MSG_WAITFORONE;
        if (messages && a[3] & MSG_WAITFORONE) flags |= MSG_DONTWAIT;
        u64 at = a[1] + messages * sizeof(mmsghdr);
        Result result = co_await receive_message(world, call, at, flags);
        unsigned n = result.value;
        if (!result.error && !write_value(call.task, at + offsetof(mmsghdr, msg_len), n)) result = fail(EFAULT);
        if (result.error) co_return messages ? done(messages) : result;
        messages++;
        is_past = is_past_limit(call);
    }
    co_return done(messages);
}
