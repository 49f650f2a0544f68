// getsockopt, setsockopt, and the sizes of queues.
#include <errno.h>
#include <fcntl.h>
#include <limits.h>
#include <string.h>
#include <sys/ioctl.h>
#include <sys/syscall.h>
#include <unistd.h>
#include <algorithm>
#include "calls.h"
#include "text.h"
#ifndef SO_PEERGROUPS
#define SO_PEERGROUPS 59
#endif
#define SO_PASS_PIDFD 76
#define SO_PEER_PIDFD 77
#define SO_PASS_RIGHTS 83
#define SO_TELL_QUEUE 84

template <class T> static std::string bytes_of(const T &value) { return std::string((const char *)&value, sizeof value); }

static Result give_value(const Call &call, const std::string &value) {
    unsigned room = 0;
    if (!read_value(call.task, call.data.args[4], room)) return fail(EFAULT);
    if ((int)room < 0) return fail(EINVAL);
    unsigned length = std::min<size_t>(room, value.size());
    bool is_there = write_memory(call.task, call.data.args[3], value.data(), length) && write_value(call.task, call.data.args[4], length);
    return is_there ? done(0) : fail(EFAULT);
}

// The process at the other end, as it was when they were connected; 0 where there is none.
static int peer_pid(World &world, Call &call) {
    Reply reply = world.say(*call.process, "getopt " + text(call.number->layer) + " peercred");
    return reply.ok() ? world.real_pid(reply.number(1)) : 0;
}

static Result get_peer(World &world, Call &call) {
    ucred peer = call.number->file->listener;
    Reply reply = world.say(*call.process, "getopt " + text(call.number->layer) + " peercred");
    if (reply.error && reply.error != ENOTCONN) return fail(reply.error);
    if (reply.ok()) peer = {world.real_pid(reply.number(1)), (uid_t)reply.number(2), (gid_t)reply.number(3)};
    return give_value(call, bytes_of(peer));
}

static Result get_peer_groups(World &world, Call &call) {
    const Description &own = *call.number->file;
    unsigned room = 0, length = own.peer_groups.size() * sizeof(gid_t);
    if (!peer_pid(world, call)) return fail(ENODATA);
    if (!read_value(call.task, call.data.args[4], room)) return fail(EFAULT);
    if (!write_value(call.task, call.data.args[4], length)) return fail(EFAULT);
    if (room < length) return fail(ERANGE);
    return write_memory(call.task, call.data.args[3], own.peer_groups.data(), length) ? done(0) : fail(EFAULT);
}

static Result get_peer_pidfd(World &world, Call &call) {
    int pid = peer_pid(world, call);
    if (!pid) return fail(ENODATA);
    File file((int)syscall(SYS_pidfd_open, pid, 0));
    if (!file) return fail(errno);
    seccomp_notif_addfd add = {};
    add.id = call.id, add.srcfd = file.get(), add.newfd_flags = O_CLOEXEC;
    int number = ioctl(call.listener, SECCOMP_IOCTL_NOTIF_ADDFD, &add);
    return number < 0 ? fail(errno) : give_value(call, bytes_of(number));
}

// As getpeername tells it, and never more than it is.
static Result get_peer_name(World &world, Call &call) {
    Reply reply = world.say(*call.process, "peername " + text(call.number->layer));
    if (reply.error) return fail(reply.error);
    std::string name = address_bytes(world, std::string(reply.word(1)));
    unsigned room = 0;
    if (!read_value(call.task, call.data.args[4], room)) return fail(EFAULT);
    if (room > name.size()) return fail(EINVAL);
    return give_value(call, name);
}

static const char *option_word(int option) {
    switch (option) {
    case SO_TYPE: return "type";
    case SO_ERROR: return "error";
    case SO_PASSCRED: return "passcred";
    case SO_ACCEPTCONN: return "accept";
    }
    return nullptr;
}

static Result get_from_layer(World &world, Call &call, int option) {
    Reply reply = world.say(*call.process, "getopt " + text(call.number->layer) + " " + option_word(option));
    if (reply.error) return fail(reply.error);
    int value = (int)reply.number(1);
    if (option == SO_ERROR && value) value = ECONNRESET;
    return give_value(call, bytes_of(value));
}

Result answer_getsockopt(World &world, Call &call) {
    int option = call.argument(2);
    if (call.argument(1) != SOL_SOCKET) return fail(EOPNOTSUPP);
    if (option_word(option)) return get_from_layer(world, call, option);
    switch (option) {
    case SO_PEERCRED: return get_peer(world, call);
    case SO_PEERGROUPS: return get_peer_groups(world, call);
    case SO_PEERNAME: return get_peer_name(world, call);
    case SO_PEER_PIDFD: return get_peer_pidfd(world, call);
    case SO_SNDBUF: return give_value(call, bytes_of(call.number->file->send_room));
    case SO_RCVBUF: return give_value(call, bytes_of(call.number->file->receive_room));
    case SO_PEEK_OFF: return give_value(call, bytes_of(-1));
    case SO_PASS_PIDFD: case SO_TELL_QUEUE: return give_value(call, bytes_of(0));
    case SO_PASS_RIGHTS: return give_value(call, bytes_of(1));
    }
    return pass();                             // the placeholder knows it
}

static Result set_credentials(World &world, Call &call, int value) {
    Description &own = *call.number->file;
    std::string number = text(call.number->layer);
    std::vector<std::string> lines{"setopt " + number + " passcred " + (value ? "1" : "0")};
    bool may_be_named = value && own.name.empty() && !own.is_server_end;    // a server's end has its listener's name
    if (may_be_named) lines.push_back("sockname " + number);
    std::vector<Reply> replies = world.say_all(*call.process, lines);
    if (replies[0].error) return fail(replies[0].error);
    own.passes_credentials = value;
    if (!may_be_named || !replies[1].ok() || replies[1].word(1) == "u") return done(0);
    own.name = replies[1].word(1);
    world.names.bind(own.name, &own);
    return done(0);
}

// Told as they were set, doubled as Linux does; the layer's queues have a limit of their own.
static Result set_room(const World &world, Call &call, int option, int value) {
    Description &own = *call.number->file;
    bool sends = option == SO_SNDBUF || option == SO_SNDBUFFORCE, forced = option == SO_SNDBUFFORCE || option == SO_RCVBUFFORCE;
    if (forced && call.process->user != 0) return fail(EPERM);
    unsigned most = forced ? INT_MAX / 2 : sends ? world.send_maximum : world.receive_maximum;
    int room = 2 * (int)std::min(forced ? (unsigned)std::max(value, 0) : (unsigned)value, most);    // a number below 0 is a great one
    if (sends) own.send_room = std::max(room, 4608);
    else own.receive_room = std::max(room, 2304);
    return done(0);
}

// What is asked for and the layer doesn't have; null where it has, or Linux's sockets of this kind take no notice either.
static const char *lacking(const Description &own, int option, int value) {
    switch (option) {
    case SO_PASS_PIDFD: return value ? "the layer's messages carry no pidfd (SO_PASSPIDFD)" : nullptr;
    case SO_PASS_RIGHTS: return value ? nullptr : "the layer's sockets always take open files (SO_PASSRIGHTS)";
    case SO_TELL_QUEUE: return value ? "a receive doesn't tell what is left (SO_INQ)" : nullptr;
    case SO_TIMESTAMP_OLD: case SO_TIMESTAMPNS_OLD: case SO_TIMESTAMP_NEW: case SO_TIMESTAMPNS_NEW:
        return value && !own.is_stream() ? "the layer's messages have no time (SO_TIMESTAMP)" : nullptr;
    case SO_ATTACH_FILTER: case SO_ATTACH_BPF: return own.is_stream() ? nullptr : "the layer's sockets take no filter (SO_ATTACH_FILTER)";
    case SO_PEEK_OFF: return value < 0 ? nullptr : "the layer peeks at the front alone (SO_PEEK_OFF)";
    }
    return nullptr;
}

Result answer_setsockopt(World &world, Call &call) {
    Description &own = *call.number->file;
    int option = call.argument(2), value = 0;
    if (call.argument(1) != SOL_SOCKET) return fail(EOPNOTSUPP);
    if (call.argument(4) < (int)sizeof value) return fail(EINVAL);
    if (!read_value(call.task, call.data.args[3], value)) return fail(EFAULT);
    if (const char *why = lacking(own, option, value)) return world.refuse(call, option == SO_PEEK_OFF ? EOPNOTSUPP : ENOPROTOOPT, why);
    switch (option) {
    case SO_PASSCRED: return set_credentials(world, call, value);
    case SO_SNDBUF: case SO_RCVBUF: case SO_SNDBUFFORCE: case SO_RCVBUFFORCE: return set_room(world, call, option, value);
    case SO_PASS_PIDFD: case SO_PASS_RIGHTS: case SO_TELL_QUEUE: case SO_PEEK_OFF: return done(0);
    case SO_RCVLOWAT: own.least_received = value < 0 ? INT_MAX : std::max(value, 1); return pass();
    }
    return pass();
}

// FIONREAD and TIOCOUTQ. What memory a datagram socket's messages take is nothing that the layer has.
Result answer_queue_size(World &world, Call &call) {
    bool reads = (unsigned)call.data.args[1] == FIONREAD;
    if (!reads && call.number->file->kind == DATAGRAM)
        return world.refuse(call, EOPNOTSUPP, "the layer doesn't tell what a datagram socket has sent (TIOCOUTQ)");
    Reply reply = world.say(*call.process, (reads ? "inq " : "outq ") + text(call.number->layer));
    if (reply.error) return fail(reply.error);
    int value = (int)reply.number(1);
    return write_value(call.task, call.data.args[2], value) ? done(0) : fail(EFAULT);
}
