#include "outside.h"
#include <errno.h>
#include <fcntl.h>
#include <poll.h>
#include <string.h>
#include <sys/epoll.h>
#include <sys/un.h>
#include <unistd.h>
#include "calls.h"
#include "text.h"

static const size_t PIECE = 65536;
static const int MOST_RIGHTS = 253;

Outside::Outside(World &world) : world(world), events(epoll_create1(EPOLL_CLOEXEC)) {}
Outside::~Outside() = default;

void Outside::watch(int number, unsigned &watched, unsigned wanted) {
    if (watched == wanted) return;
    epoll_event event = {};
    event.events = wanted, event.data.fd = number;
    int change = EPOLL_CTL_MOD;
    if (!watched) change = EPOLL_CTL_ADD;
    if (!wanted) change = EPOLL_CTL_DEL;
    epoll_ctl(events.get(), change, number, &event);
    watched = wanted;
}

void Outside::watch_gate(Description *server) {
    int number = server->gate.get();
    unsigned watched = gates.count(number) ? (unsigned)EPOLLIN : 0;
    gates[number] = server;
    int on = 1;
    if (server->kind == DATAGRAM) setsockopt(number, SOL_SOCKET, SO_PASSCRED, &on, sizeof on);
    watch(number, watched, EPOLLIN);
}

void Outside::forget_gate(Description *server) {
    held.erase(server);
    epoll_ctl(events.get(), EPOLL_CTL_DEL, server->gate.get(), nullptr);    // the program may have it now
    gates.erase(server->gate.get());
    for (auto &[number, bridge] : bridges)
        if (bridge->server == server) bridge->server = nullptr;    // the layer refuses the connect that waits
}

void Outside::handle_events() {
    epoll_event found[16];
    int count = epoll_wait(events.get(), found, 16, 0);
    for (int i = 0; i < count; i++) {
        int number = found[i].data.fd;
        auto gate = gates.find(number);
        auto bridge = bridges.find(number);
        if (gate != gates.end()) gate->second->kind == DATAGRAM ? take_datagram(gate->second) : admit(gate->second);
        else if (bridge != bridges.end()) carry(*bridge->second);
    }
    world.settle();
}

// ---- connections

void Outside::add_bridge(std::unique_ptr<Bridge> bridge) {
    int number = bridge->real.get();
    bridges[number] = std::move(bridge);
}

void Outside::admit(Description *server) {
    auto bridge = std::make_unique<Bridge>();
    bridge->real.reset(accept4(server->gate.get(), nullptr, nullptr, SOCK_CLOEXEC | SOCK_NONBLOCK));
    if (!bridge->real) return;
    ucred who = {};
    socklen_t length = sizeof who;
    getsockopt(bridge->real.get(), SOL_SOCKET, SO_PEERCRED, &who, &length);
    bridge->process = world.guest(who.uid, who.gid);
    if (bridge->process < 0) return world.complain("a client from outside is sent away: the layer makes no further process");
    world.counts.guests++;
    world.guest_pids[bridge->process] = who.pid;
    world.layer->note("process " + text(who.pid) + " is " + text(bridge->process) + " " + program_of(who.pid) + ", outside");
    Reply reply = world.layer->make(bridge->process, server->kind == STREAM ? "socket stream -" : "socket seq -");
    bridge->number = (int)reply.number(1);
    bridge->file = world.make(server->kind, reply.description());
    bridge->server = server;
    Bridge &made = *bridge;
    add_bridge(std::move(bridge));
    knock(made);
}

void Outside::knock(Bridge &bridge) {
    std::string words = "connect " + text(bridge.number) + " " + bridge.server->name;
    bridge.pending = world.pend(bridge.process, words, [this, &bridge](Reply reply) { enter(bridge, reply); });
}

void Outside::enter(Bridge &bridge, const Reply &reply) {
    bridge.pending = 0;
    Description *server = std::exchange(bridge.server, nullptr);
    if (reply.error) return leave(bridge);
    join(world, *bridge.file, server, reply);
    carry(bridge);
}

static std::vector<File> files_of(msghdr &head) {
    std::vector<File> files;
    for (cmsghdr *item = CMSG_FIRSTHDR(&head); item; item = CMSG_NXTHDR(&head, item)) {
        if (item->cmsg_level != SOL_SOCKET || item->cmsg_type != SCM_RIGHTS) continue;
        size_t count = (item->cmsg_len - CMSG_LEN(0)) / sizeof(int);
        for (size_t i = 0; i < count; i++) {
            int number;
            memcpy(&number, CMSG_DATA(item) + i * sizeof(int), sizeof number);
            files.emplace_back(number);
        }
    }
    return files;
}

std::vector<std::pair<Ref, int>> Outside::hold_rights(int process, std::vector<File> files) {
    std::vector<std::pair<Ref, int>> rights;
    for (File &file : files) {
        int number;
        std::string what = link_of(getpid(), file.get());
        if (Ref held = world.hold(process, std::move(file), what, number)) rights.push_back({held, number});
    }
    return rights;
}
void Outside::close_rights(int process, const std::vector<std::pair<Ref, int>> &rights) {
    std::vector<std::string> lines;
    for (auto &[file, number] : rights) lines.push_back("close " + text(number));
    world.layer->make_all(process, lines);
}

static std::string rights_word(const std::vector<std::pair<Ref, int>> &rights) {
    std::string words;
    for (auto &[file, number] : rights) words += (words.empty() ? "r:" : ",") + text(number);
    return words.empty() ? "-" : words;
}

// ---- from outside into the layer; each step tells whether something moved

bool Outside::fetch_from_real(Bridge &bridge) {
    if (!bridge.to_layer.empty() || bridge.real_is_over || !bridge.rights_to_layer.empty()) return false;
    std::string bytes(PIECE, 0), control(CMSG_SPACE(MOST_RIGHTS * sizeof(int)), 0);
    iovec part = {&bytes[0], bytes.size()};
    msghdr head = {};
    head.msg_iov = &part, head.msg_iovlen = 1, head.msg_control = &control[0], head.msg_controllen = control.size();
    ssize_t n = recvmsg(bridge.real.get(), &head, MSG_DONTWAIT | MSG_CMSG_CLOEXEC);
    if (n < 0 && (errno == EAGAIN || errno == EINTR)) return false;
    if (n <= 0) {
        bridge.real_is_over = true;
        pollfd end = {bridge.real.get(), 0, 0};
        poll(&end, 1, 0);
        if (n < 0 || end.revents & POLLHUP) leave(bridge);
        else world.layer->make(bridge.process, "shut " + text(bridge.number) + " w");
        return true;
    }
    bridge.to_layer = bytes.substr(0, n);
    bridge.rights_to_layer = hold_rights(bridge.process, files_of(head));
    return true;
}

bool Outside::send_to_layer(Bridge &bridge) {
    if (bridge.to_layer.empty()) return false;
    std::string words = "send " + text(bridge.number) + " - " + hex(bridge.to_layer) + " " + rights_word(bridge.rights_to_layer) + " -";
    Reply reply = world.layer->make(bridge.process, words);
    if (reply.error == EAGAIN) return false;
    if (reply.ok()) world.counts.rights_sent += bridge.rights_to_layer.size();
    close_rights(bridge.process, bridge.rights_to_layer);
    bridge.rights_to_layer.clear();
    if (reply.error) bridge.to_layer.clear();
    else bridge.to_layer.erase(0, bridge.file->is_stream() ? reply.number(1) : std::string::npos);
    if (reply.error) shutdown(bridge.real.get(), SHUT_RD);
    return true;
}

// ---- from the layer to the outside

// A socket of the layer that is passed outside goes on there as one end of a pair, which is carried over too.
File Outside::bridge_further(int process, int number, const Ref &file) {
    int ends[2];
    if (socketpair(AF_UNIX, (int)file->kind | SOCK_CLOEXEC, 0, ends)) throw Fault(std::string("no pair for a program outside: ") + strerror(errno));
    fcntl(ends[0], F_SETFL, O_NONBLOCK);
    auto bridge = std::make_unique<Bridge>();
    bridge->real.reset(ends[0]);
    bridge->process = process, bridge->number = number, bridge->file = file;
    add_bridge(std::move(bridge));
    return File(ends[1]);
}

void Outside::take_rights_out(Bridge &bridge, const Reply &reply) {
    std::vector<std::pair<Ref, int>> closes;
    world.counts.rights_received += reply.leads.size();
    for (const Lead &lead : reply.leads) {
        auto found = world.files.find(lead.description);
        if (found == world.files.end()) continue;
        Ref file = found->second;
        bool goes_on = file->is_connection() && !file->listening;
        if (goes_on) {
            bridge.rights_to_real.push_back(bridge_further(bridge.process, lead.number, file));
            continue;
        }
        closes.push_back({file, lead.number});
        if (!file->is_socket()) bridge.rights_to_real.emplace_back(dup(file->shown.get()));
        else world.complain("refused: a listening or datagram socket of the layer was passed to a program outside, which gets nothing");
    }
    close_rights(bridge.process, closes);
}

bool Outside::fetch_from_layer(Bridge &bridge) {
    if (!bridge.to_real.empty() || bridge.layer_is_over || !bridge.file->has(IN | HUP | ERR)) return false;
    Reply reply = world.layer->make(bridge.process, "recv " + text(bridge.number) + " " + text(PIECE) + " rights:" + text(MOST_RIGHTS) + " -");
    if (reply.error == EAGAIN) return false;
    if (reply.error || !reply.number(1)) {
        bridge.layer_is_over = true;
        shutdown(bridge.real.get(), SHUT_WR);
        return true;
    }
    bridge.to_real = unhex(reply.word(2));
    take_rights_out(bridge, reply);
    return true;
}

bool Outside::send_to_real(Bridge &bridge) {
    if (bridge.to_real.empty()) return false;
    std::string control(CMSG_SPACE(MOST_RIGHTS * sizeof(int)), 0);
    iovec part = {&bridge.to_real[0], bridge.to_real.size()};
    msghdr head = {};
    head.msg_iov = &part, head.msg_iovlen = 1;
    if (size_t count = bridge.rights_to_real.size()) {
        head.msg_control = &control[0], head.msg_controllen = CMSG_SPACE(count * sizeof(int));
        cmsghdr *item = CMSG_FIRSTHDR(&head);
        item->cmsg_level = SOL_SOCKET, item->cmsg_type = SCM_RIGHTS, item->cmsg_len = CMSG_LEN(count * sizeof(int));
        for (size_t i = 0; i < count; i++) {
            int number = bridge.rights_to_real[i].get();
            memcpy(CMSG_DATA(item) + i * sizeof(int), &number, sizeof number);
        }
    }
    ssize_t n = sendmsg(bridge.real.get(), &head, MSG_DONTWAIT | MSG_NOSIGNAL);
    if (n < 0 && (errno == EAGAIN || errno == EINTR)) return false;
    bridge.rights_to_real.clear();
    if (n < 0) leave(bridge);
    else bridge.to_real.erase(0, n);
    return true;
}

// ---- carrying

void Outside::leave(Bridge &bridge) {
    if (bridge.has_left) return;
    bridge.has_left = true;
    watch(bridge.real.get(), bridge.watched, 0);
    world.cancel(std::exchange(bridge.pending, 0));
    world.layer->make(bridge.process, "close " + text(bridge.number));
}

void Outside::carry(Bridge &bridge) {
    bool moved = !bridge.pending;
    while (moved && !bridge.has_left) {
        moved = send_to_layer(bridge) || send_to_real(bridge) || fetch_from_layer(bridge);
        if (!moved && !bridge.has_left) moved = fetch_from_real(bridge);
    }
    if (bridge.real_is_over && bridge.layer_is_over && bridge.to_layer.empty() && bridge.to_real.empty()) leave(bridge);
    if (bridge.has_left) return;
    unsigned wanted = 0;
    if (bridge.to_layer.empty() && !bridge.real_is_over && !bridge.pending) wanted |= EPOLLIN;
    if (!bridge.to_real.empty()) wanted |= EPOLLOUT;
    watch(bridge.real.get(), bridge.watched, wanted);
}

bool Outside::wants_to_carry(const Bridge &bridge) const {
    if (bridge.has_left || bridge.pending) return false;
    bool has_input = bridge.file->has(IN | HUP | ERR) && bridge.to_real.empty() && !bridge.layer_is_over;
    return has_input || (!bridge.to_layer.empty() && bridge.file->has(OUT | HUP));
}

bool Outside::has_bridge(int description) const {
    for (auto &[number, bridge] : bridges)
        if (bridge->file->id == description && !bridge->has_left) return true;
    return false;
}

void Outside::sweep() {
    for (auto it = bridges.begin(); it != bridges.end();) it = it->second->has_left ? bridges.erase(it) : std::next(it);
}

void Outside::carry_all() {
    if (bridges.empty() && held.empty()) return;
    std::vector<Bridge *> ready;
    for (auto &[number, bridge] : bridges)
        if (wants_to_carry(*bridge)) ready.push_back(bridge.get());
    for (Bridge *bridge : ready) carry(*bridge);
    std::vector<Description *> servers;
    for (auto &[server, datagram] : held) servers.push_back(server);
    for (Description *server : servers)
        if (pass_datagram(server, held[server])) held.erase(server);
    world.settle();
    sweep();
}

// ---- datagrams

std::pair<int, int> Outside::sender_of(const std::string &name, const ucred &who) {
    std::string key = text(who.pid) + " " + text(who.uid) + " " + name;
    auto found = senders.find(key);
    if (found != senders.end()) return found->second;
    int process = world.guest(who.uid, who.gid);
    if (process < 0) return {-1, -1};
    world.counts.guests++;
    world.guest_pids[process] = who.pid;
    int number = (int)world.layer->make(process, "socket dgram -").number(1);
    if (!name.empty()) {
        std::string alias = world.names.alias();
        world.layer->make(process, "bind " + text(number) + " " + alias);
        world.names.spell(alias, name);
    }
    return senders[key] = {process, number};
}

bool Outside::pass_datagram(Description *server, const Datagram &datagram) {
    std::string words = "send " + text(datagram.number) + " " + server->name + " " + hex(datagram.bytes) + " " + rights_word(datagram.rights) + " -";
    Reply reply = world.layer->make(datagram.process, words);
    if (reply.error == EAGAIN) return false;
    if (reply.ok()) world.counts.rights_sent += datagram.rights.size();
    close_rights(datagram.process, datagram.rights);
    return true;
}

static ucred credentials_of(msghdr &head) {
    ucred who = {0, (uid_t)-1, (gid_t)-1};
    for (cmsghdr *item = CMSG_FIRSTHDR(&head); item; item = CMSG_NXTHDR(&head, item))
        if (item->cmsg_level == SOL_SOCKET && item->cmsg_type == SCM_CREDENTIALS) memcpy(&who, CMSG_DATA(item), sizeof who);
    return who;
}

void Outside::take_datagram(Description *server) {
    if (held.count(server)) return;
    sockaddr_un name = {};
    std::string bytes(PIECE * 4, 0), control(CMSG_SPACE(MOST_RIGHTS * sizeof(int)) + CMSG_SPACE(sizeof(ucred)), 0);
    iovec part = {&bytes[0], bytes.size()};
    msghdr head = {};
    head.msg_iov = &part, head.msg_iovlen = 1, head.msg_control = &control[0], head.msg_controllen = control.size();
    head.msg_name = &name, head.msg_namelen = sizeof name;
    ssize_t n = recvmsg(server->gate.get(), &head, MSG_DONTWAIT | MSG_CMSG_CLOEXEC);
    if (n < 0) return;
    long length = (long)head.msg_namelen - (long)offsetof(sockaddr_un, sun_path);
    std::string sender = length <= 0 ? "" : name.sun_path[0] ? std::string(name.sun_path, strnlen(name.sun_path, length)) : std::string(name.sun_path, length);
    auto [process, number] = sender_of(sender, credentials_of(head));
    if (process < 0) return world.complain("a datagram from outside is dropped: the layer makes no further process");
    Datagram datagram = {process, number, bytes.substr(0, n), hold_rights(process, files_of(head))};
    if (!pass_datagram(server, datagram)) held.emplace(server, std::move(datagram));
}
