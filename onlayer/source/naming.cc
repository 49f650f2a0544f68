// Calls that make, name and connect sockets.
#include <errno.h>
#include <fcntl.h>
#include <string.h>
#include <sys/ioctl.h>
#include <sys/resource.h>
#include <sys/stat.h>
#include <sys/syscall.h>
#include <sys/un.h>
#include <unistd.h>
#include <algorithm>
#include "calls.h"
#include "outside.h"
#include "text.h"

static const char *word_of(Kind kind) { return kind == STREAM ? "stream" : kind == DATAGRAM ? "dgram" : "seq"; }

// Whether the program has so many numbers left below its limit: what was given can't be taken back.
static bool has_room(const Call &call, unsigned count) {
    struct stat file;
    rlimit limit;
    if (stat(proc_path(call.task, "fd").c_str(), &file) || prlimit(call.process->pid, RLIMIT_NOFILE, nullptr, &limit)) return true;
    if (file.st_size && (rlim_t)file.st_size + count <= limit.rlim_cur) return true;    // so many are open at all, since Linux 6.2
    unsigned found = 0;
    for (rlim_t number = 0; number < limit.rlim_cur && found < count; number++)
        found += lstat(proc_path(call.task, "fd/" + text(number)).c_str(), &file) != 0;
    return found == count;
}

static Task<Result> answer_pair(World &world, Call &call, Kind kind, unsigned flags) {
    if (!has_room(call, 2)) co_return fail(EMFILE);
    Reply reply = world.say(*call.process, std::string("pair ") + word_of(kind) + " -");
    if (reply.error) co_return fail(reply.error);
    std::vector<Gift> gifts;
    for (const Lead &lead : reply.leads) {
        Ref end = world.make(kind, lead.description);
        world.placeholders.make_pair(*end, flags & SOCK_NONBLOCK);
        end->peer_groups = call.process->groups;
        gifts.push_back({end, lead.number, (flags & SOCK_CLOEXEC) != 0});
    }
    std::vector<int> numbers = co_await world.deliver(call, std::move(gifts));
    for (int number : numbers)
        if (number < 0) co_return fail(-number);
    co_return write_memory(call.task, call.data.args[3], numbers.data(), 2 * sizeof(int)) ? done(0) : fail(EFAULT);
}

Task<Result> answer_socket(World &world, Call &call) {
    int type = call.argument(1) & 0xf, flags = call.argument(1) & ~0xf, protocol = call.argument(2);
    if (type == SOCK_RAW) type = SOCK_DGRAM;   // as Linux has it
    if ((type != STREAM && type != DATAGRAM && type != RECORDS) || (protocol != 0 && protocol != AF_UNIX)) co_return pass();
    if (flags & ~(SOCK_NONBLOCK | SOCK_CLOEXEC)) co_return pass();
    Kind kind = (Kind)type;
    if (call.nr() == SYS_socketpair) co_return co_await answer_pair(world, call, kind, flags);
    Reply reply = world.say(*call.process, std::string("socket ") + word_of(kind) + " -");
    if (reply.error) co_return fail(reply.error);
    Ref made = world.make(kind, reply.description());
    world.placeholders.make_idle(*made, flags & SOCK_NONBLOCK);
    std::vector<Gift> gifts{{made, (int)reply.number(1), (flags & SOCK_CLOEXEC) != 0}};
    std::vector<int> numbers = co_await world.deliver(call, std::move(gifts));
    co_return answer_of(numbers[0]);
}

// ---- bind

// The file system speaks first: folders, permissions, what is there already. The file stays, with a socket behind it
// to which programs outside can connect.
static int bind_for_real(Call &call, Description &file, const std::string &sun_path) {
    Status status = status_of(call.task);
    ActingAs acting(status);
    sockaddr_un name = {AF_UNIX, {}};
    std::string path = sun_path;
    File folder = has_own_root(call.task) ? open_parent(call.task, path) : open_working_folder(call.task);
    if (!folder) return errno;
    if (has_own_root(call.task)) path = path.substr(path.rfind('/') + 1);
    if (fchdir(folder.get())) return errno;
    memcpy(name.sun_path, path.data(), std::min(path.size(), sizeof name.sun_path));
    File gate(socket(AF_UNIX, (int)file.kind | SOCK_CLOEXEC | SOCK_NONBLOCK, 0));
    mode_t before = umask(status.mask);
    socklen_t length = offsetof(sockaddr_un, sun_path) + path.size() + (path.size() < sizeof name.sun_path);
    int error = bind(gate.get(), (sockaddr *)&name, length) ? errno : 0;
    umask(before);
    if (chdir("/")) return errno;
    if (!error) file.gate = std::move(gate);
    return error;
}

static int bind_abstract_for_real(World &world, Description &file, const std::string &word) {
    if (world.names.has(word)) return 0;       // the layer says so
    sockaddr_un name = {AF_UNIX, {}};
    std::string bytes = name_bytes(word.substr(2));
    memcpy(name.sun_path + 1, bytes.data(), std::min(bytes.size(), sizeof name.sun_path - 1));
    File gate(socket(AF_UNIX, (int)file.kind | SOCK_CLOEXEC | SOCK_NONBLOCK, 0));
    if (bind(gate.get(), (sockaddr *)&name, offsetof(sockaddr_un, sun_path) + 1 + bytes.size())) return errno;
    file.gate = std::move(gate);
    return 0;
}

static int find_name(World &world, Call &call, Address &name) {
    Description &own = *call.number->file;
    if (name.word == "u") return 0;
    if (name.word != "-") return own.name.empty() ? bind_abstract_for_real(world, own, name.word) : 0;
    name.word = "p:" + name_word(name.sun_path);
    if (!own.name.empty()) return 0;           // the layer refuses it
    if (int error = bind_for_real(call, own, name.sun_path)) return error;
    if (world.names.has(name.word) && !world.names.is_still_there(name.word)) forget_path(world, *call.process, name.word);
    if (!world.names.has(name.word) && name.sun_path.size() <= 107) return 0;
    std::string alias = world.names.alias();
    world.layer->note("name " + alias + " is " + name.sun_path);
    name.word = alias;
    return 0;
}

Result answer_bind(World &world, Call &call) {
    Address name = read_address(world, call, call.data.args[1], call.argument(2), true);
    if (!name.error) name.error = find_name(world, call, name);
    if (name.error) return fail(name.error);
    std::vector<std::string> lines{"bind " + text(call.number->layer) + " " + name.word};
    if (name.word == "u") lines.push_back("sockname " + text(call.number->layer));    // which name the layer has chosen
    std::vector<Reply> replies = world.say_all(*call.process, lines);
    if (replies[0].error) return fail(replies[0].error);
    if (name.word == "u") name.word = replies[1].word(1);
    Description &own = *call.number->file;
    own.name = name.word;
    world.names.bind(name.word, &own);
    if (own.gate && own.kind == DATAGRAM) world.outside->watch_gate(&own);
    if (name.sun_path.empty()) return done(0);
    world.names.spell(name.word, name.sun_path);
    if (File file = open_path(call.task, name.sun_path)) world.names.place(name.word, file.get());
    return done(0);
}

// ---- listen, connect, accept

Result answer_listen(World &world, Call &call) {
    Description &own = *call.number->file;
    Reply reply = world.say(*call.process, "listen " + text(call.number->layer) + " " + text(call.argument(1)));
    if (reply.error) return fail(reply.error);
    own.listening = true;
    own.listener = {call.process->pid, call.process->user, call.process->group}, own.listener_groups = call.process->groups;
    world.placeholders.listen(own);
    if (own.gate && !listen(own.gate.get(), 128)) world.outside->watch_gate(&own);
    world.touch(call.number->file);
    return done(0);
}

// ---- outside of the layer

// A bound socket has its name on the gate, so the program gets that in the placeholder's place.
static bool swap_for_gate(Call &call, Description &file) {
    fcntl(file.gate.get(), F_SETFL, fcntl(file.shown.get(), F_GETFL));
    for (auto &[number, entry] : call.process->table) {
        if (entry->file.get() != &file) continue;
        seccomp_notif_addfd add = {};
        add.id = call.id, add.srcfd = file.gate.get(), add.flags = SECCOMP_ADDFD_FLAG_SETFD, add.newfd = number;
        if (ioctl(call.listener, SECCOMP_IOCTL_NOTIF_ADDFD, &add) < 0) return false;
    }
    return true;
}

static bool has_other_holders(const World &world, const Call &call, const Description &file) {
    for (auto &process : world.processes)
        for (auto &[number, entry] : process->table)
            if (process.get() != call.process && entry->file.get() == &file) return true;
    return false;
}

Result go_outside(World &world, Call &call) {
    Ref file = call.number->file;
    if (file->gate && has_other_holders(world, call, *file))
        return world.refuse(call, ECONNREFUSED, "a bound socket that several processes have can't leave the layer");
    world.counts.outside++;
    world.layer->note("outside: " + world.title(*call.process) + " talks to a socket that isn't the layer's");
    int room = 212992, passes = file->passes_credentials, real = file->gate ? file->gate.get() : file->shown.get();
    setsockopt(real, SOL_SOCKET, SO_SNDBUF, &room, sizeof room);
    if (passes) setsockopt(real, SOL_SOCKET, SO_PASSCRED, &passes, sizeof passes);
    sockaddr nobody = {AF_UNSPEC, {}};
    if (file->kind == DATAGRAM && !file->gate) connect(real, &nobody, sizeof nobody);
    if (file->gate && !swap_for_gate(call, *file)) return fail(ECONNREFUSED);
    for (auto &process : world.processes) {
        std::vector<int> numbers;
        for (auto &[number, entry] : process->table)
            if (entry->file == file) numbers.push_back(number);
        world.drop(*process, numbers);
    }
    return pass();
}

Ref join(World &world, Description &client, const Description *listener, const Reply &reply) {
    if (reply.made < 0) return nullptr;
    Ref end = world.make(client.kind, reply.made);
    end->is_server_end = true;
    if (listener) client.peer_groups = listener->listener_groups;
    world.placeholders.connect(client);
    return end;
}

Task<Result> answer_connect(World &world, Call &call) {
    Ref own = call.number->file;
    Address to = read_address(world, call, call.data.args[1], call.argument(2), false);
    if (to.error) co_return fail(to.error);
    if (to.is_outside) co_return go_outside(world, call);
    std::string words = "connect " + text(call.number->layer) + " " + to.word;
    Reply reply = co_await world.ask(call, std::move(words), 0, SO_SNDTIMEO);
    if (reply.error) co_return fail(reply.error);
    Ref end = join(world, *own, world.names.socket_of(to.word), reply);
    if (end) end->peer_groups = call.process->groups, world.touch(own);
    co_return done(0);
}

Task<Result> answer_accept(World &world, Call &call) {
    unsigned flags = call.nr() == SYS_accept4 ? call.data.args[3] : 0;
    if (flags & ~(SOCK_NONBLOCK | SOCK_CLOEXEC)) co_return fail(EINVAL);
    if (call.number->file->listening && !has_room(call, 1)) co_return fail(EMFILE);
    std::string words = "accept " + text(call.number->layer) + " -";
    Reply reply = co_await world.ask(call, std::move(words), 0, SO_RCVTIMEO);
    if (reply.error) co_return fail(reply.error);
    auto found = world.files.find(reply.description());
    if (found == world.files.end()) throw Fault("the layer accepted a connection that nobody made");
    Ref end = found->second;
    world.placeholders.make_pair(*end, flags & SOCK_NONBLOCK);
    world.touch(end);
    std::string client = address_bytes(world, std::string(reply.word(2)));
    std::vector<Gift> gifts{{end, (int)reply.number(1), (flags & SOCK_CLOEXEC) != 0}};
    std::vector<int> numbers = co_await world.deliver(call, std::move(gifts));
    if (numbers[0] < 0) co_return fail(-numbers[0]);
    co_return write_address(call, call.data.args[1], call.data.args[2], client) ? done(numbers[0]) : fail(EFAULT);
}

Result answer_shutdown(World &world, Call &call) {
    static const char *const ways[] = {"r", "w", "rw"};
    if ((unsigned)call.argument(1) > 2) return fail(EINVAL);
    Reply reply = world.say(*call.process, "shut " + text(call.number->layer) + " " + ways[call.argument(1)]);
    return reply.error ? fail(reply.error) : done(0);
}

Result answer_name(World &world, Call &call) {
    const char *word = call.nr() == SYS_getsockname ? "sockname " : "peername ";
    Reply reply = world.say(*call.process, word + text(call.number->layer));
    if (reply.error) return fail(reply.error);
    return write_address(call, call.data.args[1], call.data.args[2], address_bytes(world, std::string(reply.word(1)))) ? done(0) : fail(EFAULT);
}
