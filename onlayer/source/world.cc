#include "world.h"
#include "outside.h"
#include <fcntl.h>
#include <signal.h>
#include <stdio.h>
#include <string.h>
#include <sys/epoll.h>
#include <sys/ioctl.h>
#include <sys/stat.h>
#include <sys/syscall.h>
#include <unistd.h>
#include <algorithm>
#include "filter.h"
#include "text.h"

static const int FIRST = 1, GUEST_MAKER = 2;   // processes of the layer that others are forked from
static const int LINUX_ROOM = 212992;          // SO_SNDBUF and SO_RCVBUF before they are set

static int read_setting(const char *path, int otherwise) {
    int value = otherwise;
    if (FILE *file = fopen(path, "re")) {
        if (fscanf(file, "%d", &value) != 1) value = otherwise;
        fclose(file);
    }
    return value;
}

World::World(std::unique_ptr<Layer> the_layer, const Options &the_options)
    : layer(std::move(the_layer)), options(the_options), events(epoll_create1(EPOLL_CLOEXEC)) {
    own_user = geteuid(), own_group = getegid();
    if (options.order) layer->order(*options.order);
    send_maximum = read_setting("/proc/sys/net/core/wmem_max", send_maximum);
    receive_maximum = read_setting("/proc/sys/net/core/rmem_max", receive_maximum);
    layer->on_told = [this](int description, const Told &told) { take_told(description, told); };
}

World::~World() { calls.clear(); }

// ---- processes

Process &World::new_process(int pid) {
    processes.push_back(std::make_unique<Process>());
    Process &process = *processes.back();
    process.pid = pid;
    process.program = program_of(pid);
    return process;
}

Process *World::process_of(int pid) {
    auto found = by_task.find(pid);
    return found == by_task.end() ? nullptr : found->second;
}

void World::stop_foreign(Process &process) {
    counts.refused++;
    complain("refused: " + title(process) + " makes calls of another architecture than x86-64; it is killed");
    kill(process.pid, SIGSYS);
    kill(process.pid, SIGKILL);
}

void World::await(int file) {
    epoll_event event = {};
    event.events = EPOLLIN, event.data.fd = file;
    epoll_ctl(events.get(), EPOLL_CTL_ADD, file, &event);
}
void World::listen_to(File listener) {
    int number = listener.get();
    fcntl(number, F_SETFD, FD_CLOEXEC);
    wake_at_once(number);
    listeners[number] = std::move(listener);
    await(number);
}

void World::name_in_layer(Process &process, int number) {
    process.layer = number;
    by_layer[number] = &process;
    layer->note("process " + text(process.pid) + " is " + text(number) + " " + process.program);
}

// The layer's number of a child without descriptors; -1 where it makes no further process.
int World::make_process(int parent) {
    try {
        Reply reply = layer->make(parent, "fork");
        return reply.ok() ? (int)reply.number(1) : -1;
    } catch (const LineRefused &) {
        return -1;
    }
}

// A process gets its number in the layer when it needs one. Whether it has one.
bool World::enlist(Process &process) {
    if (process.layer) return true;
    int number = make_process(FIRST);
    if (number < 0) {
        counts.refused++;
        complain("refused: a socket for " + title(process) + ": the layer makes no further process; it is answered with ENFILE");
        return false;
    }
    process.user = own_user, process.group = own_group;
    name_in_layer(process, number);
    return true;
}

bool World::sync_ids(Process &process) {
    if (!enlist(process)) return false;
    if (!process.ids_changed) return true;
    process.ids_changed = false;
    Status status = status_of(process.pid);
    process.groups = status.groups;
    if (status.effective_user == process.user && status.effective_group == process.group) return true;
    Reply reply = layer->make(process.layer, "setids " + text(status.effective_user) + " " + text(status.effective_group));
    if (reply.ok()) process.user = status.effective_user, process.group = status.effective_group;
    else complain(title(process) + ": the layer refuses its ids: " + reply.text);
    return true;
}

int World::real_pid(long number) const {
    auto found = by_layer.find((int)number);
    if (found != by_layer.end()) return found->second->pid;
    auto guest = guest_pids.find((int)number);
    return guest == guest_pids.end() ? 0 : guest->second;
}

int World::guest(uid_t user, gid_t group) {
    int number = make_process(GUEST_MAKER);
    if (number >= 0 && (user != 0 || group != 0)) layer->make(number, "setids " + text(user) + " " + text(group));
    return number;
}

Reply World::say(Process &process, const std::string &words) {
    return sync_ids(process) ? layer->make(process.layer, words) : Reply::of_error(ENFILE);
}

std::vector<Reply> World::say_all(Process &process, const std::vector<std::string> &calls) {
    if (!sync_ids(process)) return std::vector<Reply>(calls.size(), Reply::of_error(ENFILE));
    return layer->make_all(process.layer, calls);
}

// ---- open files

Ref World::make(Kind kind, int description) {
    Ref file = std::make_shared<Description>(kind, description);
    file->send_room = file->receive_room = LINUX_ROOM;
    auto told = newcomers.extract(description);
    if (!told) return file;                    // it is gone already
    file->told = told.mapped();
    files[description] = file;
    changed.insert(file);
    return file;
}

void World::take_told(int description, const Told &told) {
    auto found = files.find(description);
    if (found == files.end()) {
        if (told.is_gone) newcomers.erase(description);
        else newcomers[description] = told;
        return;
    }
    Ref file = found->second;
    if (told.is_gone) return forget(file);
    file->has_arrived = file->has_arrived || told.bytes > file->told.bytes || told.messages > file->told.messages;
    file->told = told;
    changed.insert(file);
}

void World::forget(Ref file) {
    files.erase(file->id);
    if (file->gate && outside) outside->forget_gate(file.get());
    if (!file->name.empty()) names.lose_socket(file->name, file.get());
}

void World::note_number(const Process &process, int number, const Number *entry) {
    std::string where = entry ? text(process.layer) + " " + text(entry->layer) : "closed";
    layer->note("number " + text(process.pid) + " " + text(number) + " " + where);
}

void World::enter(Process &process, int number, const Ref &file, int layer_number) {
    if (process.table.count(number)) drop(process, {number});
    process.closing.erase(number);
    auto entry = std::make_shared<Number>(Number{&process, file, layer_number});
    note_number(process, number, entry.get());
    process.table[number] = std::move(entry);
}

// The program's numbers are open no more. A call that waits keeps its number in the layer until it ends, as the kernel keeps
// the open file.
void World::drop(Process &process, const std::vector<int> &numbers, bool closes_in_layer) {
    std::vector<std::string> closes;
    for (int number : numbers) {
        auto found = process.table.extract(number);
        if (!found) continue;
        note_number(process, number, nullptr);
        if (closes_in_layer && found.mapped().use_count() == 1) closes.push_back("close " + text(found.mapped()->layer));
    }
    layer->make_all(process.layer, closes);
}

void World::let_go(NumberRef entry) {
    if (entry && entry.use_count() == 1) layer->make(entry->process->layer, "close " + text(entry->layer));
}

NumberRef World::find(Call &call, int number) {
    auto found = call.process->table.find(number);
    if (found == call.process->table.end()) return nullptr;
    NumberRef entry = found->second;
    if (entry->checked == call.process->changes) return entry;
    if (entry->file->shown && same_file(call.task, number, entry->file->shown.get())) {
        entry->checked = call.process->changes;
        return entry;
    }
    if (errno == EPERM) {                      // as between an unshare of user namespaces and an exec
        complain(title(*call.process) + " doesn't let itself be looked at: its table of numbers isn't checked");
        return entry;
    }
    counts.out_of_step++;
    layer->note("OUT OF STEP: " + text(call.process->pid) + " " + text(number));
    entry.reset();
    drop(*call.process, {number});
    return nullptr;
}
NumberRef World::find_socket(Call &call, int number) {
    NumberRef entry = find(call, number);
    return entry && entry->file->is_socket() ? entry : nullptr;
}

// Another thread's close was told, and the kernel hasn't made it yet.
bool World::is_being_closed(Call &call, int number) {
    auto &closing = call.process->closing;
    auto found = closing.find(number);
    if (found == closing.end()) return false;
    struct stat file;
    if (!stat(proc_path(call.task, "fd/" + text(number)).c_str(), &file) && file.st_ino == found->second) return true;
    closing.erase(found);
    return false;
}

// --qlimit: how much a stream takes.
void World::limit_queue(Process &process, Description &file, int number) {
    if (!options.queue_limit || !file.is_stream() || file.has_limit) return;
    file.has_limit = true;
    say(process, "setopt " + text(number) + " qlimit " + text(options.queue_limit));
}

int World::give(Call &call, const Gift &gift) {
    seccomp_notif_addfd add = {};
    add.id = call.id;
    add.srcfd = gift.file->shown.get();
    add.newfd_flags = gift.closes_on_exec ? O_CLOEXEC : 0;
    if (gift.at >= 0) add.flags = SECCOMP_ADDFD_FLAG_SETFD, add.newfd = gift.at;
    int number = ioctl(call.listener, SECCOMP_IOCTL_NOTIF_ADDFD, &add);
    if (number >= 0) {
        enter(*call.process, number, gift.file, gift.layer);
        limit_queue(*call.process, *gift.file, gift.layer);
        return number;
    }
    int error = errno;
    if (error != ENOENT && error != EINPROGRESS) layer->make(call.process->layer, "close " + text(gift.layer));
    return -error;
}

// Gives what a call has made; where a signal comes between, the rest when the call comes again.
Task<std::vector<int>> World::deliver(Call &call, std::vector<Gift> gifts) {
    std::vector<int> numbers;
    for (const Gift &gift : gifts) {
        int number = give(call, gift);
        while (number == -ENOENT || number == -EINPROGRESS) {
            counts.put_off++;
            co_await Stop{call, Call::GIVES};
            number = give(call, gift);
        }
        numbers.push_back(number);
    }
    co_return numbers;
}

// The number by which a process has this held file already.
NumberRef World::find_held(Call &call, int number) {
    for (auto &[real, entry] : call.process->table)
        if (!entry->file->is_socket() && same_file(call.task, number, entry->file->shown.get())) return entry;
    return nullptr;
}

// A file of the program's is an opaque one in the layer: a memory file, or where it has no more of them a socket without a name.
Ref World::hold(int layer_process, File file, const std::string &what, int &layer_number) {
    Reply reply = layer->make(layer_process, "memfd -");
    bool is_object = reply.ok();
    if (reply.error == ENFILE) reply = layer->make(layer_process, "socket dgram -");
    layer_number = reply.ok() ? (int)reply.number(1) : -reply.error;
    if (!reply.ok()) return nullptr;
    Ref held = make(OPAQUE, reply.description());
    held->shown = std::move(file);
    layer->note("object " + text(is_object ? next_object++ : -1) + " is " + what);
    return held;
}

int World::adopt(Call &call, int number) {
    if (NumberRef entry = find(call, number)) return entry->layer;
    Process &process = *call.process;
    File file = take_file(process.pid, number);
    if (!file) return -EBADF;
    if (!sync_ids(process)) return -ENFILE;
    if (NumberRef known = find_held(call, number)) {
        Reply reply = say(process, "dup " + text(known->layer));
        if (!reply.ok()) return -reply.error;
        enter(process, number, known->file, (int)reply.number(1));
        return (int)reply.number(1);
    }
    int layer_number = -1;
    if (Ref held = hold(process.layer, std::move(file), link_of(process.pid, number), layer_number)) enter(process, number, held, layer_number);
    return layer_number;
}
