#include "placeholder.h"
#include <errno.h>
#include <fcntl.h>
#include <string.h>
#include <sys/un.h>
#include <unistd.h>
#include "text.h"

static const char FILLER[4000] = {};           // fills the smallest send buffer

static void bind_anywhere(int socket) {
    sockaddr_un name = {AF_UNIX, {}};
    if (bind(socket, (sockaddr *)&name, sizeof(sa_family_t))) throw Fault("a placeholder can't be bound");
}
void connect_to(int socket, int listener) {
    sockaddr_un name;
    socklen_t length = sizeof name;
    getsockname(listener, (sockaddr *)&name, &length);
    if (connect(socket, (sockaddr *)&name, length)) throw Fault(std::string("a placeholder can't be connected: ") + strerror(errno));
}
static void keep_small(int socket) {
    int least = 1;
    setsockopt(socket, SOL_SOCKET, SO_SNDBUF, &least, sizeof least);
}
static void drain(int socket) {
    char bytes[8192];
    while (recv(socket, bytes, sizeof bytes, MSG_DONTWAIT) > 0) {}
}
static bool put_byte(int socket) { return send(socket, "!", 1, MSG_DONTWAIT | MSG_NOSIGNAL) == 1; }
static void add_input(Description &file) { file.shown_bytes += put_byte(file.hidden.get()); }
static void take_input(Description &file) {
    char bytes[4096];
    for (ssize_t n = 1; file.shown_bytes > 0 && n > 0; file.shown_bytes -= n) n = recv(file.shown.get(), bytes, sizeof bytes, MSG_DONTWAIT);
    file.shown_bytes = 0;
}

File &Placeholders::listener_of(Kind kind) {
    File &listener = kind == STREAM ? streams : records;
    if (!listener) {
        listener.reset(socket(AF_UNIX, (int)kind | SOCK_CLOEXEC, 0));
        bind_anywhere(listener.get());
        if (::listen(listener.get(), 128)) throw Fault("no listener for placeholders");
    }
    return listener;
}

void Placeholders::make_idle(Description &file, bool nonblock) {
    if (file.kind == DATAGRAM) return make_pair(file, nonblock);
    file.shown.reset(socket(AF_UNIX, (int)file.kind | SOCK_CLOEXEC | (nonblock ? SOCK_NONBLOCK : 0), 0));
    if (!file.shown) throw Fault(std::string("no placeholder: ") + strerror(errno));
    keep_small(file.shown.get());
}

void Placeholders::make_pair(Description &file, bool nonblock) {
    int ends[2];
    if (socketpair(AF_UNIX, (int)file.kind | SOCK_CLOEXEC, 0, ends)) throw Fault(std::string("no placeholder: ") + strerror(errno));
    file.shown.reset(ends[0]);
    file.hidden.reset(ends[1]);
    keep_small(ends[0]);
    if (nonblock) fcntl(ends[0], F_SETFL, fcntl(ends[0], F_GETFL) | O_NONBLOCK);
}

void Placeholders::connect(Description &file) {
    if (!file.shown) return;
    File &listener = listener_of(file.kind);
    connect_to(file.shown.get(), listener.get());
    file.hidden.reset(accept4(listener.get(), nullptr, nullptr, SOCK_CLOEXEC));
    file.shown_conditions = 0;
}

void Placeholders::listen(Description &file) {
    if (file.listens_for_real || !file.shown) return;
    bind_anywhere(file.shown.get());           // not by its own name: a renamed path would lead nowhere
    if (::listen(file.shown.get(), 8)) throw Fault("a placeholder can't listen");
    file.listens_for_real = true;
}

static void show_listener(Description &file, bool in) {
    if (in == !file.dummies.empty()) return;
    if (in) {
        File client(socket(AF_UNIX, (int)file.kind | SOCK_CLOEXEC, 0));
        connect_to(client.get(), file.shown.get());
        file.dummies.push_back(std::move(client));
        return;
    }
    int flags = fcntl(file.shown.get(), F_GETFL);
    fcntl(file.shown.get(), F_SETFL, flags | O_NONBLOCK);
    File(accept4(file.shown.get(), nullptr, nullptr, SOCK_CLOEXEC));
    fcntl(file.shown.get(), F_SETFL, flags);
    file.dummies.clear();
}

// Of a placeholder whose other end is closed, or that never had one.
static void show_lonely(Description &file, unsigned conditions) {
    if (!(conditions & ERR) && file.shown_conditions & ERR) {
        int error;
        socklen_t length = sizeof error;
        getsockopt(file.shown.get(), SOL_SOCKET, SO_ERROR, &error, &length);
    }
    if (!(conditions & IN) && file.shown_conditions & IN) drain(file.shown.get());
    file.shown_conditions = conditions;
}

// Of a connection that neither end can send on any more. The other end is kept, since a reset may be told later still.
static void show_hung_up(Description &file, unsigned conditions) {
    bool is_new = !(file.shown_conditions & HUP);
    if (is_new) {
        drain(file.hidden.get());
        put_byte(file.shown.get());            // unread at a close: the kernel tells ECONNRESET then
    }
    if (conditions & ERR) file.hidden.reset();
    else if (is_new) shutdown(file.hidden.get(), SHUT_RDWR);
    file.shown_conditions = conditions;
}

static void show_room(Description &file, bool has_room) {
    if (has_room != file.shown_full) return;
    if (has_room) drain(file.hidden.get());
    else send(file.shown.get(), FILLER, sizeof FILLER, MSG_DONTWAIT | MSG_NOSIGNAL);
    file.shown_full = !has_room;
}

void Placeholders::show(Description &file) {
    unsigned conditions = file.told.conditions, changed = file.shown_conditions ^ conditions;
    bool has_arrived = std::exchange(file.has_arrived, false);
    if (!file.shown || !file.is_socket()) return;
    if (file.listening) return show_listener(file, conditions & IN);
    if (!file.hidden) return show_lonely(file, conditions);
    if (changed & IN) conditions & IN ? add_input(file) : take_input(file);
    else if (has_arrived && conditions & IN) add_input(file);    // edge-triggered epoll wants an event
    if (file.kind != DATAGRAM && conditions & HUP) return show_hung_up(file, conditions);
    if (conditions & RDHUP && changed & RDHUP) shutdown(file.hidden.get(), SHUT_WR);
    show_room(file, conditions & OUT);
    file.shown_conditions = conditions;
}
