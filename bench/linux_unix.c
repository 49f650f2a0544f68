/* The calls of bench_calls over the machine's own AF_UNIX and files: nanoseconds, in the quickest of some
 * rounds, one line a kind of call, on standard error. Connections are by abstract addresses; the most names
 * want 5,000 descriptors and a little more. */
#define _GNU_SOURCE
#include <fcntl.h>
#include <poll.h>
#include <stddef.h>
#include <stdint.h>
#include <stdio.h>
#include <stdlib.h>
#include <sys/resource.h>
#include <sys/socket.h>
#include <sys/uio.h>
#include <sys/un.h>
#include <time.h>
#include <unistd.h>

enum { TURNS = 16, ROUNDS = 40, GREATEST = 65536, BACKLOG = 4, MOST_NAMES = 10000, MOST_RIGHTS = 253 };

static char bytes[GREATEST];
static char path[] = "linux_unix.XXXXXX";
static int file;
static int pair[2];
static int listener;
static struct sockaddr_un listeners_address;
static socklen_t listeners_length;
static int held[MOST_NAMES / 2];

static void must(int granted) {
    if (!granted) {
        perror("linux_unix");
        exit(1);
    }
}

static uint64_t now(void) {
    struct timespec t;
    must(clock_gettime(CLOCK_MONOTONIC, &t) == 0);
    return (uint64_t)t.tv_sec * 1000000000u + (uint64_t)t.tv_nsec;
}

static void make_pair(void) { must(socketpair(AF_UNIX, SOCK_STREAM | SOCK_NONBLOCK, 0, pair) == 0); }

static void make_datagram_pair(void) { must(socketpair(AF_UNIX, SOCK_DGRAM | SOCK_NONBLOCK, 0, pair) == 0); }

static void close_pair(void) { must(close(pair[0]) == 0 && close(pair[1]) == 0); }

static void nothing(void) {}

static void rewind_file(void) { must(lseek(file, 0, SEEK_SET) == 0); }

/* A send of so many bytes, and receives until all have come: the kernel may hand them out in parts. */
static void send_and_receive(size_t length) {
    struct iovec whole = {bytes, length};
    struct msghdr message = {.msg_iov = &whole, .msg_iovlen = 1};
    size_t sent = 0;
    while (sent < length) {
        whole.iov_base = bytes + sent;
        whole.iov_len = length - sent;
        ssize_t count = sendmsg(pair[0], &message, 0);
        must(count > 0);
        sent += (size_t)count;
        size_t received = 0;
        while (received < (size_t)count) {
            whole.iov_base = bytes + received;
            whole.iov_len = (size_t)count - received;
            ssize_t part = recvmsg(pair[1], &message, 0);
            must(part > 0);
            received += (size_t)part;
        }
    }
}

static void stream_1(void) { send_and_receive(1); }
static void stream_64(void) { send_and_receive(64); }
static void stream_4096(void) { send_and_receive(4096); }
static void stream_65536(void) { send_and_receive(65536); }

/* Passes the file so many times in one message, receives it, and closes what was received. */
static void pass_and_receive(int count) {
    static union {
        char bytes[CMSG_SPACE(MOST_RIGHTS * sizeof(int))];
        struct cmsghdr aligned;
    } control;
    struct iovec data = {.iov_base = bytes, .iov_len = 1};
    struct msghdr message = {.msg_iov = &data, .msg_iovlen = 1, .msg_control = control.bytes};
    message.msg_controllen = CMSG_SPACE(count * sizeof(int));
    struct cmsghdr *item = CMSG_FIRSTHDR(&message);
    item->cmsg_len = CMSG_LEN(count * sizeof(int));
    item->cmsg_level = SOL_SOCKET;
    item->cmsg_type = SCM_RIGHTS;
    int *numbers = (int *)CMSG_DATA(item);
    for (int i = 0; i < count; i++) numbers[i] = file;
    must(sendmsg(pair[0], &message, 0) == 1);
    message.msg_controllen = sizeof control.bytes;
    must(recvmsg(pair[1], &message, 0) == 1 && item->cmsg_len == CMSG_LEN(count * sizeof(int)));
    for (int i = 0; i < count; i++) must(close(numbers[i]) == 0);
}

static void rights_1(void) { pass_and_receive(1); }
static void rights_253(void) { pass_and_receive(MOST_RIGHTS); }

static void pair_and_closes(void) {
    make_pair();
    close_pair();
}

static void open_and_close(void) {
    int number = open(path, O_RDWR);
    must(number >= 0 && close(number) == 0);
}

static void dup_and_close(void) {
    int number = dup(file);
    must(number >= 0 && close(number) == 0);
}

static void write_1(void) { must(write(file, bytes, 1) == 1); }
static void read_1(void) { must(read(file, bytes, 1) == 1); }

static void poll_1(void) {
    struct pollfd one = {.fd = file, .events = POLLIN | POLLOUT};
    must(poll(&one, 1, 0) == 1);
}

static void make_pipe(void) { must(pipe2(pair, O_NONBLOCK) == 0); }

static void pipe_4096(void) { must(write(pair[1], bytes, 4096) == 4096 && read(pair[0], bytes, 4096) == 4096); }

static int make_socket(void) {
    int number = socket(AF_UNIX, SOCK_STREAM | SOCK_NONBLOCK, 0);
    must(number >= 0);
    return number;
}

/* The address of this number: an abstract name, or a path in this folder. It answers the address's length. */
static socklen_t address_of(struct sockaddr_un *address, int abstract, int number) {
    *address = (struct sockaddr_un){.sun_family = AF_UNIX};
    char *text = address->sun_path + abstract;
    int length = snprintf(text, sizeof address->sun_path - 1, "linux_unix.%d.%d", (int)getpid(), number);
    must(length > 0);
    return (socklen_t)(offsetof(struct sockaddr_un, sun_path) + (size_t)length + 1);
}

static void bind_to(int number_of_socket, int abstract, int number) {
    struct sockaddr_un address;
    socklen_t length = address_of(&address, abstract, number);
    must(bind(number_of_socket, (struct sockaddr *)&address, length) == 0);
}

/* A socket that listens by this abstract name. */
static int listen_by(int number) {
    int made = make_socket();
    bind_to(made, 1, number);
    must(listen(made, BACKLOG) == 0);
    return made;
}

static void bind_path(int number) {
    int made = make_socket();
    bind_to(made, 0, number);
    must(close(made) == 0);
}

static void unlink_path(int number) {
    struct sockaddr_un address;
    address_of(&address, 0, number);
    must(unlink(address.sun_path) == 0);
}

/* Puts so many names in use: half are paths whose sockets have gone, half abstract names of listeners. */
static void hold_names(int names) {
    for (int i = 0; i < names / 2; i++) {
        bind_path(i);
        held[i] = listen_by(i);
    }
}

static void drop_names(int names) {
    for (int i = 0; i < names / 2; i++) {
        unlink_path(i);
        must(close(held[i]) == 0);
    }
}

static void make_listener(void) {
    listener = listen_by(MOST_NAMES);
    listeners_length = address_of(&listeners_address, 1, MOST_NAMES);
}

static void close_listener(void) { must(close(listener) == 0); }

/* A socket that connects to the listener, the accept of its connection, and the closes of both ends. */
static void connect_and_accept(void) {
    int client = make_socket();
    must(connect(client, (struct sockaddr *)&listeners_address, listeners_length) == 0);
    struct sockaddr_un clients;
    socklen_t length = sizeof clients;
    int end = accept4(listener, (struct sockaddr *)&clients, &length, SOCK_NONBLOCK);
    must(end >= 0 && close(end) == 0 && close(client) == 0);
}

/* Two datagram sockets, of which the second has an abstract name. */
static struct sockaddr_un targets_address;
static socklen_t targets_length;

static void make_target(void) {
    pair[0] = socket(AF_UNIX, SOCK_DGRAM | SOCK_NONBLOCK, 0);
    pair[1] = socket(AF_UNIX, SOCK_DGRAM | SOCK_NONBLOCK, 0);
    must(pair[0] >= 0 && pair[1] >= 0);
    targets_length = address_of(&targets_address, 1, MOST_NAMES + 1);
    must(bind(pair[1], (struct sockaddr *)&targets_address, targets_length) == 0);
}

/* A datagram of so many bytes to an address, or where there is none to the socket's peer, and its receive with its
 * sender's name. */
static void exchange_datagram(struct sockaddr_un *address, socklen_t length, size_t size) {
    struct sockaddr_un from;
    struct iovec whole = {bytes, size};
    struct msghdr message = {.msg_name = address, .msg_namelen = length, .msg_iov = &whole, .msg_iovlen = 1};
    struct msghdr received = {.msg_name = &from, .msg_namelen = sizeof from, .msg_iov = &whole, .msg_iovlen = 1};
    must(sendmsg(pair[0], &message, 0) == (ssize_t)size);
    must(recvmsg(pair[1], &received, 0) == (ssize_t)size);
}

static void datagram_on_a_pair(void) { exchange_datagram(NULL, 0, 64); }
static void large_datagram(void) { exchange_datagram(NULL, 0, GREATEST); }
static void datagram_by_address(void) { exchange_datagram(&targets_address, targets_length, 64); }

struct calls {
    const char *name;
    void (*before)(void);
    void (*measured)(void);
    void (*after)(void);
};

static const struct calls ALL[] = {
    {"send and receive, 1 byte", make_pair, stream_1, close_pair},
    {"send and receive, 64 bytes", make_pair, stream_64, close_pair},
    {"send and receive, 4,096 bytes", make_pair, stream_4096, close_pair},
    {"send and receive, 65,536 bytes", make_pair, stream_65536, close_pair},
    {"send and receive of 1 right, and its close", make_pair, rights_1, close_pair},
    {"send and receive of 253 rights, and their closes", make_pair, rights_253, close_pair},
    {"datagram of 64 bytes on a pair", make_datagram_pair, datagram_on_a_pair, close_pair},
    {"datagram of 65,536 bytes on a pair", make_datagram_pair, large_datagram, close_pair},
    {"datagram of 64 bytes by an address", make_target, datagram_by_address, close_pair},
    {"pair and two closes", nothing, pair_and_closes, nothing},
    {"socket, connect, accept, two closes", make_listener, connect_and_accept, close_listener},
    {"open and close", nothing, open_and_close, nothing},
    {"dup and close", nothing, dup_and_close, nothing},
    {"write, 1 byte", rewind_file, write_1, nothing},
    {"read, 1 byte", rewind_file, read_1, nothing},
    {"poll of a file", nothing, poll_1, nothing},
    {"pipe, 4,096 bytes", make_pipe, pipe_4096, close_pair},
};

/* A connection, with so many other names in use. */
static const struct {
    int names;
    struct calls calls;
} AMONG[] = {
    {10, {"socket, connect, accept, two closes, 10 names", make_listener, connect_and_accept, close_listener}},
    {1000, {"socket, connect, accept, two closes, 1,000 names", make_listener, connect_and_accept, close_listener}},
    {10000, {"socket, connect, accept, two closes, 10,000 names", make_listener, connect_and_accept, close_listener}},
};

static uint64_t time_of(const struct calls *calls) {
    calls->before();
    uint64_t start = now();
    for (int turn = 0; turn < TURNS; turn++) {
        calls->measured();
    }
    uint64_t time = now() - start;
    calls->after();
    return time;
}

static void print_time(const struct calls *calls) {
    uint64_t quickest = UINT64_MAX;
    for (int round = 0; round < ROUNDS; round++) {
        uint64_t time = time_of(calls);
        quickest = time < quickest ? time : quickest;
    }
    fprintf(stderr, "linux: %s: %llu ns\n", calls->name, (unsigned long long)(quickest / TURNS));
}

/* As many descriptors as this user may have. */
static void raise_limit(void) {
    struct rlimit limit;
    must(getrlimit(RLIMIT_NOFILE, &limit) == 0);
    limit.rlim_cur = limit.rlim_max;
    must(setrlimit(RLIMIT_NOFILE, &limit) == 0);
}

int main(void) {
    raise_limit();
    file = mkstemp(path);
    must(file >= 0 && write(file, bytes, 64) == 64);
    for (size_t i = 0; i < sizeof ALL / sizeof ALL[0]; i++) {
        print_time(&ALL[i]);
    }
    for (size_t i = 0; i < sizeof AMONG / sizeof AMONG[0]; i++) {
        hold_names(AMONG[i].names);
        print_time(&AMONG[i].calls);
        drop_names(AMONG[i].names);
    }
    must(unlink(path) == 0);
    return 0;
}
