/* What answers of this machine depend on, measured: its limits, and the memory that a message costs its sender. */
#include "replay.h"
#include <errno.h>
#include <fcntl.h>
#include <stdio.h>
#include <stdlib.h>
#include <string.h>
#include <unistd.h>

/* The longest message of which the layer knows. */
enum { LONGEST = 1 << 16 };

/* The memory that a sender is charged for a message of so many bytes, by an end of a pair whose other end is empty before and
 * behind it. */
static int cost_of(const int *pair, size_t length) {
    if (send(pair[0], data, length, MSG_DONTWAIT) != (ssize_t)length) fail("send");
    int cost = charged_to(pair[0]);
    if (cost < 0 || recv(pair[1], data, LONGEST, MSG_DONTWAIT) < 0) fail("what a message costs");
    return cost;
}

/* Tells where in a stretch of lengths the cost changes, by halves: a longer message costs no less. */
static void tell_changes(const char *name, const int *pair, size_t first, int cost, size_t last, int last_cost) {
    if (cost == last_cost) return;
    if (last == first + 1) {
        printf("%s %zu %d\n", name, last, last_cost);
        return;
    }
    size_t middle = first + (last - first) / 2;
    int middle_cost = cost_of(pair, middle);
    tell_changes(name, pair, first, cost, middle, middle_cost);
    tell_changes(name, pair, middle, middle_cost, last, last_cost);
}

static void tell_costs(const char *name, int type, size_t longest) {
    int pair[2];
    if (socketpair(AF_UNIX, type | SOCK_CLOEXEC, 0, pair) < 0) fail("socketpair");
    size_t least = type == SOCK_STREAM;  /* no bytes are no message of a stream */
    int cost = cost_of(pair, least);
    printf("%s 0 %d\n", name, cost);
    tell_changes(name, pair, least, cost, longest, cost_of(pair, longest));
    close(pair[0]);
    close(pair[1]);
}

/* Of how many bytes a stream makes a message: what a receive gets with a right, where more was sent with it. */
static ssize_t bytes_of_message(void) {
    int pair[2];
    if (socketpair(AF_UNIX, SOCK_STREAM | SOCK_CLOEXEC, 0, pair) < 0) fail("socketpair");
    struct iovec bytes = {data, LONGEST};
    union {
        struct cmsghdr head;
        char space[CMSG_SPACE(sizeof(int))];
    } control = {.head = {.cmsg_len = CMSG_LEN(sizeof(int)), .cmsg_level = SOL_SOCKET, .cmsg_type = SCM_RIGHTS}};
    struct msghdr message = {.msg_iov = &bytes, .msg_iovlen = 1, .msg_control = control.space, .msg_controllen = sizeof control.space};
    memcpy(CMSG_DATA(&control.head), pair, sizeof(int));
    if (sendmsg(pair[0], &message, MSG_DONTWAIT) != LONGEST) fail("a long send");
    message.msg_control = NULL;
    message.msg_controllen = 0;
    ssize_t count = recvmsg(pair[1], &message, MSG_DONTWAIT);
    if (count <= 0) fail("a receive of it");
    close(pair[0]);
    close(pair[1]);
    return count;
}

/* How many datagrams a socket takes of others. */
static long datagrams(void) {
    struct sockaddr_un address = {.sun_family = AF_UNIX};
    socklen_t length = sizeof address;
    int target = socket(AF_UNIX, SOCK_DGRAM | SOCK_CLOEXEC, 0), from = socket(AF_UNIX, SOCK_DGRAM | SOCK_CLOEXEC, 0);
    long count = 0;
    if (target < 0 || from < 0 || bind(target, (struct sockaddr *)&address, sizeof address.sun_family) < 0) fail("bind");
    if (getsockname(target, (struct sockaddr *)&address, &length) < 0) fail("getsockname");
    while (sendto(from, "", 0, MSG_DONTWAIT, (struct sockaddr *)&address, length) == 0) count++;
    close(target);
    close(from);
    return count - 1;
}

static int send_buffer(void) {
    int number = socket(AF_UNIX, SOCK_STREAM | SOCK_CLOEXEC, 0), value = 0;
    socklen_t length = sizeof value;
    if (number < 0 || getsockopt(number, SOL_SOCKET, SO_SNDBUF, &value, &length) < 0) fail("SO_SNDBUF");
    close(number);
    return value;
}

/* Whether a datagram without an address finds no peer before it finds that the socket is shut for writing. */
static int looks_for_peer_first(void) {
    int number = socket(AF_UNIX, SOCK_DGRAM | SOCK_CLOEXEC, 0);
    if (number < 0 || shutdown(number, SHUT_WR) < 0) fail("shutdown");
    int is_first = send(number, "", 0, MSG_NOSIGNAL | MSG_DONTWAIT) < 0 && errno == ENOTCONN;
    close(number);
    return is_first;
}

/* The greatest offset that a file of the run's folder may have, by halves. */
static long long greatest_offset(void) {
    long long taken = 0, refused = LLONG_MAX;
    int number = open("offset", O_RDWR | O_CREAT | O_EXCL | O_CLOEXEC, 0600);
    if (number < 0) fail("offset");
    if (lseek(number, refused, SEEK_SET) == refused) taken = refused;
    while (taken < refused - 1) {
        long long middle = taken + (refused - taken) / 2;
        if (lseek(number, middle, SEEK_SET) == middle) taken = middle;
        else refused = middle;
    }
    close(number);
    unlink("offset");
    return taken;
}

/* Prints the figures, each by its name. */
void tell_machine(void) {
    int ends[2];
    long page = sysconf(_SC_PAGESIZE);
    if (pipe2(ends, O_CLOEXEC) < 0) fail("pipe");
    printf("send_buffer %d\n", send_buffer());
    printf("datagrams %ld\n", datagrams());
    printf("backlog %ld\n", most_backlog());
    printf("greatest_offset %lld\n", greatest_offset());
    printf("page %ld\n", page);
    printf("pipe_pages %ld\n", bytes_of_pipe(ends[0]) / page);
    printf("peer_first %d\n", looks_for_peer_first());
    printf("users_apart %d\n", geteuid() == 0);
    printf("own_users %d\n", shared->has_own_users);
    ssize_t longest = bytes_of_message();
    printf("message %zd\n", longest);
    tell_costs("cost", SOCK_DGRAM, LONGEST);
    tell_costs("stream_cost", SOCK_STREAM, (size_t)longest);
}
