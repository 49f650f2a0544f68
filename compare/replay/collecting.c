/* What the kernel collects of sockets that lie in one another's queues. It does so on a thread of its own, some time
 * after a socket was closed (unix_gc of net/unix/garbage.c), so a run waits until it has. */
#include "replay.h"
#include <poll.h>
#include <string.h>
#include <sys/resource.h>
#include <sys/wait.h>
#include <time.h>
#include <unistd.h>

enum { ROUNDS = 3, TURNS = 400, TURN = 5 };

/* Passes two descriptors from one socket to another. It answers whether they were taken. */
static int pass(int from, const int *numbers, size_t count) {
    union {
        char bytes[CMSG_SPACE(2 * sizeof(int))];
        struct cmsghdr aligned;
    } item = {.aligned = {.cmsg_len = CMSG_LEN(count * sizeof(int)), .cmsg_level = SOL_SOCKET, .cmsg_type = SCM_RIGHTS}};
    char byte = 0;
    struct iovec bytes = {&byte, 1};
    struct msghdr message = {.msg_iov = &bytes, .msg_iovlen = 1, .msg_control = &item};
    message.msg_controllen = CMSG_SPACE(count * sizeof(int));
    memcpy(CMSG_DATA(&item.aligned), numbers, count * sizeof(int));
    return sendmsg(from, &message, MSG_NOSIGNAL | MSG_DONTWAIT) == 1;
}

/* A socket that lies in its own queue beside the end of a pipe: who collects it closes that end. It answers the other. */
static int lay_rubbish(void) {
    int pair[2], ends[2];
    if (socketpair(AF_UNIX, SOCK_DGRAM | SOCK_CLOEXEC, 0, pair) < 0) fail("socketpair");
    if (pipe(ends) < 0) fail("pipe");
    int rubbish[2] = {pair[1], ends[1]};
    int taken = pass(pair[0], rubbish, 2);
    close(ends[1]);
    close(pair[1]);
    close(pair[0]);
    if (taken) return ends[0];
    close(ends[0]);
    return -1;
}

/* The kernel begins to collect when a socket is closed. */
static void close_a_socket(void) {
    int number = socket(AF_UNIX, SOCK_DGRAM | SOCK_CLOEXEC, 0);
    if (number >= 0) close(number);
}

/* Whether this user has rights in flight: then a process that may have no descriptors passes none (unix(7)). */
static int is_refused(const int *pair) {
    char byte;
    if (!pass(pair[0], pair, 1)) return 1;
    return recv(pair[1], &byte, 1, MSG_DONTWAIT) == 1 ? 0 : 2;
}

/* A process of a user that may have no descriptors. It answers each byte with whether rights are in flight. */
static void __attribute__((noreturn)) probe(unsigned number, int channel) {
    struct rlimit none = {0, 0};
    int pair[2];
    char byte;
    end_child_mode();
    become_ordinary(number, 0, 0);
    if (socketpair(AF_UNIX, SOCK_DGRAM, 0, pair) < 0 || setrlimit(RLIMIT_NOFILE, &none) < 0) _exit(2);
    while (recv(channel, &byte, 1, 0) == 1) {
        byte = (char)is_refused(pair);
        if (byte > 1 || send(channel, &byte, 1, MSG_NOSIGNAL) != 1) _exit(2);
    }
    _exit(0);
}

static struct {
    pid_t pid;
    int channel;
} probes[MOST_USERS];
static unsigned probe_count;
static int had_some_before;

static void start_probe(unsigned number) {
    int ends[2];
    if (socketpair(AF_UNIX, SOCK_SEQPACKET | SOCK_CLOEXEC, 0, ends) < 0) fail("socketpair");
    pid_t pid = fork();
    if (pid < 0) fail("fork");
    if (pid == 0) {
        close(ends[0]);
        probe(number, ends[1]);
    }
    close(ends[1]);
    probes[probe_count].pid = pid;
    probes[probe_count++].channel = ends[0];
}

/* A process for each user of the run; without processes of a script for the first. */
void start_probes(void) {
    do start_probe(probe_count);
    while (probe_count < shared->user_count);
    had_some_before = has_rights_in_flight();
}

void end_probes(void) {
    for (unsigned i = 0; i < probe_count; i++) {
        kill(probes[i].pid, SIGKILL);
        waitpid(probes[i].pid, NULL, 0);
    }
}

int has_rights_in_flight(void) {
    int has_some = 0;
    for (unsigned i = 0; i < probe_count; i++) {
        int channel = probes[i].channel;
        char byte = 0;
        if (send(channel, &byte, 1, MSG_NOSIGNAL) != 1 || wait_on(channel, POLLIN, 1000L * SECONDS) <= 0 ||
            recv(channel, &byte, 1, 0) != 1) give_up("rights in flight can't be asked for");
        has_some |= byte;
    }
    return has_some;
}

/* Waits until what could be collected now is. What that frees is found in the next rounds. Files that were collected are
 * closed a little later than they are counted, so a call behind which nothing is in flight any more waits too. */
void await_collection(void) {
    static int was_in_flight;
    int is_in_flight = shared->has_passed_socket && has_rights_in_flight();
    int may_collect = was_in_flight || is_in_flight;
    was_in_flight = is_in_flight;
    if (!may_collect) return;
    for (int round = 0; round < ROUNDS; round++) {
        int end = lay_rubbish(), ready = 0;
        if (end < 0) continue;
        for (int turn = 0; turn < TURNS && ready <= 0; turn++) {
            ready = wait_on(end, POLLIN, TURN);
            if (ready <= 0) close_a_socket();
        }
        close(end);
        if (ready <= 0) give_up("the kernel doesn't collect sockets that lie in their own queues");
    }
}

/* Has the kernel collect what a run that was broken off leaves, without waiting for an answer. */
void collect_what_is_left(void) {
    struct timespec pause = {.tv_nsec = 10000000};
    for (int turn = 0; turn < ROUNDS; turn++) {
        close_a_socket();
        nanosleep(&pause, NULL);
    }
}

/* Ends the run where rights of its user are in flight still, though all its processes have exited. Of a user that had
 * some before, nobody can tell. */
void check_nothing_in_flight(void) {
    if (had_some_before) return;
    for (int turn = 0; turn < TURNS && has_rights_in_flight(); turn++) collect_what_is_left();
    if (has_rights_in_flight()) give_up("rights are left in flight");
}
