// Signals at blocked calls, with and without SA_RESTART, and a storm of them while rights are received.
#include <errno.h>
#include <poll.h>
#include <signal.h>
#include <stdio.h>
#include <string.h>
#include <sys/socket.h>
#include <sys/time.h>
#include <sys/wait.h>
#include <unistd.h>

static volatile sig_atomic_t seen;
static void handler(int) { seen = seen + 1; }

static void handle(int signal, int flags) {
    struct sigaction action = {};
    action.sa_handler = handler, action.sa_flags = flags;
    sigaction(signal, &action, nullptr);
}
static void every(long microseconds) {
    itimerval timer = {{0, microseconds}, {0, microseconds}};
    setitimer(ITIMER_REAL, &timer, nullptr);
}
static void once(long microseconds) {
    itimerval timer = {{0, 0}, {0, microseconds}};
    setitimer(ITIMER_REAL, &timer, nullptr);
}

static void send_right(int socket, int number) {
    char control[CMSG_SPACE(sizeof number)] = {}, byte = 'r';
    iovec part = {&byte, 1};
    msghdr head = {nullptr, 0, &part, 1, control, sizeof control, 0};
    cmsghdr *item = CMSG_FIRSTHDR(&head);
    item->cmsg_level = SOL_SOCKET, item->cmsg_type = SCM_RIGHTS, item->cmsg_len = CMSG_LEN(sizeof number);
    memcpy(CMSG_DATA(item), &number, sizeof number);
    while (sendmsg(socket, &head, 0) < 0 && errno == EINTR) {}
}
static int receive_right(int socket) {
    int number = -1;
    char control[CMSG_SPACE(sizeof number)], byte;
    iovec part = {&byte, 1};
    msghdr head = {nullptr, 0, &part, 1, control, sizeof control, 0};
    ssize_t n;
    while ((n = recvmsg(socket, &head, 0)) < 0 && errno == EINTR) {}
    if (n <= 0) return -1;
    if (cmsghdr *item = CMSG_FIRSTHDR(&head)) memcpy(&number, CMSG_DATA(item), sizeof number);
    return number;
}

// Each pipe's end arrives once, whatever comes between.
static void storm() {
    int ends[2];
    socketpair(AF_UNIX, SOCK_STREAM, 0, ends);
    if (!fork()) {
        close(ends[0]);
        for (int i = 0; i < 150; i++) {
            int pipes[2];
            if (pipe(pipes)) _exit(1);
            if (write(pipes[1], &i, sizeof i) < 0) _exit(1);
            send_right(ends[1], pipes[0]);
            close(pipes[0]), close(pipes[1]);
        }
        _exit(0);
    }
    close(ends[1]);
    handle(SIGALRM, 0);
    every(300);
    int right = 0, got = 0;
    for (int number; (number = receive_right(ends[0])) >= 0; got++) {
        int value = -1;
        while (read(number, &value, sizeof value) < 0 && errno == EINTR) {}
        right += value == got;
        close(number);
    }
    every(0);
    while (wait(nullptr) < 0 && errno == EINTR) {}
    printf("storm: %d rights, %d in order, signals %s\n", got, right, seen > 0 ? "came" : "didn't come");
}

static void blocked(int flags, const char *what) {
    int ends[2];
    char bytes[10];
    socketpair(AF_UNIX, SOCK_STREAM, 0, ends);
    seen = 0;
    handle(SIGALRM, flags);
    if (!fork()) {
        usleep(300000);
        if (write(ends[1], "late", 4) < 0) _exit(1);
        _exit(0);
    }
    once(100000);
    ssize_t n = read(ends[0], bytes, sizeof bytes);
    printf("%s: %zd %s, %d signals\n", what, n, n < 0 ? strerror(errno) : "bytes", (int)seen);
    wait(nullptr);
}

static void partial() {
    static char bytes[400000];
    int ends[2];
    socketpair(AF_UNIX, SOCK_STREAM, 0, ends);
    handle(SIGALRM, SA_RESTART);
    once(300000);
    ssize_t n = write(ends[0], bytes, sizeof bytes);
    printf("a send that a signal cuts: %s\n", n > 0 && n < (ssize_t)sizeof bytes ? "some bytes" : "none or all");
    timeval limit = {5, 0};
    setsockopt(ends[0], SOL_SOCKET, SO_RCVTIMEO, &limit, sizeof limit);
    once(100000);
    n = read(ends[0], bytes, 10);
    printf("with a limit of time: %zd %s\n", n, n < 0 ? strerror(errno) : "");
    signal(SIGALRM, SIG_IGN);
    limit = {0, 300000};
    setsockopt(ends[0], SOL_SOCKET, SO_RCVTIMEO, &limit, sizeof limit);
    once(100000);
    n = read(ends[0], bytes, 10);
    printf("an ignored one: %zd %s\n", n, n < 0 ? strerror(errno) : "");
}

// A close, a copy and a name's look-up end as if nothing had come.
static void whole_calls() {
    int ends[2], failed = 0;
    sockaddr name;
    socketpair(AF_UNIX, SOCK_STREAM, 0, ends);
    handle(SIGALRM, 0);
    every(300);
    for (int i = 0; i < 500; i++) {
        socklen_t length = sizeof name;
        int copy = dup(ends[0]), other = dup(0);
        failed += copy < 0 || other < 0 || getsockname(ends[1], &name, &length) < 0;
        failed += close(copy) < 0;
        failed += close(other) < 0;
    }
    every(0);
    signal(SIGALRM, SIG_IGN);
    printf("calls that no signal cuts off: %d failed\n", failed);
    close(ends[0]), close(ends[1]);
}

int main() {
    setvbuf(stdout, nullptr, _IOLBF, 0);
    whole_calls();
    blocked(0, "no restart");
    blocked(SA_RESTART, "restart");
    partial();
    storm();
    handle(SIGPIPE, 0);
    int ends[2];
    socketpair(AF_UNIX, SOCK_STREAM, 0, ends);
    close(ends[1]), seen = 0;
    ssize_t n = write(ends[0], "x", 1);
    printf("SIGPIPE: %zd %s, %d signals\n", n, strerror(errno), (int)seen);
    n = send(ends[0], "x", 1, MSG_NOSIGNAL);
    printf("MSG_NOSIGNAL: %zd %s, %d signals\n", n, strerror(errno), (int)seen);
}
