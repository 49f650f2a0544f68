// Threads whose first sockets come at once, and tables of numbers that tasks share: CLONE_FILES without CLONE_THREAD, unshare, CLOSE_RANGE_UNSHARE, vfork.
#include <errno.h>
#include <linux/close_range.h>
#include <pthread.h>
#include <sched.h>
#include <signal.h>
#include <stdio.h>
#include <string.h>
#include <sys/socket.h>
#include <sys/syscall.h>
#include <sys/wait.h>
#include <unistd.h>

static int ends[2], made = -1;
static char stack[65536] __attribute__((aligned(16)));

static pthread_barrier_t begun;
static void *make_first(void *) {
    int pair[2];
    char byte = 0;
    pthread_barrier_wait(&begun);
    bool passes = !socketpair(AF_UNIX, SOCK_STREAM, 0, pair) && write(pair[0], "y", 1) == 1 && read(pair[1], &byte, 1) == 1 && byte == 'y';
    return (void *)(long)passes;
}
static void first_sockets() {
    pthread_t threads[8];
    long passed = 0;
    pthread_barrier_init(&begun, nullptr, 8);
    for (pthread_t &thread : threads) pthread_create(&thread, nullptr, make_first, nullptr);
    for (pthread_t &thread : threads) {
        void *passes;
        pthread_join(thread, &passes);
        passed += (long)passes;
    }
    printf("first sockets at once: %ld\n", passed);
}

static int in_shared(void *) {
    int more[2];
    socketpair(AF_UNIX, SOCK_STREAM, 0, more);
    made = more[0];
    if (write(more[1], "from the other task", 19) < 0) return 1;
    close(ends[1]);
    return 0;
}
static int in_own(void *) {
    unshare(CLONE_FILES | CLONE_FS);
    close(ends[0]);
    return write(ends[1], "still open", 10) == 10 ? 0 : 1;
}
static const char *state(int number) { return send(number, "x", 1, MSG_NOSIGNAL | MSG_DONTWAIT) < 0 ? strerror(errno) : "open"; }

static void run(int (*function)(void *), const char *what) {
    int status;
    int task = clone(function, stack + sizeof stack, CLONE_VM | CLONE_FILES | SIGCHLD, nullptr);
    waitpid(task, &status, 0);
    printf("%s: status %d\n", what, WEXITSTATUS(status));
}

int main() {
    char bytes[50] = {};
    setvbuf(stdout, nullptr, _IOLBF, 0);
    first_sockets();
    socketpair(AF_UNIX, SOCK_STREAM, 0, ends);
    run(in_shared, "shared");
    ssize_t n = read(made, bytes, sizeof bytes);
    printf("made there: %.*s; closed there: %s\n", (int)n, bytes, state(ends[1]));
    socketpair(AF_UNIX, SOCK_STREAM, 0, ends);
    run(in_own, "unshared");
    n = read(ends[0], bytes, sizeof bytes);
    printf("%.*s, %s\n", (int)n, bytes, state(ends[0]));
    if (!fork()) {
        syscall(SYS_close_range, 3u, ~0u, CLOSE_RANGE_UNSHARE);
        printf("after close_range: %s\n", state(ends[0]));
        _exit(0);
    }
    wait(nullptr);
    printf("in the parent: %s\n", state(ends[0]));
    if (!vfork()) {
        close(ends[0]);
        _exit(write(ends[1], "vfork", 5) == 5 ? 0 : 1);
    }
    wait(nullptr);
    n = read(ends[0], bytes, sizeof bytes);
    printf("%.*s, %s\n", (int)n, bytes, state(ends[1]));
}
