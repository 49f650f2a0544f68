/* What the replay takes of Linux alone for its name spaces: one of users, so that a process can be any of them, and one of
 * processes that belongs to it, so that a message can tell another's (user_namespaces(7), pid_namespaces(7)). */
#include "replay.h"
#include <errno.h>
#include <fcntl.h>
#include <sched.h>
#include <stdio.h>
#include <sys/prctl.h>
#include <sys/wait.h>
#include <unistd.h>

/* The name space of users, and the process that keeps both as long as its channel is open. */
static int users_space = -1, channel = -1;
static pid_t keeper = -1, runner = -1;

/* The first process of the name space of processes. All others there end with it. */
static void __attribute__((noreturn)) be_first(void) {
    if (prctl(PR_SET_PDEATHSIG, SIGKILL) < 0) _exit(2);
    for (;;) pause();
}

/* A process that makes a name space of users, and that of processes when the other has its numbers. */
static void __attribute__((noreturn)) keep_spaces(int end) {
    char byte = 0;
    if (unshare(CLONE_NEWUSER) < 0 || send(end, &byte, 1, MSG_NOSIGNAL) != 1 || recv(end, &byte, 1, 0) != 1 ||
        unshare(CLONE_NEWPID) < 0) _exit(2);
    pid_t first = fork();
    if (first == 0) be_first();
    if (first < 0) _exit(2);
    if (send(end, &byte, 1, MSG_NOSIGNAL) == 1) recv(end, &byte, 1, 0);
    kill(first, SIGKILL);
    waitpid(first, NULL, 0);
    _exit(0);
}

/* Gives a name space its numbers from 0: users, or groups, in a row. */
static int write_map(const char *what, unsigned first, unsigned count) {
    char path[64];
    snprintf(path, sizeof path, "/proc/%d/%s", keeper, what);
    int number = open(path, O_WRONLY | O_CLOEXEC);
    int is_written = number >= 0 && dprintf(number, "0 %u %u\n", first, count) > 0;
    if (number >= 0) close(number);
    return is_written;
}

static int open_space(const char *what) {
    char path[64];
    snprintf(path, sizeof path, "/proc/%d/ns/%s", keeper, what);
    return open(path, O_RDONLY | O_CLOEXEC);
}

/* Has the keeper make the name spaces, and this process's children be in that of processes. */
static int make_spaces(unsigned first, unsigned count) {
    char byte = 0;
    if (recv(channel, &byte, 1, 0) != 1 || !write_map("uid_map", first, count) || !write_map("gid_map", first, count) ||
        send(channel, &byte, 1, MSG_NOSIGNAL) != 1 || recv(channel, &byte, 1, 0) != 1) return 0;
    int processes = open_space("pid_for_children");
    users_space = open_space("user");
    int is_there = processes >= 0 && users_space >= 0 && setns(processes, CLONE_NEWPID) == 0;
    if (processes >= 0) close(processes);
    return is_there;
}

static int start_keeper(unsigned first, unsigned count) {
    int ends[2];
    if (socketpair(AF_UNIX, SOCK_SEQPACKET | SOCK_CLOEXEC, 0, ends) < 0) return 0;
    keeper = fork();
    if (keeper == 0) {
        close(ends[0]);
        keep_spaces(ends[1]);
    }
    close(ends[1]);
    channel = ends[0];
    return keeper > 0 && make_spaces(first, count);
}

static void end_keeper(void) {
    close(channel);
    if (keeper > 0) waitpid(keeper, NULL, 0);
}

static void pass_on(int number) { kill(runner, number); }

/* Waits for the process that has gone on, and ends as it does. */
static void __attribute__((noreturn)) end_as_runner(void) {
    int status = 0;
    signal(SIGHUP, pass_on);
    signal(SIGINT, pass_on);
    signal(SIGTERM, pass_on);
    while (waitpid(runner, &status, 0) < 0 && errno == EINTR) continue;
    end_keeper();
    _exit(WIFEXITED(status) ? WEXITSTATUS(status) : 128 + WTERMSIG(status));
}

/* Goes on as a process of the name spaces, with this many users from the first on; this process waits for that one. It
 * answers whether there are any. */
int go_on_in_spaces(unsigned first, unsigned count) {
    if (!start_keeper(first, count)) {
        end_keeper();
        return 0;
    }
    runner = fork();
    if (runner < 0) fail("fork");
    if (runner > 0) end_as_runner();
    close(channel);
    if (prctl(PR_SET_PDEATHSIG, SIGTERM) < 0) fail("prctl");
    return 1;
}

int enter_user_space(void) { return setns(users_space, CLONE_NEWUSER); }
