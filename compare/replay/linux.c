/* What the replay takes of Linux alone, behind functions that a file for another kernel can have in its place. Beside them
 * only credentials are Linux's own (control.c, socket_calls.c): SO_PEERCRED, SO_PASSCRED and SCM_CREDENTIALS. */
#include "replay.h"
#include <fcntl.h>
#include <linux/sockios.h>
#include <sched.h>
#include <stdio.h>
#include <string.h>
#include <sys/epoll.h>
#include <sys/eventfd.h>
#include <sys/inotify.h>
#include <sys/ioctl.h>
#include <sys/mman.h>
#include <sys/prctl.h>
#include <sys/random.h>
#include <sys/syscall.h>
#include <unistd.h>

enum { SOMAXCONN_IF_UNKNOWN = 4096 };

static int watches = -1, held = -1;

/* ---- memory and processes */

/* Memory that processes share by a descriptor of it. */
int make_memory(size_t size) {
    int number = memfd_create("linux_replay", 0);
    return number >= 0 && ftruncate(number, (off_t)size) == 0 ? number : -1;
}

int fill_at_random(void *bytes, size_t size) { return getrandom(bytes, size, 0) == (ssize_t)size ? 0 : -1; }

/* A fork whose child is one of this process's parent, which so hears of its end. */
pid_t fork_beside(void) { return (pid_t)syscall(SYS_clone, CLONE_PARENT | SIGCHLD, 0, 0, 0, 0); }

/* Has this process end with its parent. It answers -1 where that isn't the one that was told, or can't be. */
int end_with_parent(pid_t parent) {
    if (prctl(PR_SET_PDEATHSIG, SIGKILL) < 0) return -1;
    return parent == 0 || getppid() == parent ? 0 : -1;
}

/* This program in place of itself. It comes back where that can't be. */
void execute_again(const char *option, const char *word) { execl("/proc/self/exe", "linux_replay", option, word, NULL); }

int close_from_to(unsigned first, unsigned last) { return close_range(first, last, 0); }

const char *name_of_error(int error) { return strerrorname_np(error); }

/* ---- file objects */

int start_watching(void) {
    watches = inotify_init1(IN_NONBLOCK | IN_CLOEXEC);
    held = epoll_create1(EPOLL_CLOEXEC);
    return watches < 0 || held < 0 ? -1 : 0;
}

/* A number by which the file is told once it is deleted, and nothing has it open. */
int watch_file(const char *name) { return inotify_add_watch(watches, name, IN_DELETE_SELF); }

/* The same of a file without a path, by its descriptor, which may be closed then. */
int watch_file_in_memory(int number) {
    char path[64];
    snprintf(path, sizeof path, "/proc/self/fd/%d", number);
    return watch_file(path);
}

/* Calls a function with the number of each watch whose file is gone. */
void see_watched_go(void (*see)(int watch, int *gone), int *gone) {
    union {
        char bytes[CHUNK];
        struct inotify_event aligned;
    } events;
    for (ssize_t count; (count = read(watches, events.bytes, sizeof events)) > 0;) {
        for (char *at = events.bytes; at < events.bytes + count;) {
            struct inotify_event *event = (struct inotify_event *)at;
            if (event->mask & IN_DELETE_SELF) see(event->wd, gone);
            at += sizeof *event + event->len;
        }
    }
}

/* A file in memory with the flags that a script gives: those that memfd_create(2) doesn't know as flags of an open. */
int make_file_in_memory(const char *flags) {
    return memfd_create("file", (strchr(flags, 'x') ? MFD_CLOEXEC : 0u) | (strchr(flags, 'n') ? (unsigned)O_NONBLOCK : 0u) |
                                    (strchr(flags, 'a') ? (unsigned)O_APPEND : 0u));
}

int make_counter(unsigned value, int is_semaphore, int flags) {
    return eventfd(value, flags | (is_semaphore ? EFD_SEMAPHORE : 0));
}

int make_pipe(int *ends, int flags) { return pipe2(ends, flags); }

/* Has an epoll list what a descriptor leads to with a file object's number, as long as anything refers to it. */
int watch_references(int number, unsigned object) {
    struct epoll_event event = {.events = 0, .data.u64 = object};
    return epoll_ctl(held, EPOLL_CTL_ADD, number, &event);
}

/* Whether it lists anything with this number. */
int is_referred_to(unsigned object) {
    char path[64], line[256];
    int is_listed = 0;
    unsigned long long told;
    snprintf(path, sizeof path, "/proc/self/fdinfo/%d", held);
    FILE *lines = fopen(path, "re");
    if (lines == NULL) fail(path);
    while (fgets(line, sizeof line, lines)) {
        is_listed |= sscanf(line, "tfd: %*d events: %*x data: %llx", &told) == 1 && told == object;
    }
    fclose(lines);
    return is_listed;
}

/* What tells a counter from others. The table may be full meanwhile. */
unsigned long long id_of_counter(int number) {
    char path[64], line[256];
    unsigned long long id = 0;
    snprintf(path, sizeof path, "/proc/self/fdinfo/%d", number);
    set_limit(HANDED + 2);
    FILE *lines = fopen(path, "re");
    if (lines == NULL) give_up("a counter can't be told");
    while (fgets(line, sizeof line, lines) && sscanf(line, "eventfd-id: %llu", &id) != 1) continue;
    fclose(lines);
    if (me) set_limit(shared->processes[me].limit);
    return id;
}

/* ---- what is told of sockets and pipes */

/* Whether a socket has an abstract name that begins so. */
int is_name_bound(const char *beginning) {
    char line[LINE], sought[LINE];
    int is_bound = 0;
    FILE *names = fopen("/proc/net/unix", "re");
    snprintf(sought, sizeof sought, " @%s", beginning);
    while (names && fgets(line, sizeof line, names)) is_bound |= strstr(line, sought) != NULL;
    if (names) fclose(names);
    return is_bound;
}

/* The memory that a socket is charged for what it has sent and nobody has received. */
int charged_to(int number) {
    int cost = 0;
    return ioctl(number, SIOCOUTQ, &cost) < 0 ? -1 : cost;
}

long bytes_of_pipe(int number) { return fcntl(number, F_GETPIPE_SZ); }

/* The most connections that may wait, net.core.somaxconn. */
long most_backlog(void) {
    long figure = SOMAXCONN_IF_UNKNOWN;
    FILE *file = fopen("/proc/sys/net/core/somaxconn", "re");
    if (file == NULL) return figure;
    if (fscanf(file, "%ld", &figure) != 1) give_up("net.core.somaxconn can't be read");
    fclose(file);
    return figure;
}
