/* How a run begins and ends: its memory, its folder, its signals, and what is taken away. */
#include "replay.h"
#include <dirent.h>
#include <errno.h>
#include <fcntl.h>
#include <poll.h>
#include <stdio.h>
#include <stdlib.h>
#include <string.h>
#include <sys/mman.h>
#include <sys/stat.h>
#include <sys/wait.h>
#include <time.h>
#include <unistd.h>

unsigned me, user;
struct shared *shared;
int memory = -1;
char prefix[PREFIX + 1];
const char GO_ON[] = "--go-on";

static char folder[PATH_MAX];
static int home = -1, is_child;
static volatile sig_atomic_t stopped;
static sigset_t before;

void fail(const char *what) {
    perror(what);
    exit(2);
}

void give_up(const char *what) {
    fprintf(stderr, "linux_replay: %s\n", what);
    if (is_child) _exit(2);
    exit(stopped ? 128 + stopped : 2);
}

/* A child has nothing to tidy up: its parent does. */
void end_child_mode(void) { is_child = 1; }

void set_prefix(void) {
    for (int i = 0; i < PREFIX; i++) prefix[i] = (char)('A' + shared->key[i] % 26);
}

void make_shared(void) {
    memory = make_memory(sizeof *shared);
    if (memory < 0) fail("the shared memory");
    shared = mmap(NULL, sizeof *shared, PROT_READ | PROT_WRITE, MAP_SHARED, memory, 0);
    if (shared == MAP_FAILED) fail("mmap");
    if (fill_at_random(shared->key, sizeof shared->key) < 0) fail("random bytes");
    set_prefix();
}

void empty_folder(void) {
    DIR *entries = opendir(".");
    if (entries == NULL) return;
    for (struct dirent *entry; (entry = readdir(entries));) {
        if (strcmp(entry->d_name, ".") && strcmp(entry->d_name, "..")) unlink(entry->d_name);
    }
    closedir(entries);
}

/* Ends all that a run has begun: its processes and its folder. */
void clean_up(void) {
    if (home < 0 || is_child) return;
    for (unsigned i = 1; i <= shared->process_count; i++) {
        if (shared->pids[i] == 0 || shared->processes[i].has_exited) continue;
        kill(shared->pids[i], SIGKILL);
        waitpid(shared->pids[i], NULL, 0);
    }
    if (stopped || shared->waits) collect_what_is_left();
    end_probes();
    empty_folder();
    unlinkat(home, folder, AT_REMOVEDIR);
}

void enter_folder(void) {
    const char *place = getenv("TMPDIR");
    if (place == NULL || *place == 0) place = "/tmp";
    if (snprintf(folder, sizeof folder, "%s/linux_replay.XXXXXX", place) >= PATH_MAX) give_up("TMPDIR is too long");
    int from = open(".", O_RDONLY | O_DIRECTORY | O_CLOEXEC);
    umask(S_IRWXO);
    if (from < 0 || mkdtemp(folder) == NULL) fail(folder);
    home = from;
    if (chdir(folder) < 0) fail(folder);
}

/* The folder becomes the user's when all is in it that the superuser makes there. What is made in it is of its group. */
void give_folder(void) {
    int number = open(".", O_RDONLY | O_DIRECTORY | O_CLOEXEC);
    if (number < 0 || (geteuid() == 0 && fchown(number, user, user) < 0) || fchmod(number, S_IRWXU | S_IRWXG | S_ISGID) < 0) fail(folder);
    close(number);
}

static void stop(int number) { stopped = number; }

void catch_signals(void) {
    static const int caught[] = {SIGINT, SIGTERM, SIGHUP};
    sigset_t blocked;
    sigemptyset(&blocked);
    for (size_t i = 0; i < sizeof caught / sizeof *caught; i++) {
        struct sigaction action = {.sa_handler = stop};
        sigaddset(&blocked, caught[i]);
        sigaction(caught[i], &action, NULL);
    }
    signal(SIGPIPE, SIG_IGN);
    sigprocmask(SIG_BLOCK, &blocked, &before);
}

/* Waits until one of some descriptors is ready, so long at most; a signal ends the run. It answers what poll does. */
int wait_on_any(struct pollfd *asked, unsigned count, long milliseconds) {
    struct timespec patience = {milliseconds / 1000, milliseconds % 1000 * 1000000};
    int ready = ppoll(asked, count, &patience, &before);
    if (stopped) give_up("interrupted");
    return ready;
}

int wait_on(int number, short events, long milliseconds) {
    struct pollfd asked = {.fd = number, .events = events};
    return wait_on_any(&asked, 1, milliseconds);
}
