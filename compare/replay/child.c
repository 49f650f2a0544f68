/* A child: one process of the script, which answers the lines that its parent hands it. */
#include "replay.h"
#include <fcntl.h>
#include <stdio.h>
#include <string.h>
#include <sys/mman.h>
#include <sys/resource.h>
#include <unistd.h>

/* Sets how many descriptors this process may have. */
void set_limit(unsigned long limit) {
    struct rlimit both;
    if (getrlimit(RLIMIT_NOFILE, &both) < 0) _exit(2);
    both.rlim_cur = limit;
    if (setrlimit(RLIMIT_NOFILE, &both) < 0) _exit(2);
}

/* A piece of a line from the parent, and the descriptor that came with it, at the lowest free number. */
static ssize_t hear_piece(char *piece, size_t room) {
    union {
        char bytes[CMSG_SPACE(sizeof(int))];
        struct cmsghdr aligned;
    } beside;
    struct iovec bytes = {piece, room};
    struct msghdr message = {.msg_iov = &bytes, .msg_iovlen = 1, .msg_control = &beside};
    message.msg_controllen = sizeof beside;
    ssize_t count = recvmsg(CHANNEL, &message, 0);
    struct cmsghdr *item = count > 0 ? CMSG_FIRSTHDR(&message) : NULL;
    if (item) memcpy(&passed, CMSG_DATA(item), sizeof passed);
    return count;
}

/* A line from the parent, up to its line feed. It answers 0 at the end. */
static int hear(char *line) {
    size_t length = 0;
    passed = -1;
    do {
        ssize_t count = hear_piece(line + length, LINE + 128 - length);
        if (count <= 0) return 0;
        length += (size_t)count;
    } while (line[length - 1] != '\n');
    line[length - 1] = 0;
    return 1;
}

/* Hands the parent what was made, and its reply. The limit is higher meanwhile, as it bounds what may be in flight, too. */
static void hand_made(void) {
    union {
        char bytes[CMSG_SPACE(sizeof made)];
        struct cmsghdr aligned;
    } item = {.aligned = {.cmsg_len = CMSG_LEN(made_count * sizeof *made), .cmsg_level = SOL_SOCKET, .cmsg_type = SCM_RIGHTS}};
    struct iovec bytes = {reply, reply_length};
    struct msghdr message = {.msg_iov = &bytes, .msg_iovlen = 1, .msg_control = &item};
    message.msg_controllen = CMSG_SPACE(made_count * sizeof *made);
    memcpy(CMSG_DATA(&item.aligned), made, made_count * sizeof *made);
    set_limit(HANDED + 1);
    if (sendmsg(CHANNEL, &message, MSG_NOSIGNAL) < 0) _exit(2);
    set_limit(shared->processes[me].limit);
}

static void say_to_parent(void) {
    if (made_count > 0) {
        hand_made();
        return;
    }
    for (size_t from = 0; from < reply_length; from += CHUNK) {
        size_t rest = reply_length - from;
        if (send(CHANNEL, reply + from, rest < CHUNK ? rest : CHUNK, MSG_NOSIGNAL) < 0) _exit(2);
    }
}

/* The child is one of this process's parent, which so hears of its end, and answers by the channel that comes now, under
 * a higher limit, so that a full table takes it too. */
CALL(fork) {
    static char line[LINE + 128];
    unsigned number = shared->process_count + 1;
    (void)word;
    set_limit(HANDED + 1);
    reply_length = 0;
    say("ready\n");
    say_to_parent();
    reply_length = 0;
    if (!hear(line) || passed < 0) _exit(2);
    pid_t child = fork_told_apart(fork_beside, number - 1);
    if (child == 0) {
        me = number;
        if (dup2(passed, CHANNEL) < 0 || end_with_parent(0) < 0) _exit(2);
        reply_length = 0;
    } else if (child > 0) {
        shared->pids[number] = child;
        say("child %u", number);
    } else {
        say_error();
    }
    close(passed);
    set_limit(shared->processes[me].limit);
}

/* This program once more, which finds in the memory who it is. It needs descriptors of its own to begin. */
CALL(exec) {
    char number[16];
    (void)word;
    snprintf(number, sizeof number, "%u", me);
    set_limit(HANDED + 1);
    execute_again(GO_ON, number);
    perror("linux_replay: this program can't be executed again");
    _exit(2);
}

CALL(exit) {
    (void)word;
    _exit(0);
}

static void answer(char *line) {
    char *words[MOST_WORDS];
    size_t count = words_in(line, words);
    reply_length = made_count = 0;
    for (const struct call *call = __start_calls; call < __stop_calls; call++) {
        if (count >= 2 && strcmp(call->word, words[1]) == 0) call->make(words);
    }
    say("\n");
}

static void __attribute__((noreturn)) answer_all(void) {
    static char line[LINE + 128];
    while (hear(line)) {
        answer(line);
        say_to_parent();
    }
    _exit(0);
}

/* A process behind its exec: its limit is its own again, and it knows the run's users. */
void go_on(unsigned number) {
    shared = mmap(NULL, sizeof *shared, PROT_READ | PROT_WRITE, MAP_SHARED, MEMORY, 0);
    if (shared == MAP_FAILED) _exit(2);
    me = number;
    user = shared->first_user;
    end_child_mode();
    set_prefix();
    set_limit(shared->processes[me].limit);
    reply_length = 0;
    say("ok\n");
    say_to_parent();
    answer_all();
}

void live(int channel, pid_t parent) {
    struct rlimit longest = {MOST_BYTES, MOST_BYTES};
    const struct process *own = &shared->processes[me];
    become_ordinary(own->user, own->group, own->privileged);
    if (end_with_parent(parent) < 0) _exit(2);
    if (dup2(channel, CHANNEL) < 0 || dup2(memory, MEMORY) < 0) _exit(2);
    if (close_from_to(0, CHANNEL - 1) < 0 || close_from_to(MEMORY + 1, INT_MAX) < 0) _exit(2);
    signal(SIGPIPE, SIG_IGN);
    signal(SIGXFSZ, SIG_IGN);
    if (setrlimit(RLIMIT_FSIZE, &longest) < 0) _exit(2);
    set_limit(shared->processes[me].limit);
    reply_length = 0;
    say("\n");
    say_to_parent();
    answer_all();
}
