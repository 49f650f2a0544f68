/* The parent: it starts the processes of the script, and hands each its lines one at a time. */
#include "replay.h"
#include <errno.h>
#include <fcntl.h>
#include <poll.h>
#include <stdio.h>
#include <stdlib.h>
#include <string.h>
#include <sys/wait.h>
#include <unistd.h>

/* Whether the first byte of a process's number tells it from no process and from the first ones of the script, as a
 * receive does that cuts credentials. Of a script with more processes than a byte tells, any number will do. */
static int is_told_apart(pid_t number, unsigned before) {
    if (before >= MOST_TOLD_APART) return 1;
    if ((number & 0xff) == 0) return 0;
    for (unsigned i = 1; i <= before; i++) {
        if (((number ^ shared->pids[i]) & 0xff) == 0) return 0;
    }
    return 1;
}

pid_t fork_told_apart(pid_t (*make)(void), unsigned before) {
    for (;;) {
        pid_t child = make();
        if (child < 0) return child;
        if (is_told_apart(child ? child : getpid(), before)) return child;
        if (child == 0) _exit(0);
        waitpid(child, NULL, 0);
    }
}

static void make_processes(void) {
    pid_t parent = getpid();
    for (unsigned i = 1; i <= shared->process_count; i++) {
        int ends[2];
        if (socketpair(AF_UNIX, SOCK_SEQPACKET | SOCK_CLOEXEC, 0, ends) < 0) fail("socketpair");
        pid_t child = fork_told_apart(fork, i - 1);
        if (child < 0) fail("fork");
        if (child == 0) {
            end_child_mode();
            me = i;
            live(ends[1], parent);
        }
        close(ends[1]);
        shared->pids[i] = child;
        shared->processes[i].channel = ends[0];
    }
}

/* Hands a process a line in pieces, the last of which ends at a line feed, and beside the first a descriptor where there is
 * one. */
static void tell(const struct process *process, const char *line, int beside) {
    union {
        char bytes[CMSG_SPACE(sizeof(int))];
        struct cmsghdr aligned;
    } item = {.aligned = {.cmsg_len = CMSG_LEN(sizeof(int)), .cmsg_level = SOL_SOCKET, .cmsg_type = SCM_RIGHTS}};
    size_t rest = strlen(line);
    memcpy(CMSG_DATA(&item.aligned), &beside, sizeof beside);
    do {
        size_t piece = rest < CHUNK ? rest : CHUNK;
        struct iovec bytes[] = {{(char *)line, piece}, {(char *)"\n", rest == piece}};
        struct msghdr message = {.msg_iov = bytes, .msg_iovlen = 2};
        if (beside >= 0) message.msg_control = &item;
        if (beside >= 0) message.msg_controllen = sizeof item;
        if (sendmsg(process->channel, &message, 0) < 0) give_up("a process is gone");
        beside = -1;
        line += piece;
        rest -= piece;
    } while (rest > 0);
}

/* Waits until a process says something, or ends. */
static void wait_for(const struct process *process) {
    if (wait_on(process->channel, POLLIN, 1000L * SECONDS) <= 0) give_up("a call doesn't return");
}

/* A piece of a reply, and the descriptors of what the call has made. */
static ssize_t hear_piece(const struct process *process) {
    union {
        char bytes[CMSG_SPACE(sizeof made)];
        struct cmsghdr aligned;
    } beside;
    struct iovec bytes = {reply + reply_length, CHUNK};
    struct msghdr message = {.msg_iov = &bytes, .msg_iovlen = 1, .msg_control = &beside};
    message.msg_controllen = sizeof beside;
    ssize_t count = recvmsg(process->channel, &message, MSG_CMSG_CLOEXEC);
    struct cmsghdr *item = count > 0 ? CMSG_FIRSTHDR(&message) : NULL;
    if (item == NULL) return count;
    made_count = (unsigned)((item->cmsg_len - CMSG_LEN(0)) / sizeof *made);
    memcpy(made, CMSG_DATA(item), made_count * sizeof *made);
    return count;
}

/* Reads the reply to its line feed. */
void hear_reply(const struct process *process) {
    reply_length = made_count = 0;
    do {
        if (sizeof reply - reply_length <= CHUNK) give_up("a reply is too long");
        wait_for(process);
        ssize_t count = hear_piece(process);
        if (count < 0) give_up("a process can't be heard");
        if (count == 0) give_up("a process is gone");
        reply_length += (size_t)count;
    } while (reply[reply_length - 1] != '\n');
    reply[--reply_length] = 0;
}

/* Each process says a line when it has only its own descriptors. */
void begin(void) {
    start_probes();
    make_objects();
    give_folder();
    make_processes();
    for (unsigned i = 1; i <= shared->process_count; i++) hear_reply(&shared->processes[i]);
}

/* An open of a pipe finds a reader, so that it needn't wait for one. An open of a counter is handed its descriptor. */
static void make_open(const struct process *process, const char *line, char **word) {
    char file[LINE + 1], other[LINE + 64];
    reply_length = 0;
    struct object *object = file_in(word[2], file) ? object_at(file) : NULL;
    int reader = object && object->kind == 'p' ? open(file, O_RDONLY | O_NONBLOCK | O_CLOEXEC | O_NOFOLLOW) : -1;
    if (object && object->kind == 'c') {
        snprintf(other, sizeof other, "%s counter %s %s %s", word[0], word[2], word[3], word[4]);
        tell(process, other, object->counter);
    } else {
        tell(process, line, -1);
    }
    hear_reply(process);
    if (reader >= 0) close(reader);
}

/* What was made is told by a number of a descriptor. */
static void make_making(const struct process *process, const char *line, char **word) {
    tell(process, line, -1);
    hear_reply(process);
    if (strncmp(reply, "fd", 2) == 0) add_made(word);
}

static void make_unlink(const struct process *process, const char *line, char **word) {
    char file[LINE + 1];
    tell(process, line, -1);
    hear_reply(process);
    size_t length = reply_length;
    if (strcmp(reply, "ok") == 0 && file_in(word[2], file)) path_is_gone(file);
    reply_length = length;
}

/* The reply to an exit is the end of the process. */
static void hear_end(struct process *process) {
    wait_for(process);
    if (recv(process->channel, reply, 1, 0) != 0) give_up("a process goes on");
    waitpid(shared->pids[process - shared->processes], NULL, 0);
    close(process->channel);
    process->has_exited = 1;
    strcpy(reply, "ok");
}

/* The process that forks says that it is ready, and is handed the channel of its child, which says a line when it has it. */
static void make_fork(struct process *process, const char *line) {
    struct process *child = &shared->processes[shared->process_count + 1];
    int ends[2];
    if (shared->process_count == MOST_PROCESSES) give_up("too many processes");
    if (socketpair(AF_UNIX, SOCK_SEQPACKET | SOCK_CLOEXEC, 0, ends) < 0) fail("socketpair");
    *child = *process;
    child->calls = 0;
    child->channel = ends[0];
    tell(process, line, -1);
    hear_reply(process);
    tell(process, "the channel of the child", ends[1]);
    close(ends[1]);
    hear_reply(process);
    if (strncmp(reply, "child ", 6)) {
        close(ends[0]);
        return;
    }
    unsigned number = number_in(reply + 6);
    hear_reply(child);
    shared->process_count++;
    reply_length = 0;
    say("child %u", number);
}

/* How many words a call has behind its process, and which of them are bytes: rows that comparing/programs.py makes of
 * extras/calls.json. */
static const struct {
    const char *word;
    size_t count, bytes;
} shapes[] = {CALL_SHAPES};

/* Ends the run where a line isn't one of a script. */
void check_call(char **word, size_t count) {
    for (size_t i = 0; count >= 2 && i < sizeof shapes / sizeof *shapes; i++) {
        if (strcmp(shapes[i].word, word[1])) continue;
        if (count != shapes[i].count + 1 || (shapes[i].bytes && !is_hex(word[shapes[i].bytes]))) break;
        if (strcmp(word[1], "send") == 0 && word[5][0] == 'x' && (strlen(word[5]) < 4 || !is_hex(word[5] + 2))) break;
        return;
    }
    give_up("a bad line");
}

/* Whether a call makes a file object. */
static int is_making(const char *word) {
    static const char *words[] = {"create", "memfd", "eventfd", "pipe"};
    for (size_t i = 0; i < sizeof words / sizeof *words; i++) {
        if (strcmp(word, words[i]) == 0) return 1;
    }
    return 0;
}

/* Looks whether the process may make a line's call. The users that it gives are known before. */
static void check_line(const struct process *process, char *copy, char **word, const char *line) {
    snprintf(copy, LINE + 1, "%s", line);
    check_call(word, words_in(copy, word));
    if (process->privileged && strcmp(word[1], "send") == 0) learn_credentials(word[5]);
}

/* Hands a process a line, and doesn't wait for its reply. */
void begin_line(const struct process *process, const char *line) {
    char copy[LINE + 1], *word[MOST_WORDS];
    check_line(process, copy, word, line);
    tell(process, line, -1);
}

void make_call(struct process *process, const char *line) {
    char copy[LINE + 1], *word[MOST_WORDS];
    check_line(process, copy, word, line);
    if (strcmp(word[1], "open") == 0) {
        make_open(process, line, word);
    } else if (is_making(word[1])) {
        make_making(process, line, word);
    } else if (strcmp(word[1], "unlink") == 0) {
        make_unlink(process, line, word);
    } else if (strcmp(word[1], "fork") == 0) {
        make_fork(process, line);
    } else {
        tell(process, line, -1);
        if (strcmp(word[1], "exit") == 0) hear_end(process);
        else hear_reply(process);
    }
}
