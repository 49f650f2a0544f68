/* A run in which the script's processes go on by themselves, each by calls that wait, as with uxrun --threads. A line of
 * its output has the moments at which a call was begun and answered, its process, the script's line, and the reply. */
#include "replay.h"
#include <errno.h>
#include <poll.h>
#include <stdio.h>
#include <stdlib.h>
#include <string.h>

enum { MOST_LINES = 1 << 16, PATIENCE = 500 };

enum phase { READY, CALLING, WAITING, DONE };

struct line {
    unsigned pid, row;
    const char *text;
};

/* A process, the line that it is at, and when that call was begun. */
struct thread {
    enum phase phase;
    unsigned at, made, row, begun;
    int is_born;
};

static struct line lines[MOST_LINES];
static unsigned line_count, moment;
static struct thread threads[MOST_PROCESSES + 1];

void keep_line(const char *text, unsigned row) {
    if (line_count == MOST_LINES) give_up("too many lines");
    lines[line_count++] = (struct line){number_in(text), row, text};
}

/* The process's next line, from the one that it is at. */
static const struct line *next_line(unsigned pid) {
    struct thread *thread = &threads[pid];
    while (thread->at < line_count && lines[thread->at].pid != pid) thread->at++;
    return thread->at < line_count ? &lines[thread->at] : NULL;
}

/* Whether a line `P wait Q N` lets its process go on. */
static int is_over(const char *text) {
    unsigned other = 0, count = 0;
    if (sscanf(text, "%*u wait %u %u", &other, &count) != 2) give_up("a bad line");
    if (other >= 1 && other <= shared->process_count) return threads[other].phase == DONE || threads[other].made >= count;
    return threads[1].phase == DONE;
}

static void print_reply(unsigned pid, const char *word) {
    struct thread *thread = &threads[pid];
    printf("%u %u %u %u %s = %s\n", thread->begun, moment++, pid, thread->row, word, reply);
    thread->made++;
    thread->phase = strcmp(word, "exit") == 0 ? DONE : READY;
}

static const char *word_of(const char *text) {
    static char word[LINE + 1];
    if (sscanf(text, "%*u %4095s", word) != 1) give_up("a bad line");
    return word;
}

/* Whether the parent has a part in the call, which so is made at once; none of these wait. */
static int is_made_at_once(const char *word) {
    return strcmp(word, "open") == 0 || strcmp(word, "unlink") == 0 || strcmp(word, "fork") == 0 || strcmp(word, "exit") == 0;
}

/* Begins a call, and where it doesn't wait ends it too. */
static void begin_call(unsigned pid, const char *text, unsigned row) {
    const char *word = word_of(text);
    struct thread *thread = &threads[pid];
    thread->begun = moment++;
    thread->row = row;
    thread->phase = CALLING;
    if (is_made_at_once(word)) {
        make_call(&shared->processes[pid], text);
        print_reply(pid, word);
    } else {
        begin_line(&shared->processes[pid], text);
    }
}

/* Lets a process go on as far as it can without an answer. It answers whether it did anything. */
static int go_on_with(unsigned pid) {
    struct thread *thread = &threads[pid];
    char end[32];
    const struct line *line = next_line(pid);
    if (thread->phase == DONE || thread->phase == CALLING) return 0;
    if (line == NULL) {
        snprintf(end, sizeof end, "%u exit", pid);
        begin_call(pid, end, 0);
        return 1;
    }
    if (strcmp(word_of(line->text), "wait") == 0) {
        thread->phase = is_over(line->text) ? READY : WAITING;
        thread->row = line->row;
        thread->at += thread->phase == READY;
        return thread->phase == READY;
    }
    thread->at++;
    begin_call(pid, line->text, line->row);
    return 1;
}

/* Waits for an answer of any process. It answers 0 where none comes. */
static int hear_any(void) {
    struct pollfd asked[MOST_PROCESSES];
    unsigned pids[MOST_PROCESSES], count = 0;
    for (unsigned pid = 1; pid <= shared->process_count; pid++) {
        if (threads[pid].phase != CALLING) continue;
        asked[count] = (struct pollfd){.fd = shared->processes[pid].channel, .events = POLLIN};
        pids[count++] = pid;
    }
    if (count == 0 || wait_on_any(asked, count, PATIENCE) <= 0) return 0;
    for (unsigned i = 0; i < count; i++) {
        if (asked[i].revents == 0) continue;
        hear_reply(&shared->processes[pids[i]]);
        print_reply(pids[i], word_of(lines[threads[pids[i]].at - 1].text));
    }
    return 1;
}

static void tell_deadlock(void) {
    const char *joint = "deadlock:";
    for (unsigned pid = 1; pid <= shared->process_count; pid++) {
        if (threads[pid].phase == DONE) continue;
        printf("%s process %u waits in line %u", joint, pid, threads[pid].row);
        joint = ",";
    }
    printf("\n");
}

/* Lets all processes go on until they have exited, or until each of them waits. */
void run_threads(void) {
    for (;;) {
        int has_gone_on = 0, are_done = 1;
        for (unsigned pid = 1; pid <= shared->process_count; pid++) has_gone_on |= go_on_with(pid);
        for (unsigned pid = 1; pid <= shared->process_count; pid++) are_done &= threads[pid].phase == DONE;
        if (are_done) return;
        if (has_gone_on) continue;
        if (!hear_any()) break;
    }
    tell_deadlock();
}
