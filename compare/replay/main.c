/* Makes the calls of a script of uxrun on the machine's own kernel, and prints their trace in uxrun's words. Each
 * process of the script is a child that is handed its lines one at a time, in the script's order, and answers each. No
 * call waits: every description is non-blocking behind the script's view. Descriptors have the script's numbers, under
 * its limits, so which number is free, and that none is, are the kernel's own answers. What can't be tried is answered
 * `not tried: WHY`. */
#include "replay.h"
#include <stdio.h>
#include <stdlib.h>
#include <string.h>
#include <sys/resource.h>
#include <unistd.h>

static unsigned call_count;

static void print_what_goes(const int *gone) {
    const char *joint = " closed";
    for (unsigned i = 0; i < object_count; i++) {
        if (!gone[i] || objects[i].is_gone) continue;
        printf("%s %u", joint, i);
        joint = "";
        objects[i].is_gone = 1;
    }
    printf("\n");
}

/* Whether a call may leave sockets behind that only one another's queues refer to. */
static int may_leave_rubbish(const char *word) {
    static const char *words[] = {"close", "dup2", "exit", "exec", "recv", "read", "connect", "send", "write", "accept"};
    for (size_t i = 0; i < sizeof words / sizeof *words; i++) {
        if (strcmp(word, words[i]) == 0) return 1;
    }
    return 0;
}

/* Prints a call's line of the trace. */
static void print_call(unsigned pid, const char *word, const char *told) {
    int gone[MOST_OBJECTS] = {0};
    if (may_leave_rubbish(word)) await_collection();
    see_what_goes(gone);
    printf("%u %u %u %s = %s", call_count++, pid, shared->processes[pid].calls++, word, told);
    print_what_goes(gone);
    forget_names();
}

static void run_line(const char *line) {
    char copy[LINE + 1], *words[MOST_WORDS];
    if (strlen(line) > LINE) give_up("a line is too long");
    strcpy(copy, line);
    size_t count = words_in(copy, words);
    if (count < 2 || !is_number(words[0])) give_up("a bad line");
    if (strcmp(words[1], "wait") == 0) return;
    unsigned pid = number_in(words[0]);
    if (pid < 1 || pid > shared->process_count || shared->processes[pid].has_exited) give_up("a bad line");
    make_call(&shared->processes[pid], line);
    print_call(pid, words[1], reply);
}

static void exit_all(void) {
    char line[32];
    for (unsigned i = 1; i <= shared->process_count; i++) {
        snprintf(line, sizeof line, "%u exit", i);
        if (!shared->processes[i].has_exited) run_line(line);
    }
}

/* The end of the layer: no path is left. */
static void end_layer(void) {
    int gone[MOST_OBJECTS] = {0};
    empty_folder();
    all_paths_are_gone();
    see_what_goes(gone);
    printf("%u 0 0 off = ok", call_count);
    print_what_goes(gone);
}

static char *read_whole(const char *path) {
    size_t length = 0, room = 1 << 16;
    char *text = malloc(room);
    FILE *file = strcmp(path, "-") ? fopen(path, "re") : stdin;
    if (file == NULL || text == NULL) fail(path);
    for (size_t count; (count = fread(text + length, 1, room - length - 1, file)) > 0;) {
        length += count;
        if (room - length > 1) continue;
        char *longer = realloc(text, room *= 2);
        if (longer == NULL) fail(path);
        text = longer;
    }
    if (ferror(file)) fail(path);
    fclose(file);
    text[length] = 0;
    return text;
}

static void add_process(char **word) {
    if (shared->process_count == MOST_PROCESSES) give_up("too many processes");
    struct process *made = &shared->processes[++shared->process_count];
    unsigned limit = number_in(word[4]);
    *made = (struct process){.uid = number_in(word[1]), .gid = number_in(word[2]), .privileged = word[3][0] == '1'};
    made->limit = limit < 1 ? 1 : limit > MOST_DESCRIPTORS ? MOST_DESCRIPTORS : limit;
    made->user = user_of(made->uid);
    made->group = group_of(made->gid);
}

static void read_header(const char *line) {
    char copy[LINE + 1], *word[MOST_WORDS] = {0};
    snprintf(copy, sizeof copy, "%s", line);
    size_t count = words_in(copy, word);
    if (count >= 3 && strcmp(word[0], "object") == 0) add_object(word, count);
    else if (count == 5 && strcmp(word[0], "proc") == 0) add_process(word);
    else give_up("a bad line of the header");
}

/* A call of a script: made now, or kept for the process that makes it by itself. */
static void take_line(const char *line, unsigned row) {
    if (shared->waits) keep_line(line, row);
    else run_line(line);
}

/* A line `serial` is the first that says anything, and of a run in which the processes don't go on by themselves. Behind
 * it there may be more file objects. */
static void check_serial(int has_said) {
    if (has_said) give_up("a bad line");
    if (shared->waits) give_up("a serial script has one order");
    object_limit = MOST_OBJECTS;
}

static void run_script(char *text) {
    int has_begun = 0, has_end = 0, has_said = 0;
    unsigned row = 0;
    begin_ids();
    learn_ids(text);
    for (char *line; (line = strsep(&text, "\n"));) {
        row++;
        if (line[0] == 0 || line[0] == '#') continue;
        line = plain_line(line);
        if (strcmp(line, "serial") == 0) {
            check_serial(has_said++);
            continue;
        }
        has_said = 1;
        int is_header = strncmp(line, "object ", 7) == 0 || strncmp(line, "proc ", 5) == 0;
        if (is_header && has_begun) give_up("a bad line");
        if (is_header) {
            read_header(line);
            continue;
        }
        if (!has_begun++) begin();
        if (strcmp(line, "off") == 0) has_end = 1;
        else take_line(line, row);
    }
    if (!has_begun) begin();
    if (shared->waits) {
        run_threads();
        return;
    }
    exit_all();
    check_nothing_in_flight();
    check_no_name_is_left();
    if (has_end) end_layer();
}

static int usage(void) {
    fprintf(stderr, "usage: linux_replay [--user N] [--threads] SCRIPT | --machine | --in-flight\n"
                    "N is the first of 64 users as whom the superuser's processes act: numbers that nobody uses\n");
    return 2;
}

static void raise_limits(void) {
    struct rlimit most;
    if (getrlimit(RLIMIT_NOFILE, &most) < 0) fail("linux_replay");
    most.rlim_cur = most.rlim_max;
    if (most.rlim_max <= HANDED + 2) give_up("too few descriptors are allowed: raise the hard limit, ulimit -Hn, above 4100");
    if (setrlimit(RLIMIT_NOFILE, &most) < 0) fail("RLIMIT_NOFILE");
}

/* Does what the last word says, a script where it has a text. */
static void run(const char *what, char *text) {
    if (text) run_script(text);
    else if (strcmp(what, "--machine") == 0) tell_machine();
    else {
        shared->user_count = user ? MOST_USERS : 1;
        start_probes();
        printf("%d\n", has_rights_in_flight());
    }
}

int main(int count, char **words) {
    static char *text;
    int at = 1, waits = 0;
    if (count == 3 && strcmp(words[1], GO_ON) == 0) go_on(number_in(words[2]));
    if (at + 1 < count && strcmp(words[at], "--user") == 0) {
        user = number_in(words[at + 1]);
        at += 2;
    }
    if (at < count && strcmp(words[at], "--threads") == 0) {
        waits = 1;
        at++;
    }
    const char *what = at == count - 1 ? words[at] : NULL;
    if (what == NULL || (geteuid() == 0 && user == 0 && strcmp(what, "--machine"))) return usage();
    if (what[0] != '-' || what[1] == 0) text = read_whole(what);
    raise_limits();
    int has_spaces = geteuid() == 0 && strcmp(what, "--in-flight") && go_on_in_spaces(user ? user : 1, MOST_USERS);
    make_shared();
    shared->has_own_users = has_spaces;
    shared->waits = waits;
    shared->first_user = user;
    catch_signals();
    atexit(clean_up);
    enter_folder();
    run(what, text);
    return fflush(stdout) == 0 ? 0 : 2;
}
