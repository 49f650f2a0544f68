/* What the files of the replay share. A child is one process of the script, its parent hands it the script's lines. A LINE
 * is the longest that a script may have, behind the line `serial`. */
#ifndef REPLAY_H
#define REPLAY_H
#define _GNU_SOURCE
#include <limits.h>
#include <signal.h>
#include <stddef.h>
#include <stdint.h>
#include <sys/socket.h>
#include <sys/types.h>
#include <sys/un.h>

enum {
    MOST_PROCESSES = 1024, USUAL_OBJECTS = 64, MOST_OBJECTS = 4096, MOST_DESCRIPTORS = 4096, CHANNEL = MOST_DESCRIPTORS, MEMORY,
    HANDED, MOST_USERS = 64, MOST_WORDS = 8, LINE = 200000, MOST_BYTES = 1 << 20, CHUNK = 1 << 16, MOST_CONTROL = 1 << 21, MOST_ALIASES = 8192,
    PREFIX = 9, KEPT_LENGTH = 90, SECONDS = 10, NO_DESCRIPTOR = INT_MAX, NO_PROCESS = 0x7ffffff0, MOST_TOLD_APART = 100, MOST_MADE = 2
};

/* No user and no group. */
#define NO_ID 4294967295u

struct process {
    unsigned uid, gid, limit, calls, user, group;
    int privileged, channel, has_exited;
};

/* A name that the kernel gave by autobind, and the number by which the script knows it. */
struct alias {
    char real[6];
    unsigned number;
    int is_used;
};

/* An object that fails at one of the calls that reach it: what tells it on this machine, and how many calls have. */
struct failing {
    unsigned long long device, file;
    unsigned fails_at, reached;
};

/* What the children and their parent share: the processes with their real numbers, the script's users and groups by the
 * machine's from 0, the names that autobind gave, and objects that fail. */
struct shared {
    unsigned process_count, user_count, group_count, alias_count, failing_count, first_user;
    unsigned users[MOST_USERS], groups[MOST_USERS];
    struct process processes[MOST_PROCESSES + 1];
    pid_t pids[MOST_PROCESSES + 1];
    struct alias aliases[MOST_ALIASES];
    struct failing failing[MOST_OBJECTS];
    int has_bound_digits, has_passed_socket, has_own_users, waits;
    unsigned char key[16];
};

struct object {
    char *name;
    char kind;
    unsigned char *bytes;
    size_t length;
    unsigned fails_at;
    int counter, watch, is_held, has_path, is_gone;
};

/* What a child has made, beside its reply, and what its parent was handed. */
extern int made[MOST_MADE];
extern unsigned made_count;

/* A flag, and its name in a trace. */
struct named {
    int flag;
    const char *name;
};

struct address {
    union {
        struct sockaddr head;
        struct sockaddr_un un;
        char bytes[2 * LINE];
    };
    socklen_t length;
};

extern struct object objects[MOST_OBJECTS];
extern unsigned object_count, object_limit, me, user;
extern struct shared *shared;
extern int memory, passed;
extern char prefix[PREFIX + 1];
extern const char GO_ON[];
extern unsigned char data[MOST_BYTES + CHUNK];

/* ends.c: how a run begins and ends */
void fail(const char *what);
void give_up(const char *what) __attribute__((noreturn));
void make_shared(void);
void set_prefix(void);
void enter_folder(void);
void give_folder(void);
void empty_folder(void);
void catch_signals(void);
void clean_up(void);
void end_child_mode(void);
struct pollfd;
int wait_on(int number, short events, long milliseconds);
int wait_on_any(struct pollfd *asked, unsigned count, long milliseconds);

/* reply.c: the reply, as it is written */
extern char reply[3 * MOST_BYTES];
extern size_t reply_length;
void say(const char *format, ...) __attribute__((format(printf, 1, 2)));
void say_bytes(const unsigned char *bytes, size_t length);
void say_error(void);
void say_done(int answer);
void say_count(const char *word, long answer);
int not_tried(const char *why);

/* words.c: the words of a script */
unsigned number_in(const char *word);
int descriptor_in(const char *word);
size_t bytes_in(const char *hex, unsigned char *bytes);
size_t name_in(const char *word, char *name);
int open_flags_in(const char *word);
int socket_flags_in(const char *word);
int message_flags_in(const char *word);
int mode_in(const char *word);
int type_in(const char *word);
size_t words_in(char *line, char **words);
int is_number(const char *word);
int is_hex(const char *word);

/* waiting.c: calls that don't wait */
int type_of(int number);
void say_what_is_no_socket(int number);
int flag_of_a_receive(int number);
int flag_of_a_send(void);
int make_nonblocking(int number);
int make_read_nonblocking(int number);
void restore_flags(int number, int flags);

/* text.c: lines with text */
char *plain_line(char *line);

/* names.c: names and addresses */
int file_in(const char *word, char *file);
int address_in(const char *word, struct address *address);
void say_address(const struct address *address);
void learn_name(int number);
int has_named_itself(int number, unsigned known, long answer);
void note_bound_name(const char *word);
void forget_names(void);
void check_no_name_is_left(void);

/* failing.c: file objects that fail */
void add_failing(const struct object *object);
void mark_failing(int number, int has_reached);

/* control.c: control buffers */
void learn_credentials(const char *word);
unsigned char *control_bytes(void);
size_t control_in(char *word);
void say_credentials(const struct ucred *real);
void say_items(struct msghdr *message);

/* The calls, each with its word: a line of a process makes the one whose word it has. CALL gives a function its word, in the linker's
   section "calls", so that no list names them all. */
struct call {
    const char *word;
    void (*make)(char **word);
};
extern const struct call __start_calls[], __stop_calls[];

#define CALL(name)                                                                              \
    static void do_##name(char **word);                                                         \
    static const struct call call_##name __attribute__((section("calls"), used)) = {#name, do_##name}; \
    static void do_##name(char **word)

/* child.c: one process of the script */
void set_limit(unsigned long limit);
void live(int channel, pid_t parent) __attribute__((noreturn));
void go_on(unsigned number) __attribute__((noreturn));

/* users.c: who the processes are */
void begin_ids(void);
void learn_ids(const char *text);
unsigned user_of(unsigned uid);
unsigned group_of(unsigned gid);
unsigned real_user(unsigned uid);
unsigned real_group(unsigned gid);
unsigned script_user(const struct process *process, unsigned number);
unsigned script_group(const struct process *process, unsigned number);
void become_ordinary(unsigned number, unsigned group, int is_privileged);

/* parent.c: the processes, and who makes which call */
void begin(void);
pid_t fork_told_apart(pid_t (*make)(void), unsigned before);
void check_call(char **word, size_t count);
void make_call(struct process *process, const char *line);
void begin_line(const struct process *process, const char *line);
void hear_reply(const struct process *process);

/* threads.c: a run in which calls wait */
void keep_line(const char *text, unsigned row);
void run_threads(void);

/* objects.c: file objects, and which are gone */
void add_object(char **word, size_t count);
void make_objects(void);
void add_made(char **word);
struct object *object_at(const char *file);
void path_is_gone(const char *file);
void all_paths_are_gone(void);
unsigned see_what_goes(int *gone);

/* collecting.c: what the kernel collects of sockets in one another's queues */
void await_collection(void);
void start_probes(void);
void end_probes(void);
void collect_what_is_left(void);
void check_nothing_in_flight(void);
int has_rights_in_flight(void);

/* linux.c: what is Linux's own */
int make_memory(size_t size);
int fill_at_random(void *bytes, size_t size);
pid_t fork_beside(void);
int end_with_parent(pid_t parent);
void execute_again(const char *option, const char *word);
int close_from_to(unsigned first, unsigned last);
const char *name_of_error(int error);
int start_watching(void);
int watch_file(const char *name);
int watch_file_in_memory(int number);
void see_watched_go(void (*see)(int watch, int *gone), int *gone);
int make_file_in_memory(const char *flags);
int make_counter(unsigned value, int is_semaphore, int flags);
int make_pipe(int *ends, int flags);
int watch_references(int number, unsigned object);
int is_referred_to(unsigned object);
unsigned long long id_of_counter(int number);
int is_name_bound(const char *beginning);
int charged_to(int number);
long bytes_of_pipe(int number);
long most_backlog(void);

/* linux_spaces.c: name spaces of users and processes */
int go_on_in_spaces(unsigned first, unsigned count);
int enter_user_space(void);

/* linux_users.c: what is Linux's own of privileges */
int set_privileges(int has_some);
int has_privileges(void);

/* machine.c: what answers depend on */
void tell_machine(void);
#endif
