// Births, execs, ends and signals of the program's tasks, which ptrace tells.
#pragma once
#include <signal.h>
#include "world.h"

class Tracer {
    struct Copy {                              // an F_DUPFD that the kernel makes
        Ref file;
        int layer;
    };
    World &world;
    std::set<int> early;                       // children that stopped before their parent's event
    std::map<int, Copy> copies;                // by task
    std::map<int, std::vector<siginfo_t>> put_off, sent_again;
    int root_status = -1;

    void handle_status(int task, int status);
    void handle_stop(int task, int status);
    bool handle_event(int task, int event);
    void born(int parent, int task);
    Process &copy_process(Process &parent, int task);
    void executed(int task, int before);
    void close_on_exec(Process &process, int task);
    void note_inherited(Process &process);
    void ended(int task);
    void traced(int task, unsigned why);
    bool begins_something(const Process &process, int task);
    void watch(Process &process, int task);
    void begin_copy(int task);
    void end_copy(int task);
    void interrupt(int task, int signal);
    bool answer_at_signal(int task);
    void deliver_signal(int task, int signal);

public:
    int root = 0;
    explicit Tracer(World &world) : world(world) {}
    void start(int pid, bool is_watched);
    void reap();
    void split(int task);                      // the task has a table of its own from now on
    void send_put_off(int task);               // signals that waited for a call's answer
    int wait_for_root();                       // its status, as of waitpid
    unsigned long calls_at_end = 0;            // lines of the script before the command's own end
};
