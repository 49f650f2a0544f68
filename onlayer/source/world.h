// What the supervisor knows: processes, their numbers, the placeholders behind them, names, and who waits.
#pragma once
#include "call.h"
#include "names.h"
#include "options.h"
#include "placeholder.h"
#include "tell.h"
#include "text.h"

struct Counts {
    unsigned long answered = 0, passed = 0, refused = 0, outside = 0, guests = 0, failed = 0, put_off = 0, out_of_step = 0;
    unsigned long rights_sent = 0, rights_received = 0;
};

// A listening socket that a program found open at its exec.
struct Inherited {
    std::string program, name;
    int pid = 0, number = 0;
    bool used = false;
};

class Outside;
class World;

// A call stops here, until it is resumed: `state` says by what.
struct Stop {
    Call &call;
    Call::State state;

    bool await_ready() const { return false; }
    void await_suspend(std::coroutine_handle<> at) { call.at = at, call.state = state; }
    void await_resume() const {}
};

class World {
    std::map<int, Told> newcomers;             // what was told of descriptions that have no file here yet
    std::set<Ref> changed;                     // files whose placeholders don't show yet what was told
    std::map<unsigned, std::function<void(Reply)>> pending;    // calls of the layer, by their number
    std::set<std::string> complaints;
    unsigned last_pending = 0;
    int next_object = 0;
    bool is_settling = false;

    void take_told(int description, const Told &told);
    void forget(Ref file);
    int make_process(int parent);
    bool enlist(Process &process);
    bool sync_ids(Process &process);
    int give(Call &call, const Gift &gift);
    NumberRef find_held(Call &call, int number);
    void raise_sigpipe(Call &call);
    void limit_queue(Process &process, Description &file, int number);
    void set_deadline(Call &call, int limit_option) const;
    bool go_on(Call &call);
    void resume(Call &call, Reply reply);
    void answer(Call &call);
    void show_changed();
    bool answer_next();

public:
    std::unique_ptr<Layer> layer;
    std::unique_ptr<Outside> outside;
    Options options;
    Placeholders placeholders;
    Names names;
    Counts counts;
    File events;                               // epoll of all that the supervisor waits for
    std::map<int, File> listeners;             // of the filters' notifications
    std::map<int, Ref> files;                  // by the layer's number
    std::map<int, Process *> by_task;
    std::vector<std::unique_ptr<Process>> processes;
    std::map<int, Process *> by_layer;
    std::map<int, int> guest_pids;             // of programs outside, by the layer's number
    std::map<int, Call> calls;                 // that have begun, by task
    std::vector<std::pair<std::weak_ptr<Number>, Inherited>> inherited;
    uid_t own_user = 0;
    gid_t own_group = 0;
    int send_maximum = 212992, receive_maximum = 212992;

    World(std::unique_ptr<Layer> layer, const Options &options);
    World(const World &) = delete;
    ~World();

    // processes
    Process &new_process(int pid);
    Process *process_of(int pid);
    void name_in_layer(Process &process, int number);
    int real_pid(long layer_number) const;
    int guest(uid_t user, gid_t group);        // a process of the layer that stands for one outside
    std::string title(const Process &process) const { return process.program + " (pid " + text(process.pid) + ")"; }

    // calls of the layer
    Reply say(Process &process, const std::string &words);
    std::vector<Reply> say_all(Process &process, const std::vector<std::string> &calls);
    // Made as soon as it needn't wait; EAGAIN where the program doesn't wait, or no longer.
    Task<Reply> ask(Call &call, std::string words, unsigned flags, int limit_option);
    unsigned pend(int process, const std::string &words, std::function<void(Reply)> then);
    void cancel(unsigned pended);

    // open files and numbers
    Ref make(Kind kind, int description);
    void touch(const Ref &file) { changed.insert(file); }      // its placeholder is shown anew
    void enter(Process &process, int number, const Ref &file, int layer_number);
    void drop(Process &process, const std::vector<int> &numbers, bool closes_in_layer = true);
    void let_go(NumberRef number);
    NumberRef find(Call &call, int number);
    NumberRef find_socket(Call &call, int number);
    int adopt(Call &call, int number);         // the layer's number of a file that is passed; an error below 0
    Ref hold(int layer_process, File file, const std::string &what, int &layer_number);
    void note_number(const Process &process, int number, const Number *entry);
    bool is_being_closed(Call &call, int number);

    // answers
    void begin(Call &call);                    // settled and answered, or kept where it waits
    void let_through(Call &call);              // without a look at it
    void renew(Call &call, u64 id);            // a signal has interrupted it, and the kernel begins it anew
    std::optional<Result> handle(Call &call);  // none: it has work that may wait
    Task<std::vector<int>> deliver(Call &call, std::vector<Gift> gifts);    // the program's numbers; errors below 0
    Result refuse(Call &call, int error, const std::string &why);
    void stop_foreign(Process &process);       // its calls have other numbers, and can't be answered
    void listen_to(File listener);
    void await(int file);                      // the supervisor wakes where it can be read
    void complain(const std::string &line);

    // waiting
    static bool waits(const Call &call, unsigned flags);
    // For a time, or until the call is cut off; EAGAIN then, and where the program doesn't wait.
    Task<int> pause(Call &call, double seconds, unsigned flags, int limit_option);
    void settle();                             // shows what was told, and lets go on what was answered
    void interrupt(Call &call);                // a handler is about to run: the call ends with what it has
    void end(int task);                        // nobody waits for it any more
    double next_deadline() const;
    void time_out();
};
