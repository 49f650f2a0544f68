// A system call that a task of the program has begun, and what it comes to.
#pragma once
#include <linux/seccomp.h>
#include <map>
#include <set>
#include "description.h"
#include "task.h"

struct Process;

struct Number {                                // a number of the program's that leads to an open file of the layer
    Process *process;
    Ref file;
    int layer;                                 // its number in the layer's table
    unsigned long checked = 0;                 // at which of the process's changes
};
typedef std::shared_ptr<Number> NumberRef;

struct Process {
    int pid = 0, layer = 0;
    std::string program;
    std::map<int, NumberRef> table;            // by the real number
    std::map<int, ino_t> closing;              // numbers that are being closed, with the placeholder's inode
    unsigned long changes = 1;                 // calls that may have another file behind a number
    std::set<int> tasks;
    uid_t user = 0;
    gid_t group = 0;
    std::vector<gid_t> groups;
    bool ids_changed = true, hides = false;    // hides: it asked not to be dumpable
    bool is_watched = false;                   // it has the filter that tells all of its calls
};

struct Result {
    enum Way { DONE, PASS } way;               // PASS: the kernel makes it
    long value = 0;
    int error = 0;
    bool raises_sigpipe = false;
};
inline Result done(long value) { return {Result::DONE, value}; }
inline Result fail(int error) { return {Result::DONE, 0, error}; }
inline Result pass() { return {Result::PASS}; }
inline Result answer_of(long value) { return value < 0 ? fail((int)-value) : done(value); }

struct Call {
    // ASKS: until the layer answers; PAUSES: for a time; GIVES: until the call comes again, as a signal has interrupted it;
    // ENDED: until the result is fetched, which a signal has kept from it.
    enum State { RUNS, ASKS, PAUSES, GIVES, ENDED };

    u64 id = 0;                                // of the notification
    int listener = -1;                         // that told it
    int task = 0;
    Process *process = nullptr;
    seccomp_data data{};
    NumberRef number;                          // the socket, kept while the call lasts, also where another thread closes it
    State state = RUNS;
    Task<Result> work;
    std::coroutine_handle<> at;                // where it goes on
    Reply reply;                               // with which it goes on
    unsigned pending = 0;                      // the layer's call that it waits for
    double deadline = 0, retry = 0, begun = 0;
    bool interrupted = false;                  // by a signal: it ends with what it has
    Result result{};

    int nr() const { return data.nr; }
    int argument(int at) const { return (int)data.args[at]; }
    bool waits() const { return state == ASKS || state == PAUSES; }
};

// An open file that a call gives to the program.
struct Gift {
    Ref file;
    int layer;
    bool closes_on_exec;
    int at = -1;                               // a certain number, or the lowest free one
};
