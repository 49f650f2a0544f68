// Calls that onlayer has a task make in place of its own.
#pragma once
#include <sys/user.h>
#include <array>
#include "kernel.h"

// The task has ended, or was stopped by something else, in the middle; `status` is that of waitpid.
struct Lost {
    int status;
};

// A task that is stopped before a call makes others, with its signals held back; at the end it is as it was, and makes its own call anew.
class Injection {
    int task;
    user_regs_struct before;
    u64 mask = 0;
    bool has_begun = false, was_stopped = false;

    void go_on();

public:
    explicit Injection(int task);
    ~Injection();
    Injection(const Injection &) = delete;
    long call(long number, const std::array<u64, 6> &arguments);    // its result, an error below 0
};
