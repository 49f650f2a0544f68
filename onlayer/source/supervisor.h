// The loop: notifications, signals, time limits, and what is told at the end.
#pragma once
#include <signal.h>
#include <sys/epoll.h>
#include <sys/signalfd.h>
#include "outside.h"
#include "tracer.h"

sigset_t watched_signals();                     // that onlayer takes from a file, blocked before anything is started

class Supervisor {
    World &world;
    Tracer tracer;
    File signals;
    bool told_deadlock = false;

    void take_notification(int listener);
    bool comes_again(const seccomp_notif &told, int listener);
    Process *process_of(const Call &call);
    void begin(Call &call);
    void take_signals();
    void pass_on(const signalfd_siginfo &info);
    void look_for_deadlock(bool was_idle);
    void handle_event(const epoll_event &event);
    void wait_for_something();

public:
    explicit Supervisor(World &world) : world(world), tracer(world) {}
    int run();                                 // the program's exit status
};
