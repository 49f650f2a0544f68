// Filters that tell onlayer of calls: a short one from the start, and one that tells all of a process that may have sockets.
#pragma once
#include <linux/filter.h>
#include "kernel.h"

// Why the tracer is told of a call, in the event's message.
enum Traced : unsigned { BEGINS, FOREIGN, COPIES };    // it may concern the layer; of another architecture; an F_DUPFD

static const u64 UNTOLD = 0x6f6e6c6179657221;  // an argument of calls that onlayer itself has a task make

// The filter whose listener is told of all calls that may concern a socket.
std::vector<sock_filter> watching_filter();
// Starts the command, stopped before its exec, and returns its pid. It has the watching filter at once, or where there is no
// `listener` the short one, with which the tracer is told of the first call that begins something.
int start_program(const std::vector<char *> &command, File *listener);
void wake_at_once(int listener);               // the notified side runs at once, on the same processor
