// The real socket that a program has in place of the layer's: the kernel's poll, select and epoll see on it what the layer tells.
#pragma once
#include "description.h"

class Placeholders {
    File streams, records;                     // where placeholders are connected to
    File &listener_of(Kind kind);

public:
    void make_idle(Description &file, bool nonblock);
    void make_pair(Description &file, bool nonblock);
    void connect(Description &file);
    void listen(Description &file);
    void show(Description &file);              // what was told last
};

void connect_to(int socket, int listener);
