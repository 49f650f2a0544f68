// Programs outside of the tree that talk to sockets of the layer: each is a guest in the layer, and its bytes are carried over.
#pragma once
#include "world.h"

// A real connection whose other end is in the layer.
struct Bridge {
    File real;                                 // towards the program outside
    int process = 0, number = 0;               // the guest's, in the layer
    Ref file;                                  // the guest's end
    Description *server = nullptr;             // to which it isn't connected yet, since the backlog is full
    unsigned pending = 0;                      // the connect that waits for it
    std::string to_layer, to_real;             // what waits to be carried on
    std::vector<std::pair<Ref, int>> rights_to_layer;
    std::vector<File> rights_to_real;
    unsigned watched = 0;                      // events of the real connection
    bool real_is_over = false, layer_is_over = false, has_left = false;
};

struct Datagram {                              // from outside, for a server in here
    int process, number;                       // the guest that sends it
    std::string bytes;
    std::vector<std::pair<Ref, int>> rights;
};

class Outside {
    World &world;
    File events;                               // epoll of gates and bridges
    std::map<int, Description *> gates;        // by the real number
    std::map<int, std::unique_ptr<Bridge>> bridges;
    std::map<std::string, std::pair<int, int>> senders;    // a datagram guest's process and number, by its name and ids
    std::map<Description *, Datagram> held;    // for which the server has no room yet

    void watch(int number, unsigned &watched, unsigned wanted);
    void admit(Description *server);
    void knock(Bridge &bridge);
    void enter(Bridge &bridge, const Reply &reply);
    void add_bridge(std::unique_ptr<Bridge> bridge);
    std::vector<std::pair<Ref, int>> hold_rights(int process, std::vector<File> files);
    void close_rights(int process, const std::vector<std::pair<Ref, int>> &rights);

    void take_datagram(Description *server);
    bool pass_datagram(Description *server, const Datagram &datagram);
    std::pair<int, int> sender_of(const std::string &name, const ucred &who);

    bool wants_to_carry(const Bridge &bridge) const;
    void carry(Bridge &bridge);
    bool fetch_from_real(Bridge &bridge);
    bool send_to_layer(Bridge &bridge);
    bool fetch_from_layer(Bridge &bridge);
    File bridge_further(int process, int number, const Ref &file);
    void take_rights_out(Bridge &bridge, const Reply &reply);
    bool send_to_real(Bridge &bridge);
    void leave(Bridge &bridge);
    void sweep();

public:
    explicit Outside(World &world);
    ~Outside();
    void watch_gate(Description *server);
    void forget_gate(Description *server);
    bool has_bridge(int description) const;
    int event_file() const { return events.get(); }
    void handle_events();
    void carry_all();                          // what the layer has for programs outside
};
