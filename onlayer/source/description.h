// An open file of the layer as the supervisor sees it: a socket with its placeholder, or a file of the program's that was passed.
#pragma once
#include <sys/socket.h>
#include <memory>
#include <string>
#include <vector>
#include "kernel.h"
#include "layer.h"

enum Kind { STREAM = SOCK_STREAM, DATAGRAM = SOCK_DGRAM, RECORDS = SOCK_SEQPACKET, OPAQUE = 0 };

struct Description {
    const Kind kind;
    const int id;                              // the layer's number
    Told told;                                 // what the layer has told of it last
    bool has_arrived = false;                  // something more has come since it was shown
    File shown, hidden;                        // the placeholder: the program's end, or the held file; and the supervisor's
    std::vector<File> dummies;                 // connections that make a listener's placeholder readable
    File gate;                                 // bound for real, where programs outside look for it
    bool listens_for_real = false, shown_full = false;
    unsigned shown_conditions = 0;
    long shown_bytes = 0;                      // of input on the placeholder

    bool listening = false, passes_credentials = false, is_server_end = false, has_limit = false;
    std::string name;                          // in the layer's words
    int send_room = 0, receive_room = 0;       // SO_SNDBUF and SO_RCVBUF as they are told
    int least_received = 1;                    // SO_RCVLOWAT
    std::vector<gid_t> peer_groups, listener_groups;
    ucred listener = {0, (uid_t)-1, (gid_t)-1};    // who made it listen; nobody where it doesn't

    Description(Kind kind, int id) : kind(kind), id(id) {}
    bool is_socket() const { return kind != OPAQUE; }
    bool is_stream() const { return kind == STREAM; }
    bool is_connection() const { return kind == STREAM || kind == RECORDS; }
    bool has(unsigned conditions) const { return told.conditions & conditions; }
};
typedef std::shared_ptr<Description> Ref;
