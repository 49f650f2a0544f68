// The system calls, in the layer's words and back.
#pragma once
#include "world.h"

// ---- addresses

struct Address {
    std::string word = "-", sun_path;          // in the layer's words; the path as it was given
    int error = 0;
    bool is_outside = false;                   // a socket that isn't the layer's
    bool is_given() const { return word != "-" || is_outside; }
};
Address read_address(World &world, Call &call, u64 at, long length, bool binds);
std::string address_bytes(const World &world, const std::string &word);
bool write_address(const Call &call, u64 to, u64 length_at, const std::string &bytes);
void forget_path(World &world, Process &process, const std::string &word);

// ---- messages

struct Control {                               // what a send carries beside its bytes
    std::string word = "-";
    unsigned rights = 0;
    int error = 0;
    bool is_broken = false;                    // behind these items is one that isn't understood
};
Control read_control(World &world, Call &call, u64 at, size_t length);

struct Message {                               // a msghdr in the program's memory
    msghdr head{};
    Parts parts;
    int error = 0;
};
Message read_message(const Call &call, u64 at);
int read_parts(const Call &call, u64 at, size_t count, Parts &parts);    // an error, or 0
unsigned flags_of_vector(const Call &call);    // of preadv2 and pwritev2, as a receive and a send have them

struct Got {                                   // what a receive came to
    std::string data, from = "-";
    int error = 0;
    long n = 0;
    unsigned flags = 0;
    bool has_credentials = false;
    ucred credentials{};
    std::vector<int> rights;                   // the program's numbers
};

// Whether a message that goes over a socket outside of the layer has one of the layer's in it.
bool passes_own_socket(World &world, Call &call);
Task<Got> receive(World &world, Call &call, size_t n, size_t space, unsigned flags);

// ---- one function a call

bool may_fail(int call);                       // whether --fail may name it

Task<Result> answer_socket(World &world, Call &call);
Result answer_bind(World &world, Call &call);
Result answer_listen(World &world, Call &call);
Task<Result> answer_connect(World &world, Call &call);
Task<Result> answer_accept(World &world, Call &call);
Result answer_shutdown(World &world, Call &call);
Result answer_name(World &world, Call &call);
Result answer_getsockopt(World &world, Call &call);
Result answer_setsockopt(World &world, Call &call);
Result answer_queue_size(World &world, Call &call);
Task<Result> answer_write(World &world, Call &call);
Task<Result> answer_sendmsg(World &world, Call &call);
Task<Result> answer_sendmmsg(World &world, Call &call);
Task<Result> answer_read(World &world, Call &call);
Task<Result> answer_recvmsg(World &world, Call &call);
Task<Result> answer_recvmmsg(World &world, Call &call);
Task<Result> answer_sendfile(World &world, Call &call);
Task<Result> answer_splice(World &world, Call &call);
Result answer_close(World &world, Call &call);
Result answer_close_range(World &world, Call &call);
Task<Result> answer_dup(World &world, Call &call);
Task<Result> answer_dup2(World &world, Call &call);
Result answer_prctl(World &world, Call &call);

// The server is outside of the layer: the placeholder becomes a real socket.
Result go_outside(World &world, Call &call);
// A client has been connected: its placeholder, and the server's end, which the layer has made. Null where nothing waits at a listener.
Ref join(World &world, Description &client, const Description *listener, const Reply &reply);
