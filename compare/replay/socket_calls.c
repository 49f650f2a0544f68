/* Calls on sockets but for messages, each by its words. */
#include "replay.h"
#include <errno.h>
#include <fcntl.h>
#include <stdlib.h>
#include <string.h>
#include <unistd.h>

enum { LAYERS_ECONNRESET = 20 };

/* A new socket with its flags: no call that makes one has append among them. */
static int with_append(int number, const char *flags) {
    if (number >= 0 && strchr(flags, 'a') && fcntl(number, F_SETFL, open_flags_in(flags) & ~O_CLOEXEC) < 0) _exit(2);
    return number;
}

CALL(socket) {
    say_count("fd", with_append(socket(AF_UNIX, type_in(word[2]) | socket_flags_in(word[3]), 0), word[3]));
}

CALL(pair) {
    int pair[2];
    if (socketpair(AF_UNIX, type_in(word[2]) | socket_flags_in(word[3]), 0, pair) < 0) say_error();
    else say("fds %d %d", with_append(pair[0], word[3]), with_append(pair[1], word[3]));
}

CALL(bind) {
    struct address address;
    int number = descriptor_in(word[2]);
    if (!address_in(word[3], &address)) {
        say_what_is_no_socket(number);
        return;
    }
    note_bound_name(word[3]);
    say_done(bind(number, &address.head, address.length));
    learn_name(number);
}

CALL(listen) { say_done(listen(descriptor_in(word[2]), (int)strtol(word[3], NULL, 10))); }

/* The unnamed address is AF_UNSPEC to a datagram socket, whose association it ends. */
CALL(connect) {
    struct address address;
    int number = descriptor_in(word[2]);
    unsigned known = shared->alias_count;
    if (!address_in(word[3], &address)) {
        say_what_is_no_socket(number);
        return;
    }
    if (word[3][0] == 'u' && type_of(number) == SOCK_DGRAM) address.un.sun_family = AF_UNSPEC;
    int flags = make_nonblocking(number), answer = connect(number, &address.head, address.length);
    if (has_named_itself(number, known, answer) && address_in(word[3], &address)) {
        answer = connect(number, &address.head, address.length);
    }
    restore_flags(number, flags);
    say_done(answer);
}

CALL(accept) {
    struct address address = {.length = sizeof address.bytes};
    int number = descriptor_in(word[2]), flags = make_nonblocking(number);
    int made = accept4(number, &address.head, &address.length, socket_flags_in(word[3]));
    restore_flags(number, flags);
    say_count("accepted", with_append(made, word[3]));
    if (made < 0) return;
    say(" ");
    say_address(&address);
}

CALL(shut) {
    int mode = mode_in(word[3]);
    say_done(shutdown(descriptor_in(word[2]), mode == O_RDWR ? SHUT_RDWR : mode == O_RDONLY ? SHUT_RD : SHUT_WR));
}

/* `qlimit` is the layer's own: to Linux it is an option that there isn't. */
static int option_in(const char *word) {
    switch (word[0]) {
    case 't': return SO_TYPE;
    case 'e': return SO_ERROR;
    case 'a': return SO_ACCEPTCONN;
    case 'q': return -1;
    default: return word[1] == 'a' ? SO_PASSCRED : SO_PEERCRED;
    }
}

static void say_peer(const struct ucred *credentials) {
    say("cred ");
    size_t start = reply_length;
    say_credentials(credentials);
    for (size_t i = start; i < reply_length; i++) reply[i] = reply[i] == ',' ? ' ' : reply[i];
}

CALL(getopt) {
    struct ucred credentials;
    int option = option_in(word[3]), number = descriptor_in(word[2]), value = 0;
    void *place = option == SO_PEERCRED ? (void *)&credentials : &value;
    socklen_t length = option == SO_PEERCRED ? sizeof credentials : sizeof value;
    if (getsockopt(number, SOL_SOCKET, option, place, &length) < 0) say_error();
    else if (option == SO_PEERCRED) say_peer(&credentials);
    else say("opt %d", option == SO_ERROR && value == ECONNRESET ? LAYERS_ECONNRESET : value);
}

/* A layer may name a socket at once where SO_PASSCRED is set, as Linux does where it sends. */
CALL(setopt) {
    int option = option_in(word[3]), number = descriptor_in(word[2]), value = (int)number_in(word[4]);
    say_done(setsockopt(number, SOL_SOCKET, option, &value, sizeof value));
    learn_name(number);
}

static void say_name_of(char **word) {
    struct address address = {.length = sizeof address.bytes};
    int number = descriptor_in(word[2]);
    int answer = word[1][0] == 's' ? getsockname(number, &address.head, &address.length)
                                   : getpeername(number, &address.head, &address.length);
    if (answer < 0) {
        say_error();
        return;
    }
    say("addr ");
    say_address(&address);
}

CALL(sockname) { say_name_of(word); }

CALL(peername) { say_name_of(word); }
