/* No call waits, but in a run in which the processes go on by themselves. A description is as the script has it all the
 * same: it is non-blocking for as long as a call lasts, and MSG_DONTWAIT does so for a message. */
#include "replay.h"
#include <errno.h>
#include <fcntl.h>
#include <poll.h>

int type_of(int number) {
    int type = 0;
    socklen_t length = sizeof type;
    return getsockopt(number, SOL_SOCKET, SO_TYPE, &type, &length) == 0 ? type : 0;
}

/* What isn't tried at a number that leads to no socket is refused by the kernel. */
void say_what_is_no_socket(int number) {
    int type = 0;
    socklen_t length = sizeof type;
    if (getsockopt(number, SOL_SOCKET, SO_TYPE, &type, &length) == 0) return;
    reply_length = 0;
    say_error();
}

/* Whether a datagram socket is shut for reading. A receive there ends, also where it might wait. */
static int is_shut_for_datagrams(int number) {
    struct pollfd asked = {.fd = number, .events = POLLRDHUP};
    return poll(&asked, 1, 0) > 0 && (asked.revents & POLLRDHUP) && type_of(number) == SOCK_DGRAM;
}

/* MSG_DONTWAIT, where a receive might wait otherwise. */
int flag_of_a_receive(int number) { return shared->waits || is_shut_for_datagrams(number) ? 0 : MSG_DONTWAIT; }

int flag_of_a_send(void) { return shared->waits ? 0 : MSG_DONTWAIT; }

/* Has calls not wait at what the number leads to. It answers the flags that it had, or -1 where nothing was changed. */
int make_nonblocking(int number) {
    int flags = shared->waits ? -1 : fcntl(number, F_GETFL);
    if (flags < 0 || flags & O_NONBLOCK) return -1;
    if (fcntl(number, F_SETFL, flags | O_NONBLOCK) < 0) give_up("a description can't be made non-blocking");
    return flags;
}

/* The same of a read, which is a receive where it is of a socket. */
int make_read_nonblocking(int number) { return is_shut_for_datagrams(number) ? -1 : make_nonblocking(number); }

/* Gives the description its flags back, and leaves errno as the call in between has set it. */
void restore_flags(int number, int flags) {
    int error = errno;
    if (flags >= 0 && fcntl(number, F_SETFL, flags) < 0) give_up("a description's flags can't be restored");
    errno = error;
}
