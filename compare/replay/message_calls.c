/* Messages, each call by its words (sendmsg(2), recvmsg(2)). */
#include "replay.h"
#include <sys/uio.h>

CALL(send) {
    struct address address = {.length = 0};
    unsigned known = shared->alias_count;
    int number = descriptor_in(word[2]), flags = message_flags_in(word[6]) | flag_of_a_send() | MSG_NOSIGNAL;
    if (word[3][0] != '-' && !address_in(word[3], &address)) {
        say_what_is_no_socket(number);
        return;
    }
    size_t length = control_in(word[5]);
    struct iovec bytes = {data, bytes_in(word[4], data)};
    struct msghdr message = {.msg_iov = &bytes, .msg_iovlen = 1, .msg_namelen = address.length};
    if (address.length > 0) message.msg_name = &address;
    if (length > 0) message.msg_control = control_bytes();
    message.msg_controllen = length;
    ssize_t sent = sendmsg(number, &message, flags);
    if (has_named_itself(number, known, sent) && address.length > 0 && address_in(word[3], &address)) {
        message.msg_namelen = address.length;
        sent = sendmsg(number, &message, flags);
    }
    say_count("n", sent);
}

static void say_message_flags(int flags) {
    int told = flags & (MSG_TRUNC | MSG_CTRUNC | MSG_EOR);
    if (told == 0) say("-");
    if (told & MSG_TRUNC) say("TRUNC%s", told & (MSG_CTRUNC | MSG_EOR) ? "|" : "");
    if (told & MSG_CTRUNC) say("CTRUNC%s", told & MSG_EOR ? "|" : "");
    if (told & MSG_EOR) say("EOR");
}

CALL(recv) {
    struct address from = {.length = 0};
    int number = descriptor_in(word[2]), flags = message_flags_in(word[5]) | flag_of_a_receive(number);
    size_t wanted = number_in(word[3]), space = number_in(word[4]);
    struct iovec bytes = {data, wanted < sizeof data ? wanted : sizeof data};
    struct msghdr message = {.msg_iov = &bytes, .msg_iovlen = 1, .msg_name = &from, .msg_namelen = sizeof from.bytes};
    message.msg_control = control_bytes();
    message.msg_controllen = space < MOST_CONTROL ? space : MOST_CONTROL;
    ssize_t count = recvmsg(number, &message, flags);
    if (count < 0) {
        say_error();
        return;
    }
    from.length = message.msg_namelen;
    say("got %zd ", count);
    say_bytes(data, (size_t)count < bytes.iov_len ? (size_t)count : bytes.iov_len);
    say(" ");
    say_message_flags(message.msg_flags);
    say(" ");
    say_items(&message);
    say(" ");
    say_address(&from);
}
