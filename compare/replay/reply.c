/* The reply to a call, as it is written in a trace. */
#include "replay.h"
#include <errno.h>
#include <stdarg.h>
#include <stdio.h>
#include <string.h>

char reply[3 * MOST_BYTES];
size_t reply_length;

void say(const char *format, ...) {
    va_list values;
    va_start(values, format);
    int count = vsnprintf(reply + reply_length, sizeof reply - reply_length, format, values);
    va_end(values);
    if (count > 0) reply_length += (size_t)count;
    if (reply_length >= sizeof reply) give_up("a reply is too long");
}

void say_bytes(const unsigned char *bytes, size_t length) {
    static const char digits[] = "0123456789abcdef";
    if (length == 0) say("-");
    if (sizeof reply - reply_length <= 2 * length) give_up("a reply is too long");
    for (size_t i = 0; i < length; i++) {
        reply[reply_length++] = digits[bytes[i] >> 4];
        reply[reply_length++] = digits[bytes[i] & 15];
    }
    reply[reply_length] = 0;
}

void say_error(void) {
    const char *name = name_of_error(errno);
    say("err %s", name ? name : "?");
}

void say_done(int answer) {
    if (answer < 0) say_error();
    else say("ok");
}

void say_count(const char *word, long answer) {
    if (answer < 0) say_error();
    else say("%s %ld", word, answer);
}

int not_tried(const char *why) {
    say("not tried: %s", why);
    return 0;
}
