/* The words of a script's line, and what each means to the kernel. */
#include "replay.h"
#include <ctype.h>
#include <fcntl.h>
#include <stdlib.h>
#include <string.h>

unsigned number_in(const char *word) { return (unsigned)strtoul(word, NULL, 10); }

/* A descriptor number that the script's process can have; any other is a number that is never open. */
int descriptor_in(const char *word) {
    unsigned number = number_in(word);
    return number < shared->processes[me].limit ? (int)number : NO_DESCRIPTOR;
}

static unsigned digit_in(char digit) { return digit <= '9' ? (unsigned)(digit - '0') : (unsigned)(digit - 'a' + 10); }

size_t bytes_in(const char *hex, unsigned char *bytes) {
    size_t length = 0;
    if (hex[0] == '-') return 0;
    for (; hex[0] && hex[1]; hex += 2) bytes[length++] = (unsigned char)(digit_in(hex[0]) * 16 + digit_in(hex[1]));
    return length;
}

size_t name_in(const char *word, char *name) {
    size_t length = 0;
    for (; *word; word++) {
        if (word[0] == '%' && word[1] && word[2]) {
            name[length++] = (char)(digit_in(word[1]) * 16 + digit_in(word[2]));
            word += 2;
        } else {
            name[length++] = *word;
        }
    }
    name[length] = 0;
    return length;
}

int open_flags_in(const char *word) {
    return (strchr(word, 'a') ? O_APPEND : 0) | (strchr(word, 'x') ? O_CLOEXEC : 0) | (strchr(word, 'n') ? O_NONBLOCK : 0);
}

int socket_flags_in(const char *word) {
    return (strchr(word, 'x') ? SOCK_CLOEXEC : 0) | (strchr(word, 'n') ? SOCK_NONBLOCK : 0);
}

int message_flags_in(const char *word) {
    return (strchr(word, 'p') ? MSG_PEEK : 0) | (strchr(word, 't') ? MSG_TRUNC : 0) |
           (strchr(word, 'x') ? MSG_CMSG_CLOEXEC : 0) | (strchr(word, 'd') ? MSG_DONTWAIT : 0);
}

int mode_in(const char *word) { return word[0] && word[1] ? O_RDWR : word[0] == 'r' ? O_RDONLY : O_WRONLY; }

int type_in(const char *word) {
    return word[0] == 'd' ? SOCK_DGRAM : word[0] && word[1] == 't' ? SOCK_STREAM : SOCK_SEQPACKET;
}

size_t words_in(char *line, char **words) {
    size_t count = 0;
    for (char *rest = line; count < MOST_WORDS && (words[count] = strsep(&rest, " ")); count++) continue;
    return count;
}

int is_number(const char *word) {
    if (!isdigit((unsigned char)*word)) return 0;
    for (; *word; word++) {
        if (!isdigit((unsigned char)*word)) return 0;
    }
    return 1;
}

/* Pairs of digits, or `-`. */
int is_hex(const char *word) {
    return strcmp(word, "-") == 0 || (word[0] && strlen(word) % 2 == 0 && strspn(word, "0123456789abcdef") == strlen(word));
}
