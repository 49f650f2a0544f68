/* Names and addresses: the script's, and those that stand for them on this machine. */
#include "replay.h"
#include <errno.h>
#include <stdio.h>
#include <string.h>
#include <unistd.h>

enum { DIGITS = 5, SLASH = 1, BEFORE_DOTS = 2 };

/* A path of the script as a file of the folder, a slash as the byte 1, and `.` and `..` behind the byte 2. It answers 0
 * where there can be no such file. */
int file_in(const char *word, char *file) {
    size_t length = name_in(word + 2, file);
    if (strlen(file) != length) return not_tried("a path with a NUL");
    if (strchr(file, SLASH) || file[0] == BEFORE_DOTS) return not_tried("a path that no file can have");
    for (char *slash = file; (slash = strchr(slash, '/')); *slash = SLASH) continue;
    if (strcmp(file, ".") == 0 || strcmp(file, "..") == 0) {
        memmove(file + 1, file, length + 1);
        file[0] = BEFORE_DOTS;
    }
    return 1;
}

/* Whether a name is five digits of autobind, and which number they are. */
static int is_digits(const char *name, size_t length, unsigned *number) {
    if (length != DIGITS || strspn(name, "0123456789abcdef") < DIGITS) return 0;
    return sscanf(name, "%5x", number) == 1;
}

static struct alias *alias_with_number(unsigned number) {
    for (unsigned i = 0; i < shared->alias_count; i++) {
        if (shared->aliases[i].is_used && shared->aliases[i].number == number) return &shared->aliases[i];
    }
    return NULL;
}

/* An abstract name of the script as a name of this run alone: behind a prefix, or, where it is long, of its length. */
static size_t real_name(const char *name, size_t length, char *real) {
    unsigned number;
    struct alias *alias = is_digits(name, length, &number) ? alias_with_number(number) : NULL;
    if (alias) {
        memcpy(real, alias->real, DIGITS);
        return DIGITS;
    }
    if (length < KEPT_LENGTH) {
        memcpy(real, prefix, PREFIX);
        memcpy(real + PREFIX, name, length);
        return length + PREFIX;
    }
    for (size_t i = 0; i < length; i++) real[i] = (char)(name[i] ^ shared->key[i % sizeof shared->key]);
    return length;
}

int address_in(const char *word, struct address *address) {
    char name[LINE + 1];
    memset(address, 0, offsetof(struct address, bytes) + sizeof(struct sockaddr_un));
    address->un.sun_family = AF_UNIX;
    address->length = offsetof(struct sockaddr_un, sun_path);
    if (word[0] == 'u') return 1;
    if (word[0] == 'a') {
        size_t length = name_in(word + 2, name);
        address->bytes[address->length] = 0;
        address->length += 1 + (socklen_t)real_name(name, length, address->bytes + address->length + 1);
        return 1;
    }
    if (!file_in(word, name)) return 0;
    size_t length = strlen(name);
    if (length == 0) return not_tried("an empty path");
    memcpy(address->bytes + address->length, name, length + 1);
    address->length += (socklen_t)length + (length == sizeof address->un.sun_path ? 0 : 1);
    return 1;
}

/* Whether a socket of each type can be bound to an abstract name, so that nobody has it. */
static int is_free(const char *name, size_t length) {
    static const int types[] = {SOCK_STREAM, SOCK_DGRAM, SOCK_SEQPACKET};
    struct sockaddr_un address = {.sun_family = AF_UNIX};
    int count = 0;
    memcpy(address.sun_path + 1, name, length);
    for (int i = 0; i < 3; i++) {
        int number = socket(AF_UNIX, types[i] | SOCK_CLOEXEC, 0);
        socklen_t bytes = (socklen_t)(offsetof(struct sockaddr_un, sun_path) + 1 + length);
        count += bind(number, (struct sockaddr *)&address, bytes) == 0;
        close(number);
    }
    return count == 3;
}

/* Whether the script has bound a socket to the digits of this number by their name. */
static int is_bound_by_name(unsigned number) {
    char name[PREFIX + DIGITS + 1];
    if (!shared->has_bound_digits) return 0;
    memcpy(name, prefix, PREFIX);
    snprintf(name + PREFIX, DIGITS + 1, "%05x", number);
    return !is_free(name, PREFIX + DIGITS);
}

/* The script binds a socket to digits that autobind may give. */
void note_bound_name(const char *word) {
    char name[LINE + 1];
    unsigned number;
    if (word[0] == 'a' && is_digits(name, name_in(word + 2, name), &number)) shared->has_bound_digits = 1;
}

/* Whether a name that was free again has been given to another socket. */
static int is_given_again(const struct alias *alias) {
    if (alias->is_used) return 0;
    set_limit(HANDED + 2);
    int is_given = !is_free(alias->real, DIGITS);
    set_limit(shared->processes[me].limit);
    return is_given;
}

/* The number by which the script knows a name that the kernel gave: for a new one the lowest that no socket has. */
static unsigned alias_of(const char *real) {
    unsigned number = 0;
    for (unsigned i = shared->alias_count; i-- > 0;) {
        if (memcmp(shared->aliases[i].real, real, DIGITS)) continue;
        if (is_given_again(&shared->aliases[i])) break;
        return shared->aliases[i].number;
    }
    if (shared->alias_count == MOST_ALIASES) give_up("too many names were given by autobind");
    set_limit(HANDED + 2);
    while (alias_with_number(number) || is_bound_by_name(number)) number++;
    set_limit(shared->processes[me].limit);
    struct alias *made = &shared->aliases[shared->alias_count++];
    memcpy(made->real, real, DIGITS);
    made->number = number;
    made->is_used = 1;
    return number;
}

/* Names that nobody has any more are free again; who had them is still told by them. */
void forget_names(void) {
    for (unsigned i = 0; i < shared->alias_count; i++) {
        struct alias *alias = &shared->aliases[i];
        if (alias->is_used && is_free(alias->real, DIGITS)) alias->is_used = 0;
    }
}

static void say_name(char kind, const char *name, size_t length) {
    say("%c:", kind);
    for (size_t i = kind == 'p' && length > 0 && name[0] == BEFORE_DOTS; i < length; i++) {
        unsigned char byte = (unsigned char)name[i];
        if (kind == 'p' && byte == SLASH) byte = '/';
        if (byte > 0x20 && byte < 0x7f && byte != '%') say("%c", byte);
        else say("%%%02x", byte);
    }
}

static void say_abstract(const char *real, size_t length) {
    char name[LINE];
    if (length >= PREFIX && !memcmp(real, prefix, PREFIX)) {
        say_name('a', real + PREFIX, length - PREFIX);
    } else if (length == DIGITS) {
        say("a:%05x", alias_of(real));
    } else {
        for (size_t i = 0; i < length; i++) name[i] = (char)(real[i] ^ shared->key[i % sizeof shared->key]);
        say_name('a', name, length);
    }
}

void say_address(const struct address *address) {
    size_t head = offsetof(struct sockaddr_un, sun_path);
    const char *path = address->bytes + head;
    if (address->length == 0) say("-");
    else if (address->length <= head) say("u");
    else if (path[0] == 0) say_abstract(path + 1, address->length - head - 1);
    else say_name('p', path, strnlen(path, address->length - head));
}

/* Whether a call that was refused has itself given its socket a name by autobind: then its address, which may be the
 * number of that name, is another one now, and the call is made again. */
int has_named_itself(int number, unsigned known, long answer) {
    int error = errno;
    learn_name(number);
    errno = error;
    return answer < 0 && error == ECONNREFUSED && shared->alias_count > known;
}

/* Has a name that the kernel gave in this call known by its number, before another call asks for it. */
void learn_name(int number) {
    struct address address = {.length = sizeof address.bytes};
    size_t length = reply_length;
    if (getsockname(number, &address.head, &address.length) == 0) say_address(&address);
    reply_length = length;
}

/* Ends the run where a name of its own is bound still, though all its processes have exited. */
void check_no_name_is_left(void) {
    if (is_name_bound(prefix)) give_up("an abstract name is left");
    forget_names();
    for (unsigned i = 0; i < shared->alias_count; i++) {
        if (shared->aliases[i].is_used) give_up("a name of autobind is left");
    }
}
