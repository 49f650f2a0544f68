/* Calls on files and descriptors, each by its words: the process, the call and what it is given. */
#include "replay.h"
#include <errno.h>
#include <fcntl.h>
#include <linux/sockios.h>
#include <poll.h>
#include <stdlib.h>
#include <string.h>
#include <sys/ioctl.h>
#include <sys/stat.h>
#include <unistd.h>

/* As many descriptors as a line has room for. */
enum { MOST_POLLED = LINE / 4 };

unsigned char data[MOST_BYTES + CHUNK];
int passed = -1;

/* An open never waits, also not one of a pipe. */
CALL(open) {
    char file[LINE + 1];
    if (!file_in(word[2], file)) return;
    int flags = mode_in(word[3]) | open_flags_in(word[4]), number = open(file, flags | O_NONBLOCK);
    if (number >= 0 && !(flags & O_NONBLOCK) && fcntl(number, F_SETFL, flags & O_APPEND) < 0) _exit(2);
    say_count("fd", number);
}

/* An open of a counter: its descriptor came with the line, as many opens of one eventfd are one description, which goes
 * both ways, and has the flags of the last. */
CALL(counter) {
    if (passed >= 0 && (fcntl(passed, F_SETFL, open_flags_in(word[4]) & ~O_CLOEXEC) < 0 ||
                        fcntl(passed, F_SETFD, strchr(word[4], 'x') ? FD_CLOEXEC : 0) < 0)) _exit(2);
    errno = EMFILE;
    say_count("fd", passed);
}

static int is_file(int number) {
    struct stat told;
    return fstat(number, &told) == 0 && S_ISREG(told.st_mode);
}

CALL(read) {
    int number = descriptor_in(word[2]), flags = make_read_nonblocking(number);
    size_t wanted = number_in(word[3]);
    ssize_t count = read(number, data, wanted < MOST_BYTES ? wanted : MOST_BYTES);
    restore_flags(number, flags);
    if (count < 0) {
        say_error();
        return;
    }
    say("bytes ");
    say_bytes(data, (size_t)count);
    mark_failing(number, count > 0 || (wanted > 0 && is_file(number)));
}

CALL(write) {
    int number = descriptor_in(word[2]), flags = make_nonblocking(number);
    ssize_t count = write(number, data, bytes_in(word[3], data));
    restore_flags(number, flags);
    int has_reached = count > 0 || (count < 0 && errno != EBADF && errno != EPIPE);
    say_count("n", count);
    mark_failing(number, has_reached);
    learn_name(number);
}

CALL(lseek) {
    int from = word[4][0] == 's' ? SEEK_SET : word[4][0] == 'c' ? SEEK_CUR : SEEK_END;
    say_count("at", lseek(descriptor_in(word[2]), strtoll(word[3], NULL, 10), from));
}

CALL(dup) { say_count("fd", dup(descriptor_in(word[2]))); }

CALL(dup2) { say_count("fd", dup2(descriptor_in(word[2]), descriptor_in(word[3]))); }

CALL(dupfd) {
    say_count("fd", fcntl(descriptor_in(word[2]), F_DUPFD, descriptor_in(word[3])));
}

/* The names of the flags that are set, or a dash, behind a word and a blank. */
static void say_names(const char *word, int set, const struct named *names, size_t count) {
    say("%s ", word);
    if (set == 0) say("-");
    const char *joint = "";
    for (size_t i = 0; i < count; i++) {
        if (!(set & names[i].flag)) continue;
        say("%s%s", joint, names[i].name);
        joint = "|";
    }
}

/* FD_CLOEXEC is the descriptor's, the others are the description's. */
CALL(getfl) {
    static const struct named names[] = {{O_APPEND, "APPEND"}, {O_NONBLOCK, "NONBLOCK"}, {O_CLOEXEC, "CLOEXEC"}};
    int number = descriptor_in(word[2]);
    int shared = fcntl(number, F_GETFL), own = shared < 0 ? shared : fcntl(number, F_GETFD);
    if (own < 0) say_error();
    else say_names("flags", (shared & (O_APPEND | O_NONBLOCK)) | (own & FD_CLOEXEC ? O_CLOEXEC : 0), names, sizeof names / sizeof *names);
}

CALL(flags) {
    int number = descriptor_in(word[2]);
    int answer = fcntl(number, F_SETFL, open_flags_in(word[3]) & ~O_CLOEXEC);
    say_done(answer < 0 ? answer : fcntl(number, F_SETFD, strchr(word[3], 'x') ? FD_CLOEXEC : 0));
}

/* What an ioctl tells of a queue. Of a file whose offset is behind its end it is negative. */
static void say_length(int number, unsigned long asked) {
    int length;
    if (ioctl(number, asked, &length) < 0) say_error();
    else say("n %d", length);
}

CALL(inq) { say_length(descriptor_in(word[2]), FIONREAD); }

CALL(outq) { say_length(descriptor_in(word[2]), SIOCOUTQ); }

CALL(close) { say_done(close(descriptor_in(word[2]))); }

CALL(unlink) {
    char file[LINE + 1];
    if (file_in(word[2], file)) say_done(unlink(file));
}

static void say_conditions(const char *word, int set) {
    static const struct named conditions[] = {
        {POLLIN, "IN"}, {POLLOUT, "OUT"}, {POLLRDHUP, "RDHUP"}, {POLLHUP, "HUP"}, {POLLERR, "ERR"}, {POLLNVAL, "NVAL"},
    };
    say_names(word, set, conditions, sizeof conditions / sizeof *conditions);
}

CALL(poll) {
    struct pollfd asked = {.fd = descriptor_in(word[2]), .events = POLLIN | POLLOUT | POLLRDHUP};
    if (poll(&asked, 1, 0) < 0) say_error();
    else say_conditions("poll", asked.revents);
}

/* What the letters of one descriptor ask for. */
static short events_in(const char *letters) {
    return (short)((strchr(letters, 'i') ? POLLIN : 0) | (strchr(letters, 'o') ? POLLOUT : 0) | (strchr(letters, 'h') ? POLLRDHUP : 0));
}

/* The descriptors of a list `FD:EVENTS,FD:EVENTS`, or `-` for none. It answers how many there are. */
static nfds_t polled_in(char *list, struct pollfd *asked) {
    nfds_t count = 0;
    char *rest = strcmp(list, "-") ? list : NULL, *one;
    while ((one = strsep(&rest, ",")) != NULL) {
        const char *letters = strchr(one, ':');
        if (letters == NULL || count == MOST_POLLED) give_up("a bad line");
        asked[count++] = (struct pollfd){.fd = descriptor_in(one), .events = events_in(letters + 1)};
    }
    return count;
}

/* One that waits does so where the processes go on by themselves; elsewhere that it would wait is EAGAIN, as of other calls. */
CALL(polls) {
    static struct pollfd asked[MOST_POLLED];
    nfds_t count = polled_in(word[2], asked);
    int waits = strcmp(word[3], "wait") == 0, ready = poll(asked, count, waits && shared->waits ? -1 : 0);
    if (ready == 0 && waits) {
        errno = EAGAIN;
        ready = -1;
    }
    if (ready < 0) {
        say_error();
        return;
    }
    say("polled");
    for (nfds_t i = 0; i < count; i++) say_conditions("", asked[i].revents);
}
