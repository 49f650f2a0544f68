/* Control buffers of messages: rights and credentials, by the script's numbers and this machine's (cmsg(3)). */
#include "replay.h"
#include <stdio.h>
#include <string.h>
#include <sys/stat.h>
#include <unistd.h>

static union {
    unsigned char bytes[MOST_CONTROL];
    struct cmsghdr aligned;
} control;

unsigned char *control_bytes(void) { return control.bytes; }

/* The machine's credentials for a script's. A privileged process of a run without users of its own can give its own alone. */
static struct ucred real_credentials(unsigned pid, unsigned uid, unsigned gid) {
    struct ucred real = {.pid = NO_PROCESS, .uid = real_user(uid), .gid = real_group(gid)};
    if (pid >= 1 && pid <= shared->process_count) real.pid = shared->pids[pid];
    if (shared->processes[me].privileged && !shared->has_own_users) real = (struct ucred){getpid(), getuid(), getgid()};
    return real;
}

/* Turns credentials into the script's. Of those that were cut the first bytes are there, and zeros behind them, which do:
 * a byte tells a process, and numbers of the run's users and groups have no more. */
static void translate(struct ucred *credentials, size_t length) {
    for (unsigned i = 1; i <= shared->process_count; i++) {
        size_t told = length < sizeof(pid_t) ? length : sizeof(pid_t);
        const struct process *process = &shared->processes[i];
        if (memcmp(&shared->pids[i], &credentials->pid, told)) continue;
        *credentials = (struct ucred){(pid_t)i, script_user(process, credentials->uid), script_group(process, credentials->gid)};
        return;
    }
}

void say_credentials(const struct ucred *real) {
    struct ucred told = *real;
    translate(&told, sizeof told);
    say("%u,%u,%u", (unsigned)told.pid, told.uid, told.gid);
}

/* Lays an item out behind the buffer's first bytes, with its end not filled up, and answers where it ends. */
static size_t put_item(size_t from, int type, const void *bytes, size_t length) {
    size_t start = CMSG_ALIGN(from);
    struct cmsghdr head = {.cmsg_len = CMSG_LEN(length), .cmsg_level = SOL_SOCKET, .cmsg_type = type};
    memset(control.bytes + from, 0, start - from);
    memcpy(control.bytes + start, &head, sizeof head);
    memcpy(control.bytes + start + sizeof head, bytes, length);
    return start + sizeof head + length;
}

static void note_right(int number) {
    struct stat told;
    if (fstat(number, &told) == 0 && S_ISSOCK(told.st_mode)) shared->has_passed_socket = 1;
}

static size_t put_rights(size_t from, const char *list) {
    int numbers[LINE];
    size_t count = 0;
    for (const char *rest = list; rest && count < LINE; rest = strchr(rest, ',')) {
        if (*rest == ',') rest++;
        numbers[count++] = descriptor_in(rest);
        note_right(numbers[count - 1]);
    }
    return put_item(from, SCM_RIGHTS, numbers, count * sizeof(int));
}

static int has_credentials(const struct cmsghdr *head) {
    return head->cmsg_type == SCM_CREDENTIALS && head->cmsg_len == CMSG_LEN(sizeof(struct ucred));
}

/* Turns the numbers of a whole item of a plain buffer into the machine's. */
static void put_real(const struct cmsghdr *head, unsigned char *bytes) {
    unsigned numbers[3];
    if (head->cmsg_type == SCM_RIGHTS) {
        for (size_t at = 0; at + sizeof(int) <= head->cmsg_len - sizeof *head; at += sizeof(int)) {
            int number;
            memcpy(&number, bytes + at, sizeof number);
            number = (unsigned)number < shared->processes[me].limit ? number : NO_DESCRIPTOR;
            note_right(number);
            memcpy(bytes + at, &number, sizeof number);
        }
    }
    if (!has_credentials(head)) return;
    memcpy(numbers, bytes, sizeof numbers);
    struct ucred real = real_credentials(numbers[0], numbers[1], numbers[2]);
    memcpy(bytes, &real, sizeof real);
}

static void learn_item(const struct cmsghdr *head, unsigned char *bytes) {
    unsigned numbers[3];
    if (!has_credentials(head)) return;
    memcpy(numbers, bytes, sizeof numbers);
    user_of(numbers[1]);
    group_of(numbers[2]);
}

/* Bytes as the script gives them, in which something is done with each whole item. It answers how many they are. */
static size_t put_plain(const char *hex, void (*see)(const struct cmsghdr *head, unsigned char *bytes)) {
    size_t length = bytes_in(hex, control.bytes);
    for (size_t at = 0; at + sizeof(struct cmsghdr) <= length;) {
        struct cmsghdr head;
        memcpy(&head, control.bytes + at, sizeof head);
        if (head.cmsg_len < sizeof head || head.cmsg_len > length - at) break;
        see(&head, control.bytes + at + sizeof head);
        at += CMSG_ALIGN(head.cmsg_len);
    }
    return length;
}

size_t control_in(char *word) {
    size_t length = 0;
    if (word[0] == '-') return 0;
    if (word[0] == 'x') return put_plain(word + 2, put_real);
    for (char *item; (item = strsep(&word, "+"));) {
        unsigned pid, uid, gid;
        if (item[0] == 'r') {
            length = put_rights(length, item + 2);
        } else if (sscanf(item, "c:%u,%u,%u", &pid, &uid, &gid) == 3) {
            struct ucred real = real_credentials(pid, uid, gid);
            length = put_item(length, SCM_CREDENTIALS, &real, sizeof real);
        }
    }
    return length;
}

/* Has the users and groups that a message tells known by their numbers before it is sent. */
void learn_credentials(const char *word) {
    unsigned pid, uid, gid;
    if (word[0] == 'x') {
        put_plain(word + 2, learn_item);
        return;
    }
    for (const char *item = word; (item = strstr(item, "c:")); item++) {
        if (sscanf(item, "c:%u,%u,%u", &pid, &uid, &gid) != 3) continue;
        user_of(uid);
        group_of(gid);
    }
}

static void say_rights(const struct cmsghdr *item) {
    size_t count = (item->cmsg_len - CMSG_LEN(0)) / sizeof(int);
    for (size_t i = 0; i < count; i++) {
        int number;
        memcpy(&number, CMSG_DATA(item) + i * sizeof number, sizeof number);
        say("%s%d", i ? "," : "r:", number);
    }
}

/* An item as bytes, those of credentials that were cut by the script's numbers. */
static void say_plain(struct cmsghdr *item) {
    size_t length = item->cmsg_len - CMSG_LEN(0);
    if (item->cmsg_type == SCM_CREDENTIALS && length < sizeof(struct ucred)) {
        struct ucred cut = {0};
        memcpy(&cut, CMSG_DATA(item), length);
        translate(&cut, length);
        memcpy(CMSG_DATA(item), &cut, length);
    }
    say("x:");
    say_bytes((unsigned char *)item, item->cmsg_len);
}

/* What control bytes of a receive say: credentials, rights, or the bytes where an item is neither. */
void say_items(struct msghdr *message) {
    const char *joint = "";
    if (message->msg_controllen == 0) say("-");
    for (struct cmsghdr *item = CMSG_FIRSTHDR(message); item; item = CMSG_NXTHDR(message, item)) {
        say("%s", joint);
        joint = "+";
        if (item->cmsg_type == SCM_CREDENTIALS && item->cmsg_len == CMSG_LEN(sizeof(struct ucred))) {
            struct ucred real;
            memcpy(&real, CMSG_DATA(item), sizeof real);
            say("c:");
            say_credentials(&real);
        } else if (item->cmsg_type == SCM_RIGHTS && item->cmsg_len > CMSG_LEN(0)) {
            say_rights(item);
        } else {
            say_plain(item);
        }
    }
}
