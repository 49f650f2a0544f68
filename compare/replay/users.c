/* Who the processes are: the script's users and groups by the machine's numbers, and setids (setresuid(2), setresgid(2)).
 * In the superuser's run these are numbers of a name space of its own. There user 0 is the script's, as what capabilities(7)
 * says of it is so for it alone, and group 0 is the one whose the run's folder and its files are. */
#include "replay.h"
#include <grp.h>
#include <stdio.h>
#include <stdlib.h>
#include <string.h>
#include <sys/stat.h>
#include <unistd.h>

static unsigned place_of(unsigned *known, unsigned *count, unsigned id) {
    for (unsigned i = 0; i < *count; i++) {
        if (known[i] == id) return i;
    }
    if (*count == MOST_USERS) give_up("too many users or groups");
    known[*count] = id;
    return (*count)++;
}

/* The place of a script's user, which is new among those of the superuser's run. */
unsigned user_of(unsigned uid) { return user ? place_of(shared->users, &shared->user_count, uid) : 0; }

unsigned group_of(unsigned gid) { return user ? place_of(shared->groups, &shared->group_count, gid) : 0; }

/* The user 0, and the folder's group, which is none of the script's. */
void begin_ids(void) {
    shared->user_count = shared->group_count = 1;
    shared->users[0] = 0;
    shared->groups[0] = NO_ID;
}

/* Users and groups that calls take are known before the first call, as those of the header are. */
void learn_ids(const char *text) {
    static const char call[] = " setids ";
    for (const char *at = text; (at = strstr(at, call));) {
        char *end;
        at += sizeof call - 1;
        unsigned uid = (unsigned)strtoul(at, &end, 10), gid = (unsigned)strtoul(end, NULL, 10);
        if (uid != NO_ID) user_of(uid);
        if (gid != NO_ID) group_of(gid);
    }
}

/* The machine's user for a script's. Where the run has no users of its own, this process's stands for its own, and another
 * for all others. A message may tell the user 4294967295, which is no id, and a group of it: the folder's stands for that. */
unsigned real_user(unsigned uid) {
    if (!shared->has_own_users) return uid == shared->processes[me].uid ? getuid() : getuid() ^ 1;
    for (unsigned i = 0; i < shared->user_count; i++) {
        if (shared->users[i] == uid) return i;
    }
    return getuid() ^ 1;
}

unsigned real_group(unsigned gid) {
    if (!shared->has_own_users) return gid == shared->processes[me].gid ? getgid() : getgid() ^ 1;
    for (unsigned i = 0; i < shared->group_count; i++) {
        if (shared->groups[i] == gid) return i;
    }
    return getgid() ^ 1;
}

/* The script's user for one of the machine's, as whom this process acted. */
unsigned script_user(const struct process *process, unsigned number) {
    if (!shared->has_own_users) return process->uid;
    return number < shared->user_count ? shared->users[number] : number;
}

unsigned script_group(const struct process *process, unsigned number) {
    if (!shared->has_own_users) return process->gid;
    return number < shared->group_count ? shared->groups[number] : number;
}

static int take_ids(unsigned own, unsigned group) {
    return setresgid(group, group, group) < 0 || setresuid(own, own, own) < 0 ? -1 : 0;
}

static int become_one_of_its_own(unsigned number, unsigned group, int is_privileged) {
    gid_t folders = 0;
    return enter_user_space() < 0 || setgroups(1, &folders) < 0 || take_ids(number, group) < 0 ||
           set_privileges(is_privileged) < 0 ? -1 : 0;
}

/* A process of the superuser acts as one of the users that were given, so that no privilege of its own changes an answer. */
void become_ordinary(unsigned number, unsigned group, int is_privileged) {
    umask(S_IRWXO);
    if (geteuid() != 0) return;
    if (shared->has_own_users ? become_one_of_its_own(number, group, is_privileged)
                              : setgroups(0, NULL) < 0 || take_ids(user + number, user) < 0) {
        perror("linux_replay: the user that was given can't be had");
        _exit(2);
    }
}

/* Linux has a call for each of the two. That of the user comes last, as it may take the right to the other away. A number of
 * nobody leaves an id as it is in setresuid(2), so it is given to setuid(2), and before the other changes anything. */
static int set_ids(unsigned uid, unsigned gid) {
    if (uid == NO_ID) return setuid(uid);
    if (gid == NO_ID) return setgid(gid);
    return take_ids(real_user(uid), real_group(gid));
}

CALL(setids) {
    struct process *own = &shared->processes[me];
    unsigned uid = number_in(word[2]), gid = number_in(word[3]);
    int changes = uid != NO_ID && gid != NO_ID && (uid != own->uid || gid != own->gid);
    if (changes && own->privileged && !shared->has_own_users) {
        not_tried("privilege");
        return;
    }
    int answer = set_ids(uid, gid);
    say_done(answer);
    if (answer < 0) return;
    own->uid = uid;
    own->gid = gid;
    if (shared->has_own_users) own->privileged = has_privileges();
    if (end_with_parent(0) < 0) _exit(2);
}
