/* The script's file objects: a memory file is a file, a pipe a FIFO, a counter one of the kernel; and which are gone. */
#include "replay.h"
#include <fcntl.h>
#include <stdio.h>
#include <stdlib.h>
#include <string.h>
#include <sys/stat.h>
#include <unistd.h>

struct object objects[MOST_OBJECTS];
unsigned object_count, object_limit = USUAL_OBJECTS;

/* A line `object p:NAME [fail N] KIND [HEX]`. */
void add_object(char **word, size_t count) {
    static char name[LINE + 1];
    if (object_count == object_limit) give_up("too many objects");
    size_t kind = count > 4 && strcmp(word[2], "fail") == 0 ? 4 : 2;
    struct object *made = &objects[object_count];
    if (strncmp(word[1], "p:", 2) || strlen(word[1]) > LINE || count <= kind) give_up("a bad line of an object");
    *made = (struct object){.counter = -1, .watch = -1, .has_path = 1, .kind = word[kind][0]};
    if (kind == 4) made->fails_at = number_in(word[3]);
    if (!file_in(word[1], name)) give_up(reply);
    made->name = strdup(name);
    if (made->name == NULL) fail("strdup");
    if (made->kind == 'm' && (count <= kind + 1 || !is_hex(word[kind + 1]))) give_up("a bad line of an object");
    if (made->kind == 'm') {
        made->bytes = malloc(strlen(word[kind + 1]));
        if (made->bytes == NULL) fail("malloc");
        made->length = bytes_in(word[kind + 1], made->bytes);
    }
    object_count++;
}

/* The folder is the superuser's own still, so nobody else changes what a path leads to. */
static void make_file(struct object *object) {
    int is_pipe = object->kind == 'p';
    if (is_pipe && mkfifo(object->name, 0660) < 0) fail(object->name);
    int flags = is_pipe ? O_RDONLY | O_NONBLOCK | O_NOFOLLOW : O_WRONLY | O_CREAT | O_EXCL;
    int number = open(object->name, flags | O_CLOEXEC, 0660);
    if (number < 0) fail(object->name);
    if (!is_pipe && write(number, object->bytes, object->length) != (ssize_t)object->length) fail(object->name);
    if (geteuid() == 0 && fchown(number, user, user) < 0) fail(object->name);
    close(number);
    if (object->kind == 'c') return;
    object->watch = watch_file(object->name);
    if (object->watch < 0) fail("a file can't be watched");
}

static void hold_counter(unsigned i) {
    objects[i].counter = make_counter(0, 0, O_CLOEXEC);
    objects[i].is_held = 1;
    if (objects[i].counter < 0 || watch_references(objects[i].counter, i) < 0) fail("a counter");
}

/* Files stand for the paths of all objects; a counter is handed to who opens it. */
void make_objects(void) {
    if (start_watching() < 0) fail("linux_replay");
    for (unsigned i = 0; i < object_count; i++) {
        make_file(&objects[i]);
        if (objects[i].kind == 'c') hold_counter(i);
        if (objects[i].fails_at) add_failing(&objects[i]);
    }
}

/* What the call of these words has made gets the next number. It is seen by its path, or by the descriptors that the process
 * has handed over, which are closed then. */
void add_made(char **word) {
    char file[LINE + 1];
    struct object *object = &objects[object_count];
    if (object_count == object_limit) give_up("too many objects");
    *object = (struct object){.counter = -1, .watch = -1, .kind = word[1][0]};
    if (strcmp(word[1], "create") == 0) {
        file_in(word[2], file);
        object->name = strdup(file);
        object->has_path = 1;
        object->kind = 'm';
        object->watch = watch_file(file);
        if (object->name == NULL || object->watch < 0) fail("a file can't be watched");
    }
    for (unsigned i = 0; i < made_count; i++) {
        int is_file = object->kind == 'm';
        if (is_file) object->watch = watch_file_in_memory(made[i]);
        if (is_file ? object->watch < 0 : watch_references(made[i], object_count) < 0) fail("what is made can't be watched");
        close(made[i]);
    }
    object_count++;
}

/* The object that still has this path; what is made at a path that was taken away is none. */
struct object *object_at(const char *file) {
    for (unsigned i = 0; i < object_count; i++) {
        if (objects[i].has_path && strcmp(objects[i].name, file) == 0) return &objects[i];
    }
    return NULL;
}

void path_is_gone(const char *file) {
    struct object *object = object_at(file);
    if (object) object->has_path = 0;
}

void all_paths_are_gone(void) {
    for (unsigned i = 0; i < object_count; i++) objects[i].has_path = 0;
}

static void see_file_go(int watch, int *gone) {
    for (unsigned i = 0; i < object_count; i++) {
        if (watch == objects[i].watch) gone[i] = 1;
    }
}

/* Counters, and pipes without a path. */
static void see_references_go(int *gone) {
    for (unsigned i = 0; i < object_count; i++) {
        if (objects[i].watch >= 0 || objects[i].is_gone) continue;
        if (objects[i].is_held && !objects[i].has_path) {
            close(objects[i].counter);
            objects[i].is_held = 0;
        }
        if (!objects[i].is_held && !is_referred_to(i)) gone[i] = 1;
    }
}

unsigned see_what_goes(int *gone) {
    unsigned count = 0;
    see_watched_go(see_file_go, gone);
    see_references_go(gone);
    for (unsigned i = 0; i < object_count; i++) count += objects[i].is_gone || gone[i];
    return count;
}
