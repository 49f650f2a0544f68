/* File objects of a script that fail at the Nth call which reaches them. Nothing on this machine can be told to fail, so the
 * call is made as any other, and marked: which one it is that reaches the object is seen by the kernel's own answers. */
#include "replay.h"
#include <stdio.h>
#include <sys/stat.h>

/* What tells the object that a number leads to; counters share a file, and have numbers of their own. */
static struct failing told_by(const struct stat *told, int number) {
    int is_file = S_ISREG(told->st_mode) || S_ISFIFO(told->st_mode);
    if (is_file) return (struct failing){.device = told->st_dev, .file = told->st_ino};
    return (struct failing){.device = 0, .file = id_of_counter(number)};
}

void add_failing(const struct object *object) {
    struct stat told;
    int is_counter = object->kind == 'c';
    if ((is_counter ? fstat(object->counter, &told) : stat(object->name, &told)) < 0) fail(object->name);
    struct failing made = told_by(&told, object->counter);
    made.fails_at = object->fails_at;
    shared->failing[shared->failing_count++] = made;
}

/* A read or write at a number has been answered. A read at the end of a pipe has reached nothing. */
void mark_failing(int number, int has_reached) {
    struct stat told;
    if (!has_reached || shared->failing_count == 0 || fstat(number, &told) < 0 || S_ISSOCK(told.st_mode)) return;
    struct failing asked = told_by(&told, number);
    for (unsigned i = 0; i < shared->failing_count; i++) {
        struct failing *known = &shared->failing[i];
        if (known->device != asked.device || known->file != asked.file) continue;
        if (++known->reached == known->fails_at) say(" (fails)");
    }
}
