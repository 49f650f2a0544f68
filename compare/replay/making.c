/* Calls that make a file object, each by its words (open(2), memfd_create(2), eventfd(2), pipe2(2)). The parent is handed
 * the descriptors of what has no path, beside the reply, so that it sees when that goes. */
#include "replay.h"
#include <fcntl.h>
#include <string.h>

int made[MOST_MADE];
unsigned made_count;

/* A file under a path that nothing has. */
CALL(create) {
    char file[LINE + 1];
    if (!file_in(word[2], file)) return;
    say_count("fd", open(file, mode_in(word[3]) | open_flags_in(word[4]) | O_CREAT | O_EXCL, 0660));
}

/* Keeps a descriptor of what was made for the parent. */
static void keep_made(int number) {
    if (number >= 0) made[made_count++] = number;
}

CALL(memfd) {
    int number = make_file_in_memory(word[2]);
    keep_made(number);
    say_count("fd", number);
}

CALL(eventfd) {
    int number = make_counter(number_in(word[2]), strchr(word[3], 's') != NULL, open_flags_in(word[3]));
    keep_made(number);
    say_count("fd", number);
}

CALL(pipe) {
    int ends[2];
    if (make_pipe(ends, open_flags_in(word[2])) < 0) {
        say_error();
        return;
    }
    keep_made(ends[0]);
    keep_made(ends[1]);
    say("fds %d %d", ends[0], ends[1]);
}
