#include "tell.h"
#include <fcntl.h>
#include <stdio.h>
#include <unistd.h>

static int to = 2;

bool tell_to(const std::string &path) {
    to = open(path.c_str(), O_WRONLY | O_CREAT | O_TRUNC | O_CLOEXEC | O_APPEND, 0666);
    return to >= 0;
}
int told_where() { return to; }
void tell(const std::string &lines) { (void)!write(to, lines.data(), lines.size()); }
