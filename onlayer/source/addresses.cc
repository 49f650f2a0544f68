#include <errno.h>
#include <fcntl.h>
#include <string.h>
#include <sys/syscall.h>
#include <sys/un.h>
#include <unistd.h>
#include <algorithm>
#include <fstream>
#include "calls.h"
#include "text.h"

static const char NOBODY[] = "a:onlayer%20nobody";    // no such socket: the layer answers ECONNREFUSED, in its order of errors

static const size_t LONGEST = 107;             // bytes of a path in the layer

void forget_path(World &world, Process &process, const std::string &word) {
    world.say(process, "unlink " + word);
    world.names.forget(word);
}

// Whether a socket outside of the layer has an abstract name. The list shows a NUL as `@`.
static bool is_abstract_outside(const Call &call, const std::string &name) {
    std::string shown = "@" + name, line;
    std::replace(shown.begin(), shown.end(), '\0', '@');
    std::ifstream list(proc_path(call.task, "net/unix"));
    while (std::getline(list, line))
        if (line.size() > shown.size() && line.compare(line.size() - shown.size() - 1, std::string::npos, " " + shown) == 0) return true;
    return false;
}

static Address abstract_address(World &world, Call &call, const std::string &name, bool binds) {
    Address out;
    out.word = "a:" + name_word(name);
    if (!binds && !world.names.has(out.word) && is_abstract_outside(call, name)) out.is_outside = true;
    return out;
}

// No such file: a name that the layer answers ENOENT for.
static std::string missing_path(World &world, Call &call, const std::string &path) {
    std::string word = "p:" + name_word(path);
    bool is_too_long = path.size() > LONGEST;  // a path of Linux's that the layer has no word for
    if (!world.names.has(word) && !is_too_long) return word;
    if (is_too_long || world.names.is_still_there(word)) return "p:~none";    // or another folder's path of this spelling
    forget_path(world, *call.process, word);
    return word;
}

static Address path_address(World &world, Call &call, const std::string &path) {
    Address out;
    out.sun_path = path;
    ActingAs acting(call.task);
    File file = open_path(call.task, path);
    if (!file && errno == ENOENT) {
        out.word = missing_path(world, call, path);
        return out;
    }
    if (!file) {
        out.error = errno;
        return out;
    }
    bool is_socket = is_socket_file(file.get());
    out.word = world.names.word_of(key_of(file.get()));
    if (out.word.empty()) out.word = is_socket ? "-" : NOBODY, out.is_outside = is_socket;
    else if (faccessat(file.get(), "", W_OK, AT_EMPTY_PATH | AT_EACCESS)) out.error = errno;
    return out;
}

Address read_address(World &world, Call &call, u64 at, long length, bool binds) {
    Address out;
    char name[sizeof(sockaddr_un) + 1] = {};
    if (length < (long)sizeof(sa_family_t) || length > (long)sizeof(sockaddr_un)) out.error = EINVAL;
    else if (!read_memory(call.task, at, name, length)) out.error = EFAULT;
    sa_family_t family;
    memcpy(&family, name, sizeof family);
    if (out.error) return out;
    bool is_bare = length == sizeof family;
    bool is_unnamed = family == AF_UNIX ? is_bare && call.nr() != SYS_connect : family == AF_UNSPEC && !binds;
    if (is_unnamed) {
        out.word = "u";
        return out;
    }
    if (family != AF_UNIX || is_bare) {
        out.error = EINVAL;
        return out;
    }
    if (!name[2]) return abstract_address(world, call, std::string(name + 3, length - 3), binds);
    std::string path(name + 2, strnlen(name + 2, length - 2));
    if (!binds) return path_address(world, call, path);
    out.sun_path = path;
    return out;
}

std::string address_bytes(const World &world, const std::string &word) {
    if (word == "-") return "";
    sa_family_t family = AF_UNIX;
    std::string bytes((char *)&family, sizeof family);
    if (word == "u") return bytes;
    if (word[0] == 'a') return bytes + std::string(1, 0) + name_bytes(word.substr(2));
    std::string path = world.names.spelling(word);
    return bytes + path + std::string(path.empty() || path[0] ? 1 : 0, 0);    // an abstract name outside has none at its end
}

bool write_address(const Call &call, u64 to, u64 length_at, const std::string &bytes) {
    if (!to || !length_at) return true;
    unsigned room = 0, length = bytes.size();
    return read_value(call.task, length_at, room) && write_memory(call.task, to, bytes.data(), std::min(room, length)) &&
           write_value(call.task, length_at, length);
}
