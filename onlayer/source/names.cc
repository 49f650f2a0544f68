#include "names.h"
#include <errno.h>
#include <fcntl.h>
#include <linux/openat2.h>
#include <sys/stat.h>
#include <sys/sysmacros.h>
#include <sys/syscall.h>
#include <unistd.h>
#include <tuple>
#include "text.h"

bool FileKey::operator<(const FileKey &other) const {
    return std::tie(device, node, born, born_nanoseconds) < std::tie(other.device, other.node, other.born, other.born_nanoseconds);
}

FileKey key_of(int file) {
    struct statx found;
    if (statx(file, "", AT_EMPTY_PATH, STATX_INO | STATX_BTIME, &found)) return {};
    FileKey key;
    key.device = makedev(found.stx_dev_major, found.stx_dev_minor);
    key.node = found.stx_ino;
    if (found.stx_mask & STATX_BTIME) key.born = found.stx_btime.tv_sec, key.born_nanoseconds = found.stx_btime.tv_nsec;
    return key;
}
bool is_socket_file(int file) {
    struct stat found;
    return !fstat(file, &found) && S_ISSOCK(found.st_mode);
}

bool has_own_root(int task) {
    struct stat root, ours;
    return !stat(proc_path(task, "root/").c_str(), &root) && !stat("/", &ours) && (root.st_ino != ours.st_ino || root.st_dev != ours.st_dev);
}
File open_working_folder(int task) { return File(open(proc_path(task, "cwd").c_str(), O_PATH | O_CLOEXEC)); }

static std::string read_link(const std::string &path) {
    char name[4096];
    ssize_t n = readlink(path.c_str(), name, sizeof name);
    return n > 0 ? std::string(name, n) : "";
}
static File open_in_root(int task, std::string path) {
    File root(open(proc_path(task, "root").c_str(), O_PATH | O_CLOEXEC));
    if (path[0] != '/') {
        std::string folder = read_link(proc_path(task, "cwd")), top = read_link(proc_path(task, "root"));
        if (folder.compare(0, top.size(), top) == 0) folder.erase(0, top.size());
        path = folder + "/" + path;
    }
    open_how how = {O_PATH | O_CLOEXEC, 0, RESOLVE_IN_ROOT};
    return File((int)syscall(SYS_openat2, root.get(), path.c_str(), &how, sizeof how));
}
File open_path(int task, const std::string &path) {
    if (has_own_root(task)) return open_in_root(task, path);
    if (path[0] == '/') return File(open(path.c_str(), O_PATH | O_CLOEXEC));
    File folder = open_working_folder(task);
    return File(openat(folder.get(), path.c_str(), O_PATH | O_CLOEXEC));
}
File open_parent(int task, const std::string &path) {
    size_t slash = path.rfind('/');
    return open_path(task, slash == std::string::npos ? "." : slash == 0 ? "/" : path.substr(0, slash));
}

Description *Names::socket_of(const std::string &word) const {
    auto found = bound.find(word);
    return found == bound.end() ? nullptr : found->second;
}
std::string Names::word_of(const FileKey &key) const {
    auto found = by_file.find(key);
    return found == by_file.end() ? "" : found->second;
}
std::string Names::spelling(const std::string &word) const {
    auto found = spelled.find(word);
    return found == spelled.end() ? name_bytes(word.substr(2)) : found->second;
}
bool Names::is_still_there(const std::string &word) const {
    auto found = places.find(word);
    if (found == places.end()) return false;
    File file(open(found->second.path.c_str(), O_PATH | O_CLOEXEC | O_NOFOLLOW));
    return file && key_of(file.get()) == found->second.key;
}
void Names::place(const std::string &word, int file) {
    FileKey key = key_of(file);
    places[word] = {key, read_link("/proc/self/fd/" + text(file))};
    by_file[key] = word;
}
void Names::forget(const std::string &word) {
    auto found = places.find(word);
    if (found != places.end()) by_file.erase(found->second.key), places.erase(found);
    bound.erase(word);
    spelled.erase(word);
}
void Names::lose_socket(const std::string &word, Description *socket) {
    auto found = bound.find(word);
    if (found == bound.end() || found->second != socket) return;
    if (word[0] == 'a') bound.erase(found);
    else found->second = nullptr;
}
