#include "kernel.h"
#include <errno.h>
#include <grp.h>
#include <linux/kcmp.h>
#include <stdio.h>
#include <string.h>
#include <sys/fsuid.h>
#include <sys/syscall.h>
#include <time.h>
#include <unistd.h>
#include <algorithm>
#include <sstream>
#include <memory>

static const size_t MOST_MOVED = 0x7ffff000;   // bytes of one call of Linux's

void File::reset(int opened) {
    if (number >= 0) close(number);
    number = opened;
}

bool read_memory(int task, u64 from, void *to, size_t n) {
    iovec local = {to, n}, remote = {(void *)from, n};
    return n == 0 || process_vm_readv(task, &local, 1, &remote, 1, 0) == (ssize_t)n;
}
bool write_memory(int task, u64 to, const void *from, size_t n) {
    iovec local = {(void *)from, n}, remote = {(void *)to, n};
    return n == 0 || process_vm_writev(task, &local, 1, &remote, 1, 0) == (ssize_t)n;
}

size_t room_of(const Parts &parts) {
    size_t all = 0;
    for (auto &part : parts) all = std::min(all + part.iov_len, MOST_MOVED);
    return all;
}
bool gather(int task, const Parts &parts, size_t skip, size_t n, std::string &out) {
    out.clear();
    for (auto &part : parts) {
        if (skip >= part.iov_len) {
            skip -= part.iov_len;
            continue;
        }
        size_t some = std::min(part.iov_len - skip, n - out.size()), at = out.size();
        out.resize(at + some);
        if (!read_memory(task, (u64)part.iov_base + skip, &out[at], some)) return false;
        skip = 0;
        if (out.size() == n) break;
    }
    return true;
}
bool scatter(int task, const Parts &parts, const std::string &data) {
    size_t at = 0;
    for (auto &part : parts) {
        size_t n = std::min(part.iov_len, data.size() - at);
        if (!write_memory(task, (u64)part.iov_base, data.data() + at, n)) return false;
        at += n;
    }
    return true;
}

bool same_file(int task, int number, int ours) {
    errno = 0;
    return syscall(SYS_kcmp, getpid(), task, KCMP_FILE, (long)ours, (long)number) == 0;
}
bool same_table(int one, int other) { return syscall(SYS_kcmp, one, other, KCMP_FILES, 0, 0) == 0; }
File take_file(int pid, int number) {
    File process((int)syscall(SYS_pidfd_open, pid, 0));
    return File(process ? (int)syscall(SYS_pidfd_getfd, process.get(), number, 0) : -1);
}

std::string proc_path(int task, const std::string &rest) { return "/proc/" + std::to_string(task) + "/" + rest; }

typedef std::unique_ptr<FILE, int (*)(FILE *)> Stream;

static void read_groups(const char *words, std::vector<gid_t> &groups) {
    std::istringstream in(words);
    for (gid_t group; in >> group;) groups.push_back(group);
}
Status status_of(int task) {
    Status status;
    Stream file(fopen(proc_path(task, "status").c_str(), "re"), fclose);
    char line[4096];
    while (file && fgets(line, sizeof line, file.get())) {
        sscanf(line, "Tgid: %d", &status.group);
        sscanf(line, "Uid: %*u %u %*u %u", &status.effective_user, &status.file_user);
        sscanf(line, "Gid: %*u %u %*u %u", &status.effective_group, &status.file_group);
        sscanf(line, "Umask: %o", (unsigned *)&status.mask);
        sscanf(line, "SigBlk: %llx", &status.blocked);
        sscanf(line, "SigCgt: %llx", &status.caught);
        if (!strncmp(line, "Groups:", 7)) read_groups(line + 7, status.groups);
    }
    return status;
}
std::string program_of(int task) {
    char name[64] = "?";
    Stream file(fopen(proc_path(task, "comm").c_str(), "re"), fclose);
    if (file && fgets(name, sizeof name, file.get())) name[strcspn(name, "\n")] = 0;
    return name;
}
std::string link_of(int pid, int number) {
    char name[4096];
    ssize_t n = readlink(proc_path(pid, "fd/" + std::to_string(number)).c_str(), name, sizeof name);
    return n > 0 ? std::string(name, n) : "?";
}
int pid_behind(int task, int pidfd) {
    int pid = -1;
    char line[256];
    Stream file(fopen(proc_path(task, "fdinfo/" + std::to_string(pidfd)).c_str(), "re"), fclose);
    while (file && fgets(line, sizeof line, file.get())) sscanf(line, "Pid: %d", &pid);
    return pid;
}

double now() {
    timespec time;
    clock_gettime(CLOCK_MONOTONIC, &time);
    return time.tv_sec + time.tv_nsec / 1e9;
}

ActingAs::ActingAs(const Status &status) {
    if (geteuid() != 0) return;
    acts = true;
    own_groups.resize(getgroups(0, nullptr));
    if (getgroups(own_groups.size(), own_groups.data()) < 0) own_groups.clear();
    setgroups(status.groups.size(), status.groups.data());
    setfsgid(status.file_group);
    setfsuid(status.file_user);
}
ActingAs::ActingAs(int task) : ActingAs(geteuid() == 0 ? status_of(task) : Status()) {}
ActingAs::~ActingAs() {
    if (!acts) return;
    setfsuid(0);
    setfsgid(getegid());
    setgroups(own_groups.size(), own_groups.data());
}
