// Linux's interfaces to another process: its memory, its open files, and what /proc says of it.
#pragma once
#include <stddef.h>
#include <sys/types.h>
#include <sys/uio.h>
#include <string>
#include <utility>
#include <vector>

typedef unsigned long long u64;

// A number of onlayer's own, closed with its owner.
class File {
    int number = -1;

public:
    File() = default;
    explicit File(int opened) : number(opened) {}
    File(File &&other) noexcept : number(std::exchange(other.number, -1)) {}
    File &operator=(File &&other) noexcept {
        if (this != &other) reset(std::exchange(other.number, -1));
        return *this;
    }
    ~File() { reset(); }
    void reset(int opened = -1);
    int get() const { return number; }
    explicit operator bool() const { return number >= 0; }
};

bool read_memory(int task, u64 from, void *to, size_t n);
bool write_memory(int task, u64 to, const void *from, size_t n);
template <class T> bool read_value(int task, u64 from, T &to) { return read_memory(task, from, &to, sizeof to); }
template <class T> bool write_value(int task, u64 to, const T &from) { return write_memory(task, to, &from, sizeof from); }

typedef std::vector<iovec> Parts;              // of a buffer in the program's memory
size_t room_of(const Parts &parts);
// At most n bytes of the parts, behind the first `skip`; false where they can't be read.
bool gather(int task, const Parts &parts, size_t skip, size_t n, std::string &out);
bool scatter(int task, const Parts &parts, const std::string &data);

bool same_file(int task, int number, int ours);
bool same_table(int one, int other);
File take_file(int pid, int number);           // a copy of an open file of another process

struct Status {                                // of /proc/TASK/status
    int group = 0;                             // the process that the task is of
    uid_t effective_user = 0, file_user = 0;
    gid_t effective_group = 0, file_group = 0;
    std::vector<gid_t> groups;
    mode_t mask = 022;
    u64 blocked = 0, caught = 0;               // signals
};
Status status_of(int task);
std::string program_of(int task);
std::string link_of(int pid, int number);      // what /proc says that a number leads to
int pid_behind(int task, int pidfd);           // -1 where the number is no pidfd
std::string proc_path(int task, const std::string &rest);
double now();

// While it lives, files are looked up with the rights of a program's task, where onlayer is the superuser.
class ActingAs {
    std::vector<gid_t> own_groups;
    bool acts = false;

public:
    explicit ActingAs(const Status &status);
    explicit ActingAs(int task);
    ~ActingAs();
    ActingAs(const ActingAs &) = delete;
};
