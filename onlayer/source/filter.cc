#include "filter.h"
#include <errno.h>
#include <fcntl.h>
#include <linux/audit.h>
#include <linux/close_range.h>
#include <linux/sched.h>
#include <linux/seccomp.h>
#include <signal.h>
#include <stdio.h>
#include <string.h>
#include <sys/ioctl.h>
#include <sys/mman.h>
#include <sys/prctl.h>
#include <sys/ptrace.h>
#include <sys/socket.h>
#include <sys/syscall.h>
#include <unistd.h>
#include "text.h"
#ifndef SECCOMP_IOCTL_NOTIF_SET_FLAGS
#define SECCOMP_IOCTL_NOTIF_SET_FLAGS SECCOMP_IOW(4, __u64)
#endif

static const u64 SYNC_WAKE_UP = 1;             // since Linux 6.6
static const unsigned OTHER_TABLE = 0x40000000;// the bit of x32 calls

// Calls that are always told. What they do to other files is then let through.
static const int TOLD[] = {
    SYS_read, SYS_write, SYS_readv, SYS_writev, SYS_sendto, SYS_sendmsg, SYS_recvfrom, SYS_recvmsg, SYS_accept, SYS_accept4,
    SYS_connect, SYS_bind, SYS_listen, SYS_shutdown, SYS_getsockname, SYS_getpeername, SYS_getsockopt, SYS_setsockopt, SYS_sendmmsg,
    SYS_recvmmsg, SYS_dup, SYS_dup2, SYS_dup3, SYS_close_range, SYS_sendfile, SYS_splice, SYS_preadv2, SYS_pwritev2, SYS_setuid,
    SYS_setgid, SYS_setreuid, SYS_setregid, SYS_setresuid, SYS_setresgid, SYS_setgroups, SYS_pidfd_getfd, SYS_io_uring_setup, SYS_io_submit,
    SYS_ptrace};

class Program {
    std::vector<sock_filter> code;

public:
    void load(unsigned at) { code.push_back(BPF_STMT(BPF_LD | BPF_W | BPF_ABS, at)); }
    void leave(unsigned action) { code.push_back(BPF_STMT(BPF_RET | BPF_K, action)); }
    void leave_if(unsigned value, unsigned action) {
        code.push_back(BPF_JUMP(BPF_JMP | BPF_JEQ | BPF_K, value, 0, 1));
        leave(action);
    }
    void leave_with_bits(unsigned bits, unsigned action) {
        code.push_back(BPF_JUMP(BPF_JMP | BPF_JSET | BPF_K, bits, 0, 1));
        leave(action);
    }
    // Of a call with one of these values in an argument; with others it is allowed.
    void leave_if_argument(unsigned call, unsigned argument, const std::vector<unsigned> &values, unsigned action) {
        code.push_back(BPF_JUMP(BPF_JMP | BPF_JEQ | BPF_K, call, 0, (unsigned char)(values.size() * 2 + 2)));
        load(offsetof(seccomp_data, args) + 8 * argument);
        for (unsigned value : values) leave_if(value, action);
        leave(SECCOMP_RET_ALLOW);
    }
    // Of a call with one of the bits in an argument, and none of those that excuse it.
    void leave_if_bits(unsigned call, unsigned argument, unsigned bits, unsigned excuse, unsigned action) {
        code.push_back(BPF_JUMP(BPF_JMP | BPF_JEQ | BPF_K, call, 0, 6));
        load(offsetof(seccomp_data, args) + 8 * argument);
        leave_with_bits(excuse, SECCOMP_RET_ALLOW);
        leave_with_bits(bits, action);
        leave(SECCOMP_RET_ALLOW);
    }
    // Of a call, but for those that onlayer has a task make, with UNTOLD as an argument that the kernel doesn't look at.
    void leave_unless_untold(unsigned call, unsigned argument, unsigned action) {
        code.push_back(BPF_JUMP(BPF_JMP | BPF_JEQ | BPF_K, call, 0, 6));
        load(offsetof(seccomp_data, args) + 8 * argument);
        code.push_back(BPF_JUMP(BPF_JMP | BPF_JEQ | BPF_K, (unsigned)UNTOLD, 0, 3));
        load(offsetof(seccomp_data, args) + 8 * argument + 4);
        code.push_back(BPF_JUMP(BPF_JMP | BPF_JEQ | BPF_K, (unsigned)(UNTOLD >> 32), 0, 1));
        leave(SECCOMP_RET_ALLOW);
        leave(action);
    }
    // The call's number is loaded behind it.
    void leave_of_others(unsigned action) {
        load(offsetof(seccomp_data, arch));
        leave_if(AUDIT_ARCH_I386, action);
        load(offsetof(seccomp_data, nr));
        leave_with_bits(OTHER_TABLE, action);
    }
    std::vector<sock_filter> end() {
        leave(SECCOMP_RET_ALLOW);
        return code;
    }
};

std::vector<sock_filter> watching_filter() {
    const unsigned tells = SECCOMP_RET_USER_NOTIF;
    Program program;
    program.leave_of_others(tells);
    for (int call : TOLD) program.leave_if(call, tells);
    program.leave_unless_untold(SYS_close, 1, tells);
    program.leave_unless_untold(SYS_seccomp, 3, tells);
    program.leave_if_argument(SYS_socket, 0, {AF_UNIX}, tells);
    program.leave_if_argument(SYS_socketpair, 0, {AF_UNIX}, tells);
    program.leave_if_argument(SYS_fcntl, 1, {F_DUPFD, F_DUPFD_CLOEXEC}, SECCOMP_RET_TRACE | COPIES);
    program.leave_if_argument(SYS_ioctl, 1, {FIONREAD, TIOCOUTQ}, tells);
    program.leave_if_argument(SYS_prctl, 0, {PR_SET_DUMPABLE, PR_GET_DUMPABLE}, tells);
    program.leave_if_bits(SYS_unshare, 0, CLONE_FILES, 0, tells);
    return program.end();
}

// Calls by which a process comes to sockets of the layer, or has to be told otherwise. A filter of the program's own might
// keep onlayer from installing its own later; a table of numbers that is shared has to be watched in all that share it.
static std::vector<sock_filter> short_filter() {
    const unsigned begins = SECCOMP_RET_TRACE | BEGINS;
    Program program;
    program.leave_of_others(SECCOMP_RET_TRACE | FOREIGN);
    for (int call : {SYS_pidfd_getfd, SYS_io_uring_setup, SYS_ptrace, SYS_seccomp, SYS_clone3}) program.leave_if(call, begins);
    program.leave_if_argument(SYS_socket, 0, {AF_UNIX}, begins);
    program.leave_if_argument(SYS_socketpair, 0, {AF_UNIX}, begins);
    program.leave_if_argument(SYS_prctl, 0, {PR_SET_DUMPABLE, PR_GET_DUMPABLE, PR_SET_SECCOMP}, begins);
    program.leave_if_bits(SYS_unshare, 0, CLONE_FILES, 0, begins);
    program.leave_if_bits(SYS_close_range, 2, CLOSE_RANGE_UNSHARE, 0, begins);
    program.leave_if_bits(SYS_clone, 0, CLONE_FILES, CLONE_THREAD, begins);
    return program.end();
}

// The listener's number, 0 for none, or -1.
static int install(std::vector<sock_filter> code, bool with_listener) {
    sock_fprog program = {(unsigned short)code.size(), code.data()};
    unsigned flags = with_listener ? SECCOMP_FILTER_FLAG_NEW_LISTENER : 0;
    int file = syscall(SYS_seccomp, SECCOMP_SET_MODE_FILTER, flags, &program);
    if (file >= 0 || errno != EACCES) return file;
    prctl(PR_SET_NO_NEW_PRIVS, 1, 0, 0, 0);
    return syscall(SYS_seccomp, SECCOMP_SET_MODE_FILTER, flags, &program);
}

struct Handshake {                             // shared with the child until it executes the command
    volatile int installed, may_go;
};

[[noreturn]] static void execute(const std::vector<char *> &command, Handshake &shake, bool with_listener) {
    sigset_t none;
    sigemptyset(&none);
    sigprocmask(SIG_SETMASK, &none, nullptr);
    signal(SIGPIPE, SIG_DFL);
    int file = install(with_listener ? watching_filter() : short_filter(), with_listener);
    shake.installed = file < 0 ? -2 : file;
    while (!shake.may_go) usleep(100);
    if (with_listener) close(file);
    execvp(command[0], command.data());
    int error = errno;
    dprintf(2, "onlayer: can't execute %s: %s\n", command[0], strerror(error));
    _exit(error == ENOENT ? 127 : 126);
}

void wake_at_once(int listener) { ioctl(listener, SECCOMP_IOCTL_NOTIF_SET_FLAGS, SYNC_WAKE_UP); }

int start_program(const std::vector<char *> &command, File *listener) {
    Handshake *shake = (Handshake *)mmap(nullptr, sizeof(Handshake), PROT_READ | PROT_WRITE, MAP_SHARED | MAP_ANONYMOUS, -1, 0);
    shake->installed = -1;
    shake->may_go = 0;
    int child = fork();
    if (!child) execute(command, *shake, listener);
    while (shake->installed == -1) usleep(100);
    if (shake->installed < 0) throw Fault("the filter can't be installed");
    if (listener) *listener = take_file(child, shake->installed);
    if (listener && !*listener) throw Fault(std::string("the filter's listener can't be taken: ") + strerror(errno));
    long wanted = PTRACE_O_TRACEFORK | PTRACE_O_TRACEVFORK | PTRACE_O_TRACECLONE | PTRACE_O_TRACEEXEC | PTRACE_O_TRACEEXIT |
                  PTRACE_O_EXITKILL | PTRACE_O_TRACESECCOMP | PTRACE_O_TRACESYSGOOD;
    if (ptrace(PTRACE_SEIZE, child, 0, wanted)) throw Fault(std::string("the program can't be traced: ") + strerror(errno));
    shake->may_go = 1;
    return child;
}
