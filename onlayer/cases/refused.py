"""Programs that onlayer has to refuse, in C++."""

# Calls on a datagram socket that onlayer refuses, the error, what its log has to say.
OF_A_DATAGRAM = [
    ("ioctl(e[0], TIOCOUTQ, &on)", "EOPNOTSUPP", "(TIOCOUTQ)"),
    ("setsockopt(e[0], SOL_SOCKET, SO_TIMESTAMP, &on, sizeof on)", "ENOPROTOOPT", "(SO_TIMESTAMP)"),
    ("setsockopt(e[0], SOL_SOCKET, SO_ATTACH_FILTER, &filter, sizeof filter)", "ENOPROTOOPT", "(SO_ATTACH_FILTER)"),
    ("setsockopt(e[0], SOL_SOCKET, 76, &on, sizeof on)", "ENOPROTOOPT", "(SO_PASSPIDFD)"),
    ("setsockopt(e[0], SOL_SOCKET, 83, &off, sizeof off)", "ENOPROTOOPT", "(SO_PASSRIGHTS)"),
    ("setsockopt(e[0], SOL_SOCKET, 84, &on, sizeof on)", "ENOPROTOOPT", "(SO_INQ)"),
    ("setsockopt(e[0], SOL_SOCKET, SO_PEEK_OFF, &off, sizeof off)", "EOPNOTSUPP", "(SO_PEEK_OFF)"),
]

# Programs that onlayer refuses: the source, what its log has to say, its status.
REFUSED = [
    ("int main() { int n; asm volatile(\"int $0x80\" : \"=a\"(n) : \"a\"(20)); return 0; }", "another architecture than x86-64", 128 + 9),
    ("#include <sys/syscall.h>\n#include <unistd.h>\n#include <errno.h>\nint main() { return syscall(SYS_io_uring_setup, 4, 0) == -1 && errno == ENOSYS ? 7 : 1; }",
     "refused: io_uring_setup", 7),
    ("#include <sys/ptrace.h>\n#include <errno.h>\nint main() { return ptrace(PTRACE_TRACEME, 0, 0, 0) == -1 && errno == EPERM ? 7 : 1; }", "refused: ptrace", 7),
    ("#include <sys/socket.h>\n#include <errno.h>\nint main() { int e[2]; socketpair(1, 1, 0, e); return send(e[0], \"x\", 1, MSG_OOB) == -1 && errno == EOPNOTSUPP ? 7 : 1; }",
     "refused: sendto", 7),
    ("#include <errno.h>\n#include <sys/socket.h>\n#include <sys/syscall.h>\n#include <unistd.h>\n"
     "int main() { int e[2], p; socketpair(1, 1, 0, e); pipe(e); p = syscall(SYS_pidfd_open, getpid(), 0);\n"
     "             if (syscall(SYS_pidfd_getfd, p, e[0], 0) < 0) return 1;\n"
     "             return syscall(SYS_pidfd_getfd, p, e[0] - 1, 0) == -1 && errno == EPERM ? 7 : 2; }", "refused: pidfd_getfd", 7),
    ("#include <errno.h>\n#include <linux/aio_abi.h>\n#include <sys/socket.h>\n#include <sys/syscall.h>\n#include <unistd.h>\n"
     "int main() { int e[2]; char byte; socketpair(1, 1, 0, e); aio_context_t all = 0; if (syscall(SYS_io_setup, 1, &all)) return 1;\n"
     "             iocb one = {}, *list[] = {&one}; one.aio_fildes = e[0], one.aio_buf = (__u64)&byte, one.aio_nbytes = 1;\n"
     "             return syscall(SYS_io_submit, all, 1, list) == -1 && errno == EINVAL ? 7 : 2; }", "refused: io_submit", 7),
    ("#include <errno.h>\n#include <linux/filter.h>\n#include <linux/seccomp.h>\n#include <sys/prctl.h>\n#include <sys/syscall.h>\n#include <unistd.h>\n"
     "int main() { sock_filter allow[] = {{6, 0, 0, 0x7fff0000}}; sock_fprog program = {1, allow}; prctl(PR_SET_NO_NEW_PRIVS, 1, 0, 0, 0);\n"
     "             if (syscall(SYS_seccomp, SECCOMP_SET_MODE_FILTER, 0, &program)) return 1;\n"
     "             return syscall(SYS_seccomp, SECCOMP_SET_MODE_FILTER, SECCOMP_FILTER_FLAG_NEW_LISTENER, &program) == -1 && errno == EBUSY ? 7 : 2; }",
     "refused: seccomp", 7),
    *[("#include <errno.h>\n#include <linux/filter.h>\n#include <sys/ioctl.h>\n#include <sys/socket.h>\n"
       "int main() { int e[2], on = 1, off = 0; socketpair(1, 2, 0, e); sock_filter all[] = {{6, 0, 0, 0x7fff0000}}; sock_fprog filter = {1, all};\n"
       f"             (void)on, (void)off, (void)filter; return {call} == -1 && errno == {error} ? 7 : 1; }}", words, 7)
      for call, error, words in OF_A_DATAGRAM],
]
