"""Which calls change nothing that the layer has, by their names; and which only make an opaque descriptor."""
from __future__ import annotations

import re

WITHOUT_EFFECT = frozenset("""
access faccessat faccessat2 fstat fstat64 newfstatat stat lstat statx statfs fstatfs getdents getdents64 readlink readlinkat
mmap mmap2 munmap mprotect mremap brk madvise fadvise64 readahead sync syncfs fsync fdatasync sync_file_range msync
flock fchmod fchmodat chmod fchown fchownat chown lchown utimensat futimesat utimes mkdir mkdirat mknod mknodat rmdir
symlink symlinkat getxattr lgetxattr fgetxattr setxattr lsetxattr fsetxattr listxattr flistxattr llistxattr fremovexattr
wait4 waitid waitpid kill tgkill tkill rt_sigqueueinfo rt_tgsigqueueinfo pidfd_send_signal getpid gettid getppid
getpgrp getpgid setpgid setsid getsid arch_prctl prctl set_tid_address set_robust_list get_robust_list rseq prlimit64 getrlimit
setrlimit rt_sigaction rt_sigprocmask rt_sigreturn sigaltstack futex sched_getaffinity sched_setaffinity sched_yield
nanosleep clock_nanosleep clock_gettime getrandom uname sysinfo umask getuid geteuid getgid getegid getresuid getresgid
getgroups getcwd alarm setitimer pause restart_syscall times getrusage getcpu membarrier
timerfd_settime timerfd_gettime inotify_add_watch inotify_rm_watch fanotify_mark truncate
quotactl_fd mount umount2 pivot_root swapon swapoff cachestat personality capget capset setpriority getpriority
""".split())

# A file that is mapped to be written to (mmap(2)).
MAPS_TO_WRITE = re.compile(r"PROT_[A-Z_|]*WRITE[A-Z_|]*, MAP_SHARED")


def has_no_effect(name: str, text: str) -> bool:
    """Whether a call changes nothing that the layer has, by its name and arguments."""
    return name in WITHOUT_EFFECT and not (name in ("mmap", "mmap2") and MAPS_TO_WRITE.search(text))


MAKES_OPAQUE = frozenset("""
epoll_create epoll_create1 timerfd_create signalfd signalfd4 inotify_init inotify_init1 fanotify_init userfaultfd pidfd_open
pidfd_getfd perf_event_open bpf memfd_secret mq_open open_tree fsopen fsmount fspick open_by_handle_at
io_uring_setup landlock_create_ruleset
""".split())

OUTSIDE_ERRORS = frozenset("""
EACCES EFAULT ENOTDIR ELOOP EROFS ENAMETOOLONG EMFILE ENFILE EINTR ENOMEM ENOBUFS ENOSPC EISDIR ENOSYS
EAFNOSUPPORT EPROTONOSUPPORT ESOCKTNOSUPPORT ERESTARTSYS ERESTARTNOINTR ERESTARTNOHAND ERESTART_RESTARTBLOCK
""".split())
