/* What the replay takes of Linux alone for its privileges: the capabilities by which a process changes its ids, and by which
 * it has a message tell another process (capabilities(7), unix(7)). */
#include "replay.h"
#include <linux/capability.h>
#include <linux/securebits.h>
#include <sys/prctl.h>
#include <sys/syscall.h>
#include <unistd.h>

static const unsigned PRIVILEGES[] = {CAP_SETUID, CAP_SETGID, CAP_SYS_ADMIN};
enum { PRIVILEGE_COUNT = sizeof PRIVILEGES / sizeof *PRIVILEGES };

/* Leaves this process all of its privileges or none. It has them behind an exec as well, by its ambient capabilities, and
 * user 0 gets none there. */
int set_privileges(int has_some) {
    struct __user_cap_header_struct head = {.version = _LINUX_CAPABILITY_VERSION_3};
    struct __user_cap_data_struct sets[_LINUX_CAPABILITY_U32S_3] = {{0}};
    unsigned wanted = 0;
    for (int i = 0; has_some && i < PRIVILEGE_COUNT; i++) wanted |= 1u << PRIVILEGES[i];
    sets[0] = (struct __user_cap_data_struct){.effective = wanted, .permitted = wanted, .inheritable = wanted};
    if (prctl(PR_SET_SECUREBITS, SECBIT_NOROOT | SECBIT_NOROOT_LOCKED) < 0 || syscall(SYS_capset, &head, sets) < 0) return -1;
    for (int i = 0; has_some && i < PRIVILEGE_COUNT; i++) {
        if (prctl(PR_CAP_AMBIENT, PR_CAP_AMBIENT_RAISE, PRIVILEGES[i], 0, 0) < 0) return -1;
    }
    return 0;
}

/* Whether this process may change its ids. */
int has_privileges(void) {
    struct __user_cap_header_struct head = {.version = _LINUX_CAPABILITY_VERSION_3};
    struct __user_cap_data_struct sets[_LINUX_CAPABILITY_U32S_3] = {{0}};
    if (syscall(SYS_capget, &head, sets) < 0) _exit(2);
    return (sets[0].effective & 1u << CAP_SETUID) != 0;
}
