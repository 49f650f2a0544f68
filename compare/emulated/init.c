/* The first program of an emulated machine: it runs the replay on each script of a folder, and tells what it printed on
 * the second serial line, between lines that begin with `@`. Then the machine is turned off. */
#define _GNU_SOURCE
#include <dirent.h>
#include <fcntl.h>
#include <limits.h>
#include <stdio.h>
#include <stdlib.h>
#include <string.h>
#include <sys/mount.h>
#include <sys/reboot.h>
#include <sys/resource.h>
#include <sys/stat.h>
#include <sys/utsname.h>
#include <sys/wait.h>
#include <termios.h>
#include <unistd.h>

enum { DESCRIPTORS = 20000, MOST_SCRIPTS = 1 << 16 };

static char USER[] = "1000000001", REPLAY[] = "/linux_replay";

static void fail(const char *what) {
    perror(what);
    sleep(1);
    reboot(RB_AUTOBOOT);
}

/* What there is on a machine that is up. */
static void prepare(void) {
    struct rlimit many = {DESCRIPTORS, DESCRIPTORS};
    mkdir("/proc", 0755);
    mkdir("/tmp", 0777);
    mkdir("/dev", 0755);
    if (mount("proc", "/proc", "proc", 0, NULL) < 0) fail("/proc");
    if (mount("tmp", "/tmp", "tmpfs", 0, "mode=1777") < 0) fail("/tmp");
    if (mount("dev", "/dev", "devtmpfs", 0, NULL) < 0) fail("/dev");
    if (setrlimit(RLIMIT_NOFILE, &many) < 0) fail("RLIMIT_NOFILE");
}

/* The second serial line, on which bytes go as they are. */
static int open_line(void) {
    struct termios plain;
    int line = open("/dev/ttyS1", O_RDWR | O_NOCTTY);
    if (line < 0 || tcgetattr(line, &plain) < 0) fail("/dev/ttyS1");
    cfmakeraw(&plain);
    if (tcsetattr(line, TCSANOW, &plain) < 0) fail("/dev/ttyS1");
    return line;
}

/* Runs the replay, and tells its status behind what it printed. */
static void run(int line, const char *name, char *word) {
    int status = 0;
    dprintf(line, "@begin %s\n", name);
    pid_t child = fork();
    if (child < 0) fail("fork");
    if (child == 0) {
        char *words[] = {REPLAY, (char[]){"--user"}, USER, word, NULL};
        dup2(line, 1);
        dup2(line, 2);
        close(line);
        execv(REPLAY, words);
        _exit(127);
    }
    waitpid(child, &status, 0);
    dprintf(line, "@end %d\n", WIFEXITED(status) ? WEXITSTATUS(status) : 128);
}

static int is_script(const struct dirent *entry) { return entry->d_name[0] != '.'; }

int main(void) {
    struct dirent **entries;
    struct utsname system;
    prepare();
    int line = open_line();
    if (uname(&system) < 0) fail("uname");
    dprintf(line, "@kernel %s\n", system.release);
    run(line, "--machine", (char[]){"--machine"});
    int count = scandir("/scripts", &entries, is_script, alphasort);
    for (int i = 0; i < count; i++) {
        char path[PATH_MAX];
        snprintf(path, sizeof path, "/scripts/%s", entries[i]->d_name);
        run(line, entries[i]->d_name, path);
    }
    dprintf(line, "@off\n");
    tcdrain(line);
    sync();
    reboot(RB_AUTOBOOT);
    return 0;
}
