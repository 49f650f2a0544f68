/* Times of calls on AF_UNIX sockets, and of reads and writes of other files by a process that has had none and by one that
 * has: "WHAT: TIME ns" a line, the lowest of several rounds. */
#define _GNU_SOURCE
#include <fcntl.h>
#include <stdio.h>
#include <stdlib.h>
#include <sys/mman.h>
#include <sys/socket.h>
#include <sys/wait.h>
#include <time.h>
#include <unistd.h>

enum { ROUNDS = 5, OF_FILES = 20 };            /* so many times as many calls of other files, which are short */
static int all_turns = 2000;

static double now(void) {
    struct timespec time;
    clock_gettime(CLOCK_MONOTONIC, &time);
    return time.tv_sec * 1e9 + time.tv_nsec;
}
static void must(int holds) {
    if (!holds) perror("bench/onlayer"), exit(1);
}

/* The lowest time of a turn. */
static void measure(const char *what, void (*turn)(int *), int *files, int turns) {
    double lowest = 1e18;
    for (int round = 0; round < ROUNDS; round++) {
        double begun = now();
        for (int i = 0; i < turns; i++) turn(files);
        double each = (now() - begun) / turns;
        if (each < lowest) lowest = each;
    }
    printf("%s: %.0f ns\n", what, lowest);
    fflush(stdout);
}

static void send_and_receive(int *files) {
    char byte = 'x';
    must(send(files[0], &byte, 1, 0) == 1);
    must(recv(files[1], &byte, 1, 0) == 1);
}
static void round_trip(int *files) {
    char byte = 'x';
    must(send(files[0], &byte, 1, 0) == 1);
    must(recv(files[0], &byte, 1, 0) == 1);
}
static void echo(int file) {
    char byte;
    while (recv(file, &byte, 1, 0) == 1) must(send(file, &byte, 1, 0) == 1);
}
static void read_other(int *files) {
    char byte;
    must(read(files[0], &byte, 1) == 1);
}
static void write_other(int *files) {
    char byte = 'x';
    must(write(files[1], &byte, 1) == 1);
}
/* Of files that are no sockets. */
static void measure_files(const char *reads, const char *writes) {
    int files[] = {open("/dev/zero", O_RDONLY), open("/dev/null", O_WRONLY)};
    must(files[0] >= 0 && files[1] >= 0);
    measure(reads, read_other, files, all_turns * OF_FILES);
    measure(writes, write_other, files, all_turns * OF_FILES);
    close(files[0]), close(files[1]);
}
static void pair_and_close(int *files) {
    must(!socketpair(AF_UNIX, SOCK_STREAM, 0, files));
    close(files[0]), close(files[1]);
}

int main(int count, char **words) {
    int files[2];
    if (count > 1) all_turns = atoi(words[1]);
    measure_files("read before any socket", "write before any socket");
    must(!socketpair(AF_UNIX, SOCK_STREAM, 0, files));
    measure("send and receive", send_and_receive, files, all_turns);
    pid_t child = fork();
    must(child >= 0);
    if (!child) close(files[0]), echo(files[1]), _exit(0);
    close(files[1]);
    measure("round trip of two processes", round_trip, files, all_turns);
    close(files[0]);
    waitpid(child, NULL, 0);
    measure("socketpair and two closes", pair_and_close, files, all_turns);
    measure_files("read behind sockets", "write behind sockets");
    return 0;
}
