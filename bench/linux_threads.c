/* The calls by seats of bench_calls over the machine's own AF_UNIX: nanoseconds, one line a kind of call, on standard
 * error. Each thread sends itself one byte over a pair of its own, and then two threads pass one to and fro. */
#define _GNU_SOURCE
#include <pthread.h>
#include <stdint.h>
#include <stdio.h>
#include <stdlib.h>
#include <sys/socket.h>
#include <sys/uio.h>
#include <time.h>

enum { TURNS = 20000, MOST_THREADS = 8 };

static void must(int granted) {
    if (!granted) {
        perror("linux_threads");
        exit(1);
    }
}

static uint64_t now(void) {
    struct timespec t;
    must(clock_gettime(CLOCK_MONOTONIC, &t) == 0);
    return (uint64_t)t.tv_sec * 1000000000u + (uint64_t)t.tv_nsec;
}

static void send_byte(int number) {
    char byte = 90;
    struct iovec data = {&byte, 1};
    struct msghdr message = {.msg_iov = &data, .msg_iovlen = 1};
    must(sendmsg(number, &message, 0) == 1);
}

static void receive_byte(int number) {
    char byte;
    struct iovec data = {&byte, 1};
    struct msghdr message = {.msg_iov = &data, .msg_iovlen = 1};
    must(recvmsg(number, &message, 0) == 1);
}

/* A thread that waits for nobody. */
static void *exchange(void *unused) {
    int pair[2];
    must(socketpair(AF_UNIX, SOCK_STREAM, 0, pair) == 0);
    for (int turn = 0; turn < TURNS; turn++) {
        send_byte(pair[0]);
        receive_byte(pair[1]);
    }
    return unused;
}

/* A thread that answers each byte by one. */
static void *serve(void *given) {
    int number = *(int *)given;
    for (int turn = 0; turn < TURNS; turn++) {
        receive_byte(number);
        send_byte(number);
    }
    return NULL;
}

static void ask(int number) {
    for (int turn = 0; turn < TURNS; turn++) {
        send_byte(number);
        receive_byte(number);
    }
}

/* The time of an exchange by so many threads at once, all exchanges together. */
static void measure_exchanges(int count) {
    pthread_t threads[MOST_THREADS];
    uint64_t start = now();
    for (int i = 0; i < count; i++) must(pthread_create(&threads[i], NULL, exchange, NULL) == 0);
    for (int i = 0; i < count; i++) must(pthread_join(threads[i], NULL) == 0);
    uint64_t time = (now() - start) / ((uint64_t)TURNS * (uint64_t)count);
    fprintf(stderr, "linux: send and receive, 1 byte, %d thread%s: %llu ns\n", count, count == 1 ? "" : "s",
            (unsigned long long)time);
}

/* The time of a byte's way to the other thread and back. */
static void measure_turns(void) {
    int pair[2];
    pthread_t server;
    must(socketpair(AF_UNIX, SOCK_STREAM, 0, pair) == 0);
    must(pthread_create(&server, NULL, serve, &pair[1]) == 0);
    uint64_t start = now();
    ask(pair[0]);
    uint64_t time = (now() - start) / TURNS;
    must(pthread_join(server, NULL) == 0);
    fprintf(stderr, "linux: a byte to and fro between two threads: %llu ns\n", (unsigned long long)time);
}

int main(void) {
    for (int count = 1; count <= MOST_THREADS; count *= 2) measure_exchanges(count);
    measure_turns();
    return 0;
}
