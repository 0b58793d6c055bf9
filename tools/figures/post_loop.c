/* The calls on files and sockets that posts of one log cost, without anything around them.

usage: post_loop LOG MESSAGES

One process reads the log by 131,072 bytes into a post of 31 such pieces, sends the post to the other process over
127.0.0.1, a connection for each, and reads the reply. The other one takes the post to its end by 131,072 bytes,
appends each piece to a sink, replies, and commits behind MESSAGES posts: it syncs the sink, writes a mark of 8 bytes,
syncs that, renames it and syncs the folder. A sink of 64 MiB is followed by the next one. It prints the seconds up to
the reply to a last message, which is empty and comes behind the last commit. It parses, tests and compares nothing.
It tells what these calls cost, and is no bound: other calls may cost less. */
#include <arpa/inet.h>
#include <fcntl.h>
#include <netinet/in.h>
#include <stdint.h>
#include <stdio.h>
#include <stdlib.h>
#include <string.h>
#include <sys/socket.h>
#include <sys/wait.h>
#include <time.h>
#include <unistd.h>

#define PIECE 131072
#define POST (31 * PIECE)
#define CLOSED (64 << 20)

static char post[POST + PIECE];

static void check(int failed, const char *what) {
    if (failed) {
        perror(what);
        exit(1);
    }
}

static double now(void) {
    struct timespec at;
    clock_gettime(CLOCK_MONOTONIC, &at);
    return (double)at.tv_sec + (double)at.tv_nsec / 1e9;
}

static void put_all(int to, const char *bytes, size_t size) {
    while (size > 0) {
        ssize_t went = write(to, bytes, size);
        check(went <= 0, "write");
        bytes += went;
        size -= (size_t)went;
    }
}

static int connected(struct sockaddr_in address) {
    int peer = socket(AF_INET, SOCK_STREAM, 0);
    check(peer < 0 || connect(peer, (struct sockaddr *)&address, sizeof address) < 0, "connect");
    return peer;
}

/* Sends the bytes as one message, and waits for the end of the reply. */
static void send_post(struct sockaddr_in address, size_t size) {
    static char reply[PIECE];
    int peer = connected(address);
    put_all(peer, post, size);
    check(shutdown(peer, SHUT_WR) < 0, "shutdown");
    while (read(peer, reply, sizeof reply) > 0)
        ;
    close(peer);
}

static void send_log(const char *path, struct sockaddr_in address) {
    int log = open(path, O_RDONLY);
    check(log < 0, path);
    size_t size = 0;
    for (;;) {
        ssize_t came = read(log, post + size, PIECE);
        check(came < 0, "read");
        size += (size_t)came;
        if (size > 0 && (came == 0 || size >= POST)) {
            send_post(address, size);
            size = 0;
        }
        if (came == 0)
            break;
    }
    send_post(address, 0);
    exit(0);
}

static void sync_file(int file) { check(fsync(file) < 0, "fsync"); }

static void commit(int sink, int folder, uint64_t size) {
    sync_file(sink);
    int mark = open("post_mark.tmp", O_WRONLY | O_CREAT | O_EXCL, 0666);
    check(mark < 0 || write(mark, &size, 8) != 8, "mark");
    sync_file(mark);
    close(mark);
    check(rename("post_mark.tmp", "post_mark") < 0, "rename");
    sync_file(folder);
}

static int next_sink(int number, int folder) {
    char name[64];
    snprintf(name, sizeof name, "post_sink.%d", number);
    int sink = open(name, O_WRONLY | O_APPEND | O_CREAT | O_EXCL, 0666);
    check(sink < 0, name);
    sync_file(folder);
    return sink;
}

static size_t taken(int peer) {
    size_t size = 0;
    for (;;) {
        ssize_t came = read(peer, post + size, PIECE);
        check(came < 0, "read");
        if (came == 0)
            return size;
        size += (size_t)came;
    }
}

int main(int count, char **words) {
    check(count != 3 || atol(words[2]) < 1, "usage: post_loop LOG MESSAGES");
    const long messages = atol(words[2]);
    struct sockaddr_in address = {.sin_family = AF_INET, .sin_addr.s_addr = htonl(INADDR_LOOPBACK)};
    socklen_t length = sizeof address;
    int door = socket(AF_INET, SOCK_STREAM, 0), folder = open(".", O_RDONLY);
    check(bind(door, (struct sockaddr *)&address, sizeof address) < 0 || listen(door, 16) < 0, "door");
    check(getsockname(door, (struct sockaddr *)&address, &length) < 0, "door");
    double began = now();
    if (fork() == 0)
        send_log(words[1], address);
    static char reply[1600];
    int number = 1, sink = next_sink(number, folder);
    uint64_t size = 0, committed = 0;
    long posts = 0;
    for (size_t came = 1; came > 0;) {
        int peer = accept(door, NULL, NULL);
        check(peer < 0, "accept");
        came = taken(peer);
        for (size_t at = 0; at < came; at += PIECE)
            put_all(sink, post + at, came - at < PIECE ? came - at : PIECE);
        size += came;
        if (came == 0 && size > committed)
            commit(sink, folder, size);
        put_all(peer, reply, sizeof reply);
        close(peer);
        if (came > 0 && (++posts % messages == 0 || size >= CLOSED)) {
            commit(sink, folder, size);
            committed = size;
        }
        if (size >= CLOSED) {
            close(sink);
            sink = next_sink(++number, folder);
            size = committed = 0;
        }
    }
    printf("%.6f\n", now() - began);
    wait(NULL);
    return 0;
}
