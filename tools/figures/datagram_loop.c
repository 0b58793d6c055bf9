/* The calls that a writer of datagrams makes for each commit, without anything around them.

usage: datagram_loop PORT MESSAGES SECONDS FOLDER

It takes datagrams at 127.0.0.1:PORT for so many seconds, and appends each to the file `buf`. Behind the first one of a
turn it takes up to MESSAGES - 1 more that wait already. Then it syncs `buf`, and replaces the file `mark` by its length:
a new file of 8 bytes is synced, renamed, and the folder synced. It prints how many datagrams and bytes it took, and
tells what these calls cost: it closes no buffer and starts from nothing. */
#include <arpa/inet.h>
#include <fcntl.h>
#include <poll.h>
#include <stdint.h>
#include <stdio.h>
#include <stdlib.h>
#include <sys/socket.h>
#include <time.h>
#include <unistd.h>

static char datagram[65536];

static void check(int failed, const char *what) {
    if (failed) {
        perror(what);
        exit(1);
    }
}

static double now(void) {
    struct timespec at;
    clock_gettime(CLOCK_MONOTONIC, &at);
    return at.tv_sec + at.tv_nsec / 1e9;
}

static void publish(int folder, uint64_t length) {
    unsigned char text[8];
    for (int i = 0; i < 8; i++)
        text[i] = length >> (56 - 8 * i);
    unlink("mark.tmp");
    int mark = open("mark.tmp", O_WRONLY | O_CREAT | O_EXCL, 0644);
    check(mark < 0, "mark.tmp");
    check(write(mark, text, 8) != 8, "write");
    check(fsync(mark), "fsync");
    check(close(mark), "close");
    check(rename("mark.tmp", "mark"), "rename");
    check(fsync(folder), "fsync");
}

int main(int count, char **words) {
    if (count != 5)
        return 2;
    int most = atoi(words[2]);
    double until = now() + atof(words[3]);
    check(chdir(words[4]), "chdir");
    int folder = open(".", O_RDONLY | O_DIRECTORY);
    int buffer = open("buf", O_WRONLY | O_CREAT | O_TRUNC | O_APPEND, 0644);
    int door = socket(AF_INET, SOCK_DGRAM, 0);
    struct sockaddr_in at = {.sin_family = AF_INET, .sin_port = htons(atoi(words[1]))};
    at.sin_addr.s_addr = htonl(INADDR_LOOPBACK);
    check(folder < 0 || buffer < 0 || door < 0, "open");
    check(bind(door, (struct sockaddr *)&at, sizeof at), "bind");
    uint64_t taken = 0, bytes = 0;
    struct pollfd waits = {.fd = door, .events = POLLIN};
    while (now() < until) {
        if (poll(&waits, 1, 100) <= 0)
            continue;
        int few = 0;
        ssize_t size;
        while (few < most && (size = recv(door, datagram, sizeof datagram, MSG_DONTWAIT)) >= 0) {
            check(write(buffer, datagram, size) != size, "write");
            few++;
            bytes += size;
        }
        taken += few;
        if (few) {
            check(fsync(buffer), "fsync");
            publish(folder, bytes);
        }
    }
    printf("%llu %llu\n", (unsigned long long)taken, (unsigned long long)bytes);
    return 0;
}
