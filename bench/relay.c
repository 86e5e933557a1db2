/* A line of a given rate between a client and a server of the loopback.
 *
 *     relay PORT RATE    prints the port that it listens at, and relays one connection after the other to PORT
 *
 * In each direction RATE bytes pass in a second. A piece of at most 64 KiB is sent on once the line has had the time for it: from
 * when the piece before was due, or, if nothing was waiting then, from when the piece came. So the relay makes up for a sleep that
 * ends late, but not for time in which nothing was sent. */
#define _GNU_SOURCE
#include <arpa/inet.h>
#include <errno.h>
#include <netinet/tcp.h>
#include <stdio.h>
#include <stdlib.h>
#include <sys/prctl.h>
#include <sys/socket.h>
#include <sys/wait.h>
#include <time.h>
#include <unistd.h>

enum { PIECE = 65536, SECOND = 1000000000 };

/* Copies what comes at the given rate until the sender ends, and then ends the other side. */
static void copy(int from, int to, long rate) {
    static char piece[PIECE];
    struct timespec due;
    ssize_t count;
    clock_gettime(CLOCK_MONOTONIC, &due);
    for (;;) {
        if ((count = recv(from, piece, PIECE, MSG_DONTWAIT)) < 0 && errno == EAGAIN) {
            count = recv(from, piece, PIECE, 0);
            clock_gettime(CLOCK_MONOTONIC, &due);
        }
        if (count <= 0) break;
        long next = due.tv_nsec + (long)((double)count * SECOND / rate);
        due.tv_sec += next / SECOND, due.tv_nsec = next % SECOND;
        while (clock_nanosleep(CLOCK_MONOTONIC, TIMER_ABSTIME, &due, 0) == EINTR) continue;
        for (ssize_t at = 0, sent; at < count; at += sent)
            if ((sent = send(to, piece + at, count - at, MSG_NOSIGNAL)) < 0) return;
    }
    shutdown(to, SHUT_WR);
}

int main(int argc, char **words) {
    if (argc != 3 || atol(words[2]) < 1) return 1;
    struct sockaddr_in near = {.sin_family = AF_INET, .sin_addr.s_addr = htonl(INADDR_LOOPBACK)}, far = near;
    socklen_t length = sizeof near;
    int listener = socket(AF_INET, SOCK_STREAM, 0), client;
    far.sin_port = htons(atoi(words[1]));
    /* A sleep may end late by 50 microseconds otherwise. */
    if (prctl(PR_SET_TIMERSLACK, 1, 0, 0, 0)) return 1;
    if (bind(listener, (struct sockaddr *)&near, length) || listen(listener, 1)) return 1;
    if (getsockname(listener, (struct sockaddr *)&near, &length)) return 1;
    printf("%d\n", ntohs(near.sin_port));
    fflush(stdout);
    while ((client = accept(listener, 0, 0)) >= 0) {
        int server = socket(AF_INET, SOCK_STREAM, 0), on = 1;
        if (connect(server, (struct sockaddr *)&far, sizeof far)) return 1;
        setsockopt(client, IPPROTO_TCP, TCP_NODELAY, &on, sizeof on);
        setsockopt(server, IPPROTO_TCP, TCP_NODELAY, &on, sizeof on);
        pid_t other = fork();
        if (other < 0) return 1;
        copy(other ? server : client, other ? client : server, atol(words[2]));
        if (!other) return 0;
        waitpid(other, 0, 0);
        close(client);
        close(server);
    }
    return 1;
}
