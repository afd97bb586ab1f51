// A bare copier of datagrams with a source and receivers, to compare the hub with: nothing is looked at, kept or repaired.
//
//   copier copy PORT N         receives at PORT, and sends each datagram to each of the N ports behind it
//   copier receive PORT        says how many came and when the last did, after a second without any
//   copier send PORT NUMBER    sends so many, a window ahead of what the copier received at most, and says when it began
//
// Moments are nanoseconds of the system's clock.
#include <netinet/in.h>
#include <stdio.h>
#include <stdlib.h>
#include <string.h>
#include <sys/socket.h>
#include <sys/time.h>
#include <time.h>

enum {
    OCTETS = 1432,      // of a datagram: a symbol of 1400 and what stands before it
    ROOM = 1500,
    MOST = 16,          // receivers
    WINDOW = 512,       // datagrams that the source is ahead at most
    TOLD = 64,          // datagrams of which the copier tells the source together
    BUFFER = 4 << 20,
};

static long long now(void) {
    struct timespec time;
    clock_gettime(CLOCK_MONOTONIC, &time);
    return time.tv_sec * 1000000000LL + time.tv_nsec;
}

static struct sockaddr_in address_of(int port) {
    struct sockaddr_in address = {.sin_family = AF_INET, .sin_port = htons(port), .sin_addr.s_addr = htonl(INADDR_LOOPBACK)};
    return address;
}

// A socket that is bound to a port, or connected to it.
static int open_at(int port, int (*join)(int, const struct sockaddr *, socklen_t)) {
    struct sockaddr_in address = address_of(port);
    int made = socket(AF_INET, SOCK_DGRAM, 0), buffer = BUFFER;
    setsockopt(made, SOL_SOCKET, SO_RCVBUF, &buffer, sizeof buffer);
    if (join(made, (struct sockaddr *)&address, sizeof address)) {
        perror("copier");
        exit(1);
    }
    return made;
}

static void wait_at_most(int from, int milliseconds) {
    struct timeval time = {milliseconds / 1000, milliseconds % 1000 * 1000};
    setsockopt(from, SOL_SOCKET, SO_RCVTIMEO, &time, sizeof time);
}

static void copy(int port, int number) {
    int own = open_at(port, bind), to[MOST];
    for (int i = 0; i < number; i++) to[i] = open_at(port + 1 + i, connect);
    for (unsigned count = 1;; count++) {
        char datagram[ROOM];
        struct sockaddr_in source;
        socklen_t length = sizeof source;
        ssize_t octets = recvfrom(own, datagram, sizeof datagram, 0, (struct sockaddr *)&source, &length);
        if (octets < 0) continue;
        for (int i = 0; i < number; i++) send(to[i], datagram, octets, MSG_DONTWAIT);
        if (count % TOLD == 0) sendto(own, "", 1, MSG_DONTWAIT, (struct sockaddr *)&source, length);
    }
}

static void receive(int port) {
    int own = open_at(port, bind), count = 0;
    long long last = 0;
    char datagram[ROOM];
    while (recv(own, datagram, sizeof datagram, 0) >= 0) {
        last = now();
        if (!count++) wait_at_most(own, 1000);
    }
    printf("%d %lld\n", count, last);
}

static void send_all(int port, int number) {
    int to = open_at(port, connect), told = 0;
    char datagram[OCTETS] = {0}, word;
    long long began = now();
    wait_at_most(to, 100);
    for (int sent = 0; sent < number; sent++) {
        // Where nothing is told in time, so many were lost before the copier.
        for (; sent - told >= WINDOW; told += TOLD) recv(to, &word, 1, 0);
        send(to, datagram, sizeof datagram, 0);
    }
    printf("%lld\n", began);
}

int main(int count, char **words) {
    const char *role = count > 2 ? words[1] : "";
    int port = count > 2 ? atoi(words[2]) : 0, number = count > 3 ? atoi(words[3]) : 0;
    if (!strcmp(role, "copy") && number > 0 && number <= MOST) copy(port, number);
    else if (!strcmp(role, "receive")) receive(port);
    else if (!strcmp(role, "send") && number > 0) send_all(port, number);
    else return 2;
    return 0;
}
