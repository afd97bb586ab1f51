// A source, a hub that broadcasts, and receivers: what the system's calls alone take of a transfer, to compare normd's nodes with. Nothing is
// looked at, kept or repaired.
//
//   chain RECEIVERS NUMBER     sends so many datagrams, and says in how many nanoseconds the slowest receiver had them all
//
// Each is a process, and they share how far each receiver is: so the source is a window ahead of the slowest one at most, and no receiver sends.
#define _GNU_SOURCE
#include <arpa/inet.h>
#include <signal.h>
#include <stdatomic.h>
#include <stdio.h>
#include <stdlib.h>
#include <string.h>
#include <sys/mman.h>
#include <sys/prctl.h>
#include <sys/socket.h>
#include <sys/wait.h>
#include <time.h>
#include <unistd.h>

enum {
    OCTETS = 1432,      // of a datagram: a symbol of 1400 and what stands before it
    ROOM = 1501,
    MOST = 16,          // receivers
    WINDOW = 768,       // datagrams that the source is ahead at most
    TOLD = 16,          // datagrams that a receiver tells together, while more come
    BUFFER = 4 << 20,
    PORT = 21000,
    SLEEP = 250,        // microseconds of a process to which nothing came
    SHORT = 20,         // microseconds of the source at the end of its window
    LIMIT = 20,         // seconds
};

static const char *const HERE = "127.0.0.1", *const EVERYONE = "127.255.255.255";

static struct shared {
    _Atomic long had[MOST];
    _Atomic int listening;
} *shared;

static long now(void) {
    struct timespec time;
    clock_gettime(CLOCK_MONOTONIC, &time);
    return time.tv_sec * 1000000000L + time.tv_nsec;
}

static void nap(long microseconds) {
    struct timespec time = {0, microseconds * 1000};
    nanosleep(&time, 0);
}

static void fail(const char *what) {
    perror(what);
    exit(1);
}

// A socket that is bound to the port of an address, or connected to it.
static int open_at(const char *where, int (*join)(int, const struct sockaddr *, socklen_t)) {
    struct sockaddr_in address = {.sin_family = AF_INET, .sin_port = htons(PORT)};
    int made = socket(AF_INET, SOCK_DGRAM | SOCK_NONBLOCK, 0), yes = 1, buffer = BUFFER;
    inet_pton(AF_INET, where, &address.sin_addr);
    setsockopt(made, SOL_SOCKET, SO_RCVBUF, &buffer, sizeof buffer);
    setsockopt(made, SOL_SOCKET, SO_BROADCAST, &yes, sizeof yes);
    setsockopt(made, SOL_SOCKET, SO_REUSEPORT, &yes, sizeof yes);
    if (join(made, (struct sockaddr *)&address, sizeof address)) fail("chain");
    return made;
}

static void receive(int at) {
    int own = open_at(EVERYONE, bind);
    char datagram[ROOM];
    shared->listening++;
    for (long had = 0;;) {
        int came = recv(own, datagram, sizeof datagram, 0) > 0;
        had += came;
        if (!came || had % TOLD == 0) shared->had[at] = had;
        if (!came) nap(SLEEP);
    }
}

static void broadcast(void) {
    int own = open_at(HERE, bind), out = open_at(EVERYONE, connect);
    char datagram[ROOM];
    shared->listening++;
    for (int came = 1;;) {
        ssize_t octets = recv(own, datagram, sizeof datagram, 0);
        if (octets > 0) send(out, datagram, octets, 0);
        else if (!came) nap(SLEEP);
        came = octets > 0;
    }
}

// How many datagrams the slowest receiver had.
static long least_had(int receivers) {
    long least = shared->had[0];
    for (int i = 1; i < receivers; i++)
        if (shared->had[i] < least) least = shared->had[i];
    return least;
}

// Waits until the slowest receiver had so many. Where one was lost it never has.
static void wait_for(int receivers, long number, long sleep, long end) {
    while (least_had(receivers) < number) {
        if (now() > end) {
            fputs("chain: a datagram was lost\n", stderr);
            exit(1);
        }
        nap(sleep);
    }
}

static void send_all(int receivers, long number) {
    int out = open_at(HERE, connect);
    char datagram[OCTETS] = {0};
    long began = now(), end = began + LIMIT * 1000000000L;
    for (long sent = 0, free = WINDOW; sent < number; sent++) {
        if (sent == free) {
            wait_for(receivers, sent - WINDOW + 1, SHORT, end);
            free = least_had(receivers) + WINDOW;
        }
        send(out, datagram, sizeof datagram, 0);
    }
    wait_for(receivers, number, SHORT, end);
    printf("%ld\n", now() - began);
}

// Runs this in a process of its own, which ends as this one does.
static void start(void (*role)(int), int at) {
    if (fork()) return;
    prctl(PR_SET_PDEATHSIG, SIGKILL);
    role(at);
    exit(0);
}

static void hub(int at) {
    (void)at;
    broadcast();
}

int main(int count, char **words) {
    int receivers = count > 2 ? atoi(words[1]) : 0;
    long number = count > 2 ? atol(words[2]) : 0;
    if (receivers < 1 || receivers > MOST || number < 1) return 2;
    shared = mmap(0, sizeof *shared, PROT_READ | PROT_WRITE, MAP_SHARED | MAP_ANONYMOUS, -1, 0);
    if (shared == MAP_FAILED) fail("chain");
    for (int i = 0; i < receivers; i++) start(receive, i);
    start(hub, 0);
    for (long end = now() + 1000000000L; shared->listening <= receivers; nap(SLEEP))
        if (now() > end) return 1;
    send_all(receivers, number);
    return 0;
}
