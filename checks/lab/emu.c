/* Joins two interfaces frame by frame, as a cable that loses, delays, reorders and repeats what goes through it. Not every kernel has netem.

       emu MACHINE SWITCH LOST LATE REORDERED REPEATED BROADCASTS SEED

   Each way, of the UDP datagrams over IPv4, LOST in 100 are lost, REPEATED in 100 go twice, and REORDERED in 100 go 2 to 12 milliseconds later than
   others. Every frame goes LATE milliseconds after it came. Of the frames to all that come from MACHINE, the first BROADCASTS of each second pass; with
   0 all do. It runs until a signal ends it. Status 1: an interface cannot be opened. 2: refused words. */
#define _GNU_SOURCE
#include <arpa/inet.h>
#include <linux/if_packet.h>
#include <net/ethernet.h>
#include <net/if.h>
#include <netinet/in.h>
#include <poll.h>
#include <stdint.h>
#include <stdio.h>
#include <stdlib.h>
#include <string.h>
#include <sys/queue.h>
#include <sys/socket.h>
#include <time.h>

enum { MOST_OCTETS = 2048, MOST_WAITING = 1 << 16, AT_ONCE = 64, BUFFER = 32 << 20, MACHINE = 0, SWITCH = 1 };
/* Offsets in a frame: the headers of Ethernet, IPv4 without options, and UDP. */
enum { TYPE = 12, PROTOCOL = 23, UDP_CHECKSUM = 40, UDP_END = 42 };
static const int64_t MILLISECOND = 1000000, SECOND = 1000000000;

struct frame {
    int64_t due;
    int to;
    size_t length;
    TAILQ_ENTRY(frame) links;
    unsigned char octets[MOST_OCTETS];
};

static TAILQ_HEAD(queue, frame) waiting = TAILQ_HEAD_INITIALIZER(waiting); /* the earliest due first */
static int waiting_now;
static double lost, late, reordered, repeated;
static long broadcasts;

static int64_t now(void) {
    struct timespec time;
    clock_gettime(CLOCK_MONOTONIC, &time);
    return time.tv_sec * SECOND + time.tv_nsec;
}

static int drawn(double percent) { return percent > 0 && drand48() * 100 < percent; }

/* A socket that takes every frame that comes to an interface, and none that we send there. */
static int opened(const char *name) {
    int fd = socket(AF_PACKET, SOCK_RAW | SOCK_NONBLOCK, htons(ETH_P_ALL)), one = 1, buffer = BUFFER;
    struct sockaddr_ll address = {.sll_family = AF_PACKET, .sll_protocol = htons(ETH_P_ALL), .sll_ifindex = (int)if_nametoindex(name)};
    struct packet_mreq all = {.mr_ifindex = address.sll_ifindex, .mr_type = PACKET_MR_PROMISC};
    if (fd < 0 || !address.sll_ifindex || setsockopt(fd, SOL_PACKET, PACKET_IGNORE_OUTGOING, &one, sizeof one) ||
        setsockopt(fd, SOL_PACKET, PACKET_ADD_MEMBERSHIP, &all, sizeof all) || bind(fd, (struct sockaddr *)&address, sizeof address)) {
        perror(name);
        exit(1);
    }
    setsockopt(fd, SOL_SOCKET, SO_RCVBUFFORCE, &buffer, sizeof buffer);
    setsockopt(fd, SOL_SOCKET, SO_SNDBUFFORCE, &buffer, sizeof buffer);
    return fd;
}

static int is_udp(const unsigned char *octets, size_t length) {
    return length >= UDP_END && octets[TYPE] == 0x08 && octets[TYPE + 1] == 0x00 && octets[TYPE + 2] == 0x45 && octets[PROTOCOL] == IPPROTO_UDP;
}

/* Whether storm control lets a frame from the machine through. */
static int is_within(const unsigned char *octets) {
    static int64_t second;
    static long passed;
    if (!broadcasts || memcmp(octets, "\xff\xff\xff\xff\xff\xff", 6)) return 1;
    if (now() / SECOND != second) {
        second = now() / SECOND;
        passed = 0;
    }
    return passed++ < broadcasts;
}

/* Keeps a frame until it is due. What has no room is lost, as in any switch. */
static void keep(int64_t due, int to, const unsigned char *octets, size_t length) {
    struct frame *kept = waiting_now < MOST_WAITING ? malloc(sizeof *kept) : NULL, *earlier;
    if (!kept) return;
    kept->due = due;
    kept->to = to;
    kept->length = length;
    memcpy(kept->octets, octets, length);
    TAILQ_FOREACH_REVERSE(earlier, &waiting, queue, links) {
        if (earlier->due <= due) break;
    }
    if (earlier) TAILQ_INSERT_AFTER(&waiting, earlier, kept, links);
    else TAILQ_INSERT_HEAD(&waiting, kept, links);
    waiting_now++;
}

static void send_due(void) {
    struct frame *first;
    while ((first = TAILQ_FIRST(&waiting)) && first->due <= now()) {
        send(first->to, first->octets, first->length, 0);
        TAILQ_REMOVE(&waiting, first, links);
        free(first);
        waiting_now--;
    }
}

/* Passes on what came from one side. */
static void carry(int from, int to, int is_from_machine) {
    unsigned char octets[MOST_OCTETS];
    for (int taken = 0; taken < AT_ONCE; taken++) {
        ssize_t length = recv(from, octets, sizeof octets, MSG_TRUNC);
        if (length < 0) return;
        if (length < ETH_HLEN || length > MOST_OCTETS || (is_from_machine && !is_within(octets))) continue;
        int udp = is_udp(octets, length), copies = 1 + (udp && drawn(repeated));
        if (udp && drawn(lost)) continue;
        /* 0 is "no checksum": a virtual cable leaves it to be filled in by hardware that is not there. */
        if (udp) octets[UDP_CHECKSUM] = octets[UDP_CHECKSUM + 1] = 0;
        while (copies-- > 0) {
            int64_t more = udp && drawn(reordered) ? (int64_t)((2 + 10 * drand48()) * MILLISECOND) : 0;
            if (late > 0 || more) keep(now() + (int64_t)(late * MILLISECOND) + more, to, octets, length);
            else send(to, octets, length, 0);
        }
    }
}

int main(int count, char **words) {
    if (count != 9) {
        fprintf(stderr, "usage: emu MACHINE SWITCH LOST LATE REORDERED REPEATED BROADCASTS SEED\n");
        return 2;
    }
    int ends[] = {opened(words[1]), opened(words[2])};
    lost = atof(words[3]);
    late = atof(words[4]);
    reordered = atof(words[5]);
    repeated = atof(words[6]);
    broadcasts = atol(words[7]);
    srand48(atol(words[8]));
    for (;;) {
        struct pollfd ready[] = {{ends[MACHINE], POLLIN, 0}, {ends[SWITCH], POLLIN, 0}};
        struct frame *first = TAILQ_FIRST(&waiting);
        int64_t left = first ? first->due - now() : SECOND;
        struct timespec rest = {left > 0 ? left / SECOND : 0, left > 0 ? left % SECOND : 0};
        ppoll(ready, 2, &rest, NULL);
        carry(ends[MACHINE], ends[SWITCH], 1);
        carry(ends[SWITCH], ends[MACHINE], 0);
        send_due();
    }
}
