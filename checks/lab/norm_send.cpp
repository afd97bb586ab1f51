/* Sends files with libnorm, and says which receivers acknowledged them.

       norm_send INTERFACE NODES RATE FILE..

   NODES are the receivers' numbers with commas between them, RATE is in bits a second. A file gets the name under which it is given.
   Status 0: all acknowledged. 1: it cannot begin. 2: refused words. 4: not all acknowledged. */
#include <normApi.h>
#include <stdio.h>
#include <stdlib.h>
#include <string.h>
#include <sys/resource.h>
#include <time.h>
#include <unistd.h>

enum { PORT = 6003, OWN_NODE = 100, SYMBOL = 1400, BLOCK = 64, PARITY = 32, BUFFER = 64 << 20, SOCKET_BUFFER = 4 << 20, MOST_OBJECTS = 100000 };
static const char GROUP[] = "224.1.2.3";
/* In seconds; it measures others. With its own 0.5 repairs come later. */
static const double FIRST_ROUND_TRIP = 0.05;
/* How often it asks for what is not acknowledged. With its own 20 it gives a machine up that is stopped for 10 seconds. */
enum { ASKS = 120 };

/* Raises the limit of open files: libnorm has each enqueued file open. */
static void allow_files() {
    struct rlimit files;
    if (getrlimit(RLIMIT_NOFILE, &files)) return;
    files.rlim_cur = files.rlim_max;
    setrlimit(RLIMIT_NOFILE, &files);
}

/* Enqueues a file, and waits for room if there is none. */
static NormObjectHandle enqueued(NormInstanceHandle instance, NormSessionHandle session, const char *file) {
    NormObjectHandle object;
    NormEvent event;
    if (access(file, R_OK)) {
        perror(file);
        exit(1);
    }
    while ((object = NormFileEnqueue(session, file, file, strlen(file))) == NORM_OBJECT_INVALID) {
        if (!NormGetNextEvent(instance, &event, true)) exit(1);
    }
    return object;
}

static int told(NormSessionHandle session) {
    NormNodeId node = NORM_NODE_NONE;
    NormAckingStatus status;
    int all = 1;
    while (NormGetNextAckingNode(session, &node, &status)) {
        if (status == NORM_ACK_SUCCESS) continue;
        printf("node %u did not acknowledge\n", (unsigned)node);
        all = 0;
    }
    if (all) printf("all acknowledged\n");
    return all;
}

int main(int count, char **words) {
    if (count < 5) {
        fprintf(stderr, "usage: norm_send INTERFACE NODES RATE FILE..\n");
        return 2;
    }
    allow_files();
    NormInstanceHandle instance = NormCreateInstance(false);
    NormSessionHandle session = NormCreateSession(instance, GROUP, PORT, OWN_NODE);
    NormSetMulticastInterface(session, words[1]);
    NormSetTxRate(session, atof(words[3]));
    NormSetGrttEstimate(session, FIRST_ROUND_TRIP);
    NormSetTxRobustFactor(session, ASKS);
    for (char *node = strtok(words[2], ","); node; node = strtok(NULL, ",")) NormAddAckingNode(session, atoi(node));
    /* A sender that starts again has another number of its own, by which receivers tell the two apart. */
    if (!NormStartSender(session, (NormSessionId)time(NULL), BUFFER, SYMBOL, BLOCK, PARITY, 0)) return 1;
    NormSetTxSocketBuffer(session, SOCKET_BUFFER);
    NormSetTxCacheBounds(session, (NormSize)2000 << 20, 2, MOST_OBJECTS);
    NormObjectHandle last = NORM_OBJECT_INVALID;
    for (char **file = words + 4; *file; file++) last = enqueued(instance, session, *file);
    NormSetWatermark(session, last, false);
    NormEvent event;
    while (NormGetNextEvent(instance, &event, true)) {
        if (event.type == NORM_TX_WATERMARK_COMPLETED) return told(session) ? 0 : 4;
    }
    return 1;
}
