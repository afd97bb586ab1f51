/* Makes each sending of a datagram take SLOW_MICROS microseconds, below a million, in a program that is started with this library before the C
   library (checks/slow). With SLOW_FAILS_AFTER=N in the environment all but the first N fail. One thread sends. */
#define _GNU_SOURCE
#include <errno.h>
#include <stddef.h>
#include <stdlib.h>
#include <sys/socket.h>
#include <sys/syscall.h>
#include <time.h>
#include <unistd.h>

static void linger(void) {
    const char *micros = getenv("SLOW_MICROS");
    struct timespec left = {0, micros ? 1000 * atol(micros) : 0};
    while (nanosleep(&left, &left) != 0) {
    }
}

static int fails(void) {
    static long sent;
    const char *most = getenv("SLOW_FAILS_AFTER");
    return most && sent++ >= atol(most);
}

ssize_t sendto(int socket, const void *octets, size_t length, int flags, const struct sockaddr *address, socklen_t size) {
    linger();
    if (fails()) {
        errno = EOPNOTSUPP;
        return -1;
    }
    return syscall(SYS_sendto, socket, octets, length, flags, address, size);
}

ssize_t send(int socket, const void *octets, size_t length, int flags) { return sendto(socket, octets, length, flags, NULL, 0); }
