// Preloaded, it attaches a filter to each UDP socket that loses RXLOSS percent of the datagrams that come in, drawn by the kernel.
#define _GNU_SOURCE
#include <dlfcn.h>
#include <linux/filter.h>
#include <stdlib.h>
#include <sys/socket.h>

int socket(int domain, int type, int protocol) {
    static int (*made)(int, int, int);
    if (!made) made = dlsym(RTLD_NEXT, "socket");
    int descriptor = made(domain, type, protocol);
    const char *percent = getenv("RXLOSS");
    if (descriptor < 0 || !percent || atof(percent) <= 0 || (type & 0xf) != SOCK_DGRAM) return descriptor;
    if (domain != AF_INET && domain != AF_INET6) return descriptor;
    unsigned least = (unsigned)(atof(percent) / 100 * 4294967295.0);
    struct sock_filter filter[] = {
        {BPF_LD | BPF_W | BPF_ABS, 0, 0, (unsigned)(SKF_AD_OFF + SKF_AD_RANDOM)},
        {BPF_JMP | BPF_JGE | BPF_K, 0, 1, least},
        {BPF_RET | BPF_K, 0, 0, 0xffffffff},
        {BPF_RET | BPF_K, 0, 0, 0},
    };
    struct sock_fprog program = {4, filter};
    if (setsockopt(descriptor, SOL_SOCKET, SO_ATTACH_FILTER, &program, sizeof program)) abort();
    return descriptor;
}
