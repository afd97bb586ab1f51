/* Refuses one request for memory of a program that is started with this library before the C library, or its threads (checks/memory).
 *
 * REFUSE=N: the Nth request is refused, from 1 on; 0 refuses none. COUNT=FILE: how many there were is written there at the end.
 * THREADS=N: N threads are started, and no more; where it is not set, any number is. */
#define _GNU_SOURCE
#include <dlfcn.h>
#include <errno.h>
#include <fcntl.h>
#include <pthread.h>
#include <stdio.h>
#include <stdlib.h>
#include <sys/syscall.h>
#include <unistd.h>

extern void *__libc_malloc(size_t);
extern void *__libc_realloc(void *, size_t);

static long requests, refused, threads;

__attribute__((constructor)) static void begin(void) {
    const char *word = getenv("REFUSE");
    refused = word ? atol(word) : 0;
    requests = 0;
    word = getenv("THREADS");
    threads = word ? atol(word) : -1;
}

__attribute__((destructor)) static void end(void) {
    const char *name = getenv("COUNT");
    char text[32];
    int file = name ? open(name, O_WRONLY | O_CREAT | O_TRUNC, 0600) : -1;
    if (file >= 0) {
        if (write(file, text, snprintf(text, sizeof text, "%ld", requests)) < 0) syscall(SYS_exit_group, 125);
        close(file);
    }
}

/* A program that ends without the C library's ending is counted too. */
void _exit(int status) {
    end();
    for (;;) syscall(SYS_exit_group, status);
}

static int is_refused(void) {
    if (++requests != refused) return 0;
    errno = ENOMEM;
    return 1;
}

void *malloc(size_t size) { return is_refused() ? NULL : __libc_malloc(size); }
void *realloc(void *old, size_t size) { return is_refused() ? NULL : __libc_realloc(old, size); }

int pthread_create(pthread_t *thread, const pthread_attr_t *attributes, void *(*work)(void *), void *given) {
    int (*start)(pthread_t *, const pthread_attr_t *, void *(*)(void *), void *) = dlsym(RTLD_NEXT, "pthread_create");
    if (threads == 0) return EAGAIN;
    if (threads > 0) threads--;
    return start(thread, attributes, work, given);
}
