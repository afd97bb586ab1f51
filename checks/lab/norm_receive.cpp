/* Receives files with libnorm, and goes on until a signal ends it.

       norm_receive INTERFACE NODE FOLDER

   A file lies in FOLDER/.norm until it is whole. Status 1: it cannot begin. 2: refused words. */
#include <normApi.h>
#include <stdio.h>
#include <stdlib.h>
#include <string.h>
#include <sys/stat.h>

enum { PORT = 6003, BUFFER = 64 << 20, SOCKET_BUFFER = 4 << 20, MOST_OBJECTS = 8192, MOST_NAME = 1024 };
static const char GROUP[] = "224.1.2.3";

/* Gives a whole file the name that its sender gave it, and makes the folders that this names. */
static void name_it(NormObjectHandle file, const char *folder) {
    char name[MOST_NAME + 1], path[2 * MOST_NAME + 2];
    unsigned length = NormObjectGetInfo(file, name, MOST_NAME);
    name[length] = 0;
    snprintf(path, sizeof path, "%s/%s", folder, name);
    for (char *end = strchr(path + strlen(folder) + 1, '/'); end; end = strchr(end + 1, '/')) {
        *end = 0;
        mkdir(path, 0755);
        *end = '/';
    }
    NormFileRename(file, path);
    printf("%s is whole\n", name);
}

int main(int count, char **words) {
    char cache[MOST_NAME + 8];
    if (count != 4 || strlen(words[3]) > MOST_NAME) {
        fprintf(stderr, "usage: norm_receive INTERFACE NODE FOLDER\n");
        return 2;
    }
    setvbuf(stdout, NULL, _IOLBF, 0);
    snprintf(cache, sizeof cache, "%s/.norm", words[3]);
    mkdir(cache, 0755);
    NormInstanceHandle instance = NormCreateInstance(false);
    NormSessionHandle session = NormCreateSession(instance, GROUP, PORT, atoi(words[2]));
    NormSetMulticastInterface(session, words[1]);
    NormSetCacheDirectory(instance, cache);
    if (!NormStartReceiver(session, BUFFER)) return 1;
    NormSetRxSocketBuffer(session, SOCKET_BUFFER);
    NormSetRxCacheLimit(session, MOST_OBJECTS);
    NormEvent event;
    while (NormGetNextEvent(instance, &event, true)) {
        if (event.type == NORM_RX_OBJECT_COMPLETED) name_it(event.object, words[3]);
        if (event.type == NORM_RX_OBJECT_ABORTED) printf("an object was given up\n");
    }
    return 1;
}
