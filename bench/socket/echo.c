// A server that sends back what it reads, with a thread for each client: the least that a server over a socket does.
//
// usage: echo PATH
#include <pthread.h>
#include <stdint.h>
#include <stdio.h>
#include <string.h>
#include <sys/socket.h>
#include <sys/un.h>
#include <unistd.h>

static void *serve(void *link) {
    int client = (int)(intptr_t)link;
    char buf[4096];
    ssize_t count;
    while ((count = read(client, buf, sizeof buf)) > 0) {
        if (write(client, buf, (size_t)count) != count) break;
    }
    close(client);
    return NULL;
}

int main(int count, char **words) {
    if (count != 2) return 2;
    struct sockaddr_un name = {.sun_family = AF_UNIX};
    strncpy(name.sun_path, words[1], sizeof name.sun_path - 1);
    int listener = socket(AF_UNIX, SOCK_STREAM, 0);
    if (bind(listener, (struct sockaddr *)&name, sizeof name) != 0 || listen(listener, 128) != 0) {
        perror("listen");
        return 1;
    }
    for (;;) {
        int client = accept(listener, NULL, NULL);
        if (client < 0) continue;
        pthread_t thread;
        if (pthread_create(&thread, NULL, serve, (void *)(intptr_t)client) != 0) return 1;
        pthread_detach(thread);
    }
}
