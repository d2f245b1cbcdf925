// Clients of a socket at once: each sends a request and reads its answer, again and again.
//
// usage: load PATH CLIENTS REQUESTS GREETS REQUEST ANSWER
//
// REQUEST and ANSWER have \n for a line feed. Where GREETS is 1 the server's first line is waited for. Each client takes REQUESTS turns, and
// each answer has to be ANSWER. It prints the seconds from the first request to the last answer; what share of its requests the slowest client had
// answered when the first one was done; and the longest wait for an answer, in seconds.
#include <pthread.h>
#include <stdatomic.h>
#include <stdio.h>
#include <stdlib.h>
#include <string.h>
#include <sys/socket.h>
#include <sys/un.h>
#include <time.h>
#include <unistd.h>

static const char *path;
static char *request, *answer;
static size_t request_len, answer_len;
static int greets;
static long requests;
static pthread_barrier_t start;

// How many answers a client has had, each count in a line of the cache of its own, and its longest wait.
struct progress {
    _Alignas(64) atomic_long done;
    double longest;
};

static struct progress *progress;
static int clients;
// The fewest answers of any client when the first one was done.
static atomic_long fewest = -1;

static void fail(const char *what) {
    perror(what);
    exit(1);
}

static size_t unescape(char *text) {
    char *to = text;
    for (const char *from = text; *from; from++) {
        if (from[0] == '\\' && from[1] == 'n') {
            *to++ = '\n';
            from++;
        } else {
            *to++ = *from;
        }
    }
    *to = 0;
    return (size_t)(to - text);
}

static void expect(int link, const char *text, size_t len) {
    char buf[4096];
    size_t got = 0;
    while (got < len) {
        ssize_t count = read(link, buf + got, len - got);
        if (count <= 0) fail("read");
        got += (size_t)count;
    }
    if (memcmp(buf, text, len) != 0) {
        fprintf(stderr, "another answer: %.*s\n", (int)len, buf);
        exit(1);
    }
}

static double now(void) {
    struct timespec time;
    clock_gettime(CLOCK_MONOTONIC, &time);
    return (double)time.tv_sec + (double)time.tv_nsec / 1e9;
}

// Looks at all clients, if this is the first that is done.
static void finish(void) {
    long least = requests, none = -1;
    for (int k = 0; k < clients; k++) {
        long done = atomic_load(&progress[k].done);
        if (done < least) least = done;
    }
    atomic_compare_exchange_strong(&fewest, &none, least);
}

static void *client(void *own) {
    struct progress *mine = own;
    struct sockaddr_un name = {.sun_family = AF_UNIX};
    strncpy(name.sun_path, path, sizeof name.sun_path - 1);
    int link = socket(AF_UNIX, SOCK_STREAM, 0);
    if (link < 0 || connect(link, (struct sockaddr *)&name, sizeof name) != 0) fail("connect");
    for (char byte = 0; greets && byte != '\n';) {
        if (read(link, &byte, 1) != 1) fail("read");
    }
    pthread_barrier_wait(&start);
    double last = now();
    for (long k = 0; k < requests; k++) {
        if (write(link, request, request_len) != (ssize_t)request_len) fail("write");
        expect(link, answer, answer_len);
        double answered = now();
        if (answered - last > mine->longest) mine->longest = answered - last;
        last = answered;
        atomic_store_explicit(&mine->done, k + 1, memory_order_relaxed);
    }
    finish();
    close(link);
    return NULL;
}

int main(int count, char **words) {
    if (count != 7) return 2;
    path = words[1];
    clients = atoi(words[2]);
    requests = atol(words[3]);
    greets = words[4][0] == '1';
    request = words[5], request_len = unescape(request);
    answer = words[6], answer_len = unescape(answer);
    pthread_t *threads = calloc((size_t)clients, sizeof *threads);
    progress = aligned_alloc(64, (size_t)clients * sizeof *progress);
    memset(progress, 0, (size_t)clients * sizeof *progress);
    pthread_barrier_init(&start, NULL, (unsigned)clients + 1);
    for (int k = 0; k < clients; k++) {
        if (pthread_create(&threads[k], NULL, client, &progress[k]) != 0) fail("pthread_create");
    }
    pthread_barrier_wait(&start);
    double from = now();
    for (int k = 0; k < clients; k++) pthread_join(threads[k], NULL);
    double seconds = now() - from, longest = 0;
    for (int k = 0; k < clients; k++) {
        if (progress[k].longest > longest) longest = progress[k].longest;
    }
    printf("%.6f %.6f %.6f\n", seconds, (double)fewest / (double)requests, longest);
    return 0;
}
