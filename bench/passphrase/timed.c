// Runs a program again and again, with what it writes thrown away, and prints for each run the microseconds from its start to its end.
//
// usage: timed COUNT PROGRAM WORD..
#include <fcntl.h>
#include <spawn.h>
#include <stdio.h>
#include <stdlib.h>
#include <sys/wait.h>
#include <time.h>
#include <unistd.h>

extern char **environ;

int main(int count, char **words) {
    if (count < 3) return 2;
    posix_spawn_file_actions_t actions;
    posix_spawn_file_actions_init(&actions);
    posix_spawn_file_actions_addopen(&actions, STDIN_FILENO, "/dev/null", O_RDONLY, 0);
    posix_spawn_file_actions_addopen(&actions, STDOUT_FILENO, "/dev/null", O_WRONLY, 0);
    for (long left = atol(words[1]); left > 0; left--) {
        struct timespec start, stop;
        pid_t child;
        int status;
        clock_gettime(CLOCK_MONOTONIC, &start);
        if (posix_spawnp(&child, words[2], &actions, NULL, words + 2, environ) != 0) return 1;
        if (waitpid(child, &status, 0) != child || status != 0) return 1;
        clock_gettime(CLOCK_MONOTONIC, &stop);
        printf("%ld\n", (stop.tv_sec - start.tv_sec) * 1000000L + (stop.tv_nsec - start.tv_nsec) / 1000);
    }
    return 0;
}
