/* repeat TIMES INPUT PROGRAM WORD..: runs a program so many times, one after the other, each time with the file INPUT from its
 * beginning as standard input, and drops what it writes. Prints how many ended with status 0, and the median and the 99th
 * of 100 of the times from start to end, in microseconds. */
#include <errno.h>
#include <fcntl.h>
#include <spawn.h>
#include <stdint.h>
#include <stdio.h>
#include <stdlib.h>
#include <string.h>
#include <sys/wait.h>
#include <time.h>
#include <unistd.h>

extern char **environ;

static void fail(const char *what)
{
    fprintf(stderr, "repeat: %s: %s\n", what, strerror(errno));
    exit(1);
}

static double now(void)
{
    struct timespec at;
    clock_gettime(CLOCK_MONOTONIC, &at);
    return (double)at.tv_sec * 1e6 + (double)at.tv_nsec / 1e3;
}

static int by_size(const void *a, const void *b)
{
    double one = *(const double *)a, other = *(const double *)b;
    return (one > other) - (one < other);
}

int main(int argc, char **argv)
{
    if (argc < 4) {
        fprintf(stderr, "usage: repeat TIMES INPUT PROGRAM WORD..\n");
        return 2;
    }
    size_t times = (size_t)strtoul(argv[1], NULL, 10), done = 0;
    if (times == 0)
        return 2;
    double *took = calloc(times, sizeof *took);
    if (took == NULL)
        fail("calloc");
    posix_spawn_file_actions_t files;
    if (posix_spawn_file_actions_init(&files) != 0
        || posix_spawn_file_actions_addopen(&files, STDIN_FILENO, argv[2], O_RDONLY, 0) != 0
        || posix_spawn_file_actions_addopen(&files, STDOUT_FILENO, "/dev/null", O_WRONLY, 0) != 0
        || posix_spawn_file_actions_addopen(&files, STDERR_FILENO, "/dev/null", O_WRONLY, 0) != 0)
        fail("posix_spawn_file_actions");
    for (size_t i = 0; i < times; i++) {
        pid_t child;
        int status;
        double began = now();
        errno = posix_spawnp(&child, argv[3], &files, NULL, argv + 3, environ);
        if (errno != 0)
            fail(argv[3]);
        if (waitpid(child, &status, 0) != child)
            fail("waitpid");
        took[i] = now() - began;
        done += WIFEXITED(status) && WEXITSTATUS(status) == 0;
    }
    qsort(took, times, sizeof *took, by_size);
    printf("done %zu p50 %.1f p99 %.1f\n", done, took[times / 2], took[times * 99 / 100]);
    return 0;
}
