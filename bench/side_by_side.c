/* Runs two commands in turn, as often as it is told, and prints of both the median and the least wall time, the median
 * processor time and the peak memory, and the ratios of the first over the second. On a busy machine the processor time
 * tells more than the wall time. Words: label, rounds, the file that each command writes, first command, --, second
 * command. Such a file is removed before its command starts, outside the time: to write over a file whose bytes are still
 * on their way to the disk means to wait for them, and a new file is what the command makes in its daily use.
 * What the commands print is dropped; each must end with status 0. */
#define _GNU_SOURCE
#include <fcntl.h>
#include <spawn.h>
#include <stdio.h>
#include <stdlib.h>
#include <string.h>
#include <sys/resource.h>
#include <sys/wait.h>
#include <time.h>
#include <unistd.h>

extern char **environ;

struct side {
    char **words, *output;
    double *wall, *processor; /* in milliseconds, of each round */
    long kilobytes;
};

static void stop(const char *why) {
    fprintf(stderr, "side_by_side: %s\n", why);
    exit(1);
}

static double now(void) {
    struct timespec at;
    clock_gettime(CLOCK_MONOTONIC, &at);
    return at.tv_sec * 1e3 + at.tv_nsec / 1e6;
}

static double milliseconds(struct timeval time) { return time.tv_sec * 1e3 + time.tv_usec / 1e3; }

static void run(struct side *side, int round) {
    posix_spawn_file_actions_t actions;
    posix_spawn_file_actions_init(&actions);
    posix_spawn_file_actions_addopen(&actions, 1, "/dev/null", O_WRONLY, 0);
    pid_t child;
    int status;
    struct rusage used;
    unlink(side->output);
    double start = now();
    if (posix_spawn(&child, side->words[0], &actions, NULL, side->words, environ)) stop("cannot start a command");
    if (wait4(child, &status, 0, &used) != child) stop("cannot wait for a command");
    side->wall[round] = now() - start;
    side->processor[round] = milliseconds(used.ru_utime) + milliseconds(used.ru_stime);
    if (!WIFEXITED(status) || WEXITSTATUS(status)) stop("a command failed");
    if (used.ru_maxrss > side->kilobytes) side->kilobytes = used.ru_maxrss;
    posix_spawn_file_actions_destroy(&actions);
}

static int by_size(const void *one, const void *other) {
    double a = *(const double *)one, b = *(const double *)other;
    return (a > b) - (a < b);
}

static void print(const char *unit, double mine, double other) {
    printf("%8.2f /%8.2f %s = %4.2f", mine, other, unit, mine / other);
}

int main(int count, char **words) {
    int rounds = count > 2 ? atoi(words[2]) : 0, split = 5;
    while (split < count && strcmp(words[split], "--")) split++;
    if (rounds < 1 || split == 5 || split + 1 >= count) stop("usage: LABEL ROUNDS OUTPUT OUTPUT COMMAND.. -- COMMAND..");
    words[split] = NULL;
    struct side sides[2] = {{words + 5, words[3]}, {words + split + 1, words[4]}};
    for (int at = 0; at < 2; at++) {
        sides[at].wall = malloc(rounds * sizeof(double));
        sides[at].processor = malloc(rounds * sizeof(double));
        if (!sides[at].wall || !sides[at].processor) stop("out of memory");
    }
    for (int round = 0; round < rounds; round++)
        for (int at = 0; at < 2; at++) run(&sides[at], round);
    for (int at = 0; at < 2; at++) {
        qsort(sides[at].wall, rounds, sizeof(double), by_size);
        qsort(sides[at].processor, rounds, sizeof(double), by_size);
    }
    printf("%-18s", words[1]);
    print("ms", sides[0].wall[rounds / 2], sides[1].wall[rounds / 2]);
    print("ms", sides[0].wall[0], sides[1].wall[0]);
    print("ms", sides[0].processor[rounds / 2], sides[1].processor[rounds / 2]);
    print("MB", sides[0].kilobytes / 1024.0, sides[1].kilobytes / 1024.0);
    printf("\n");
    return 0;
}
