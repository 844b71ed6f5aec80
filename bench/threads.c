/* What threads give on this machine where nothing is shared, no memory is touched and no file written: batches of sixteen jobs, each the same
   loop over a word, by a tree of threads as the press starts them (half of the jobs go to a new thread, and so on; all are joined), beside
   the same jobs one after another. Words: milliseconds of a job on one processor; how many batches. Prints how many times as fast. */
#include <pthread.h>
#include <stdint.h>
#include <stdio.h>
#include <stdlib.h>
#include <time.h>

enum { JOBS = 16 };
static long turns;
static volatile uint64_t seen;

static double now(void) {
    struct timespec at;
    clock_gettime(CLOCK_MONOTONIC, &at);
    return (double)at.tv_sec + 1e-9 * (double)at.tv_nsec;
}

static void job(void) {
    uint64_t word = 88172645463325252u, sum = 0;
    for (long turn = 0; turn < turns; turn++) {
        word ^= word << 13;
        word ^= word >> 7;
        word ^= word << 17;
        sum += word;
    }
    seen = sum;
}

static void *jobs(void *count) {
    intptr_t all = (intptr_t)count, low = all / 2;
    pthread_t other;
    if (all == 1) {
        job();
        return 0;
    }
    if (pthread_create(&other, 0, jobs, (void *)low)) exit(1);
    jobs((void *)(all - low));
    pthread_join(other, 0);
    return 0;
}

int main(int count, char **words) {
    if (count != 3) return 1;
    double wanted = atof(words[1]) / 1000, began;
    int batches = atoi(words[2]);
    turns = 10000000;
    began = now();
    job();
    turns = (long)((double)turns * wanted / (now() - began));
    began = now();
    for (int batch = 0; batch < batches; batch++)
        for (int each = 0; each < JOBS; each++) job();
    double one = now() - began;
    began = now();
    for (int batch = 0; batch < batches; batch++) jobs((void *)(intptr_t)JOBS);
    printf("%.2f\n", one / (now() - began));
    return 0;
}
