/* Makes a file of each size in bytes that standard input tells, in a new folder, and prints the seconds that making them took. */
#include <fcntl.h>
#include <stdio.h>
#include <stdlib.h>
#include <sys/stat.h>
#include <time.h>
#include <unistd.h>

int main(int count, char **words)
{
    static char bytes[1 << 24];
    struct timespec from, to;
    double spent = 0;
    size_t size;
    if (count != 2 || mkdir(words[1], 0755) || chdir(words[1])) return 1;
    for (int at = 0; scanf("%zu", &size) == 1; at++) {
        char name[32];
        snprintf(name, sizeof name, "%06d", at);
        clock_gettime(CLOCK_MONOTONIC, &from);
        int file = open(name, O_CREAT | O_WRONLY | O_TRUNC, 0644);
        if (file < 0 || size > sizeof bytes || write(file, bytes, size) != (ssize_t)size || close(file)) return 1;
        clock_gettime(CLOCK_MONOTONIC, &to);
        spent += to.tv_sec - from.tv_sec + (to.tv_nsec - from.tv_nsec) / 1e9;
    }
    printf("%.6f\n", spent);
}
