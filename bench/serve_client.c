// A client of one connection a request: asks so often, each time over a connection of its own, reads each reply to its end, and
// looks that it begins with the wanted status. A request is the bytes of a file; a `@` in them is the number of a document,
// 1 to DOCS in turn, and a `~` is A, or B each other time that all documents had their turn. Several files with commas between
// are asked one after another for each document. The first request waits for a desk that doesn't listen yet, and isn't timed.
// Prints the seconds that one of the others took, the longest one, and the bytes of a reply. Words: port, how often beside the
// first, the file of the request or files with commas, the status, DOCS, and a file for the last reply or -.
// Ends with status 1 at the first reply that differs.
#include <arpa/inet.h>
#include <errno.h>
#include <netinet/tcp.h>
#include <stdio.h>
#include <stdlib.h>
#include <string.h>
#include <sys/socket.h>
#include <time.h>
#include <unistd.h>

enum { MOST = 4194304, KINDS = 8, PATIENCE = 1200 };

static char text[MOST], request[MOST + 16], reply[MOST];
// where the text of each request begins, and where the last one ends
static size_t begins[KINDS + 1];

static double now(void) {
    struct timespec moment;
    clock_gettime(CLOCK_MONOTONIC, &moment);
    return (double)moment.tv_sec + (double)moment.tv_nsec / 1e9;
}

static void stop(const char *why) {
    fprintf(stderr, "serve_client: %s\n", why);
    exit(1);
}

// Reads the requests of these files; how many they are.
static long kinds_of(char *names) {
    long kinds = 0;
    for (char *name = strtok(names, ","); name != NULL; name = strtok(NULL, ",")) {
        FILE *file = kinds < KINDS ? fopen(name, "rb") : NULL;
        if (file == NULL) stop("a request can't be opened, or there are too many");
        begins[kinds + 1] = begins[kinds] + fread(text + begins[kinds], 1, sizeof text - begins[kinds], file);
        fclose(file);
        kinds++;
    }
    if (kinds == 0) stop("no request");
    return kinds;
}

// The request of a turn; its length.
static size_t asked(long kinds, long turn, long docs) {
    size_t made = 0;
    long kind = turn % kinds, time = turn / kinds;
    for (size_t at = begins[kind]; at < begins[kind + 1] && made < MOST; at++) {
        if (text[at] == '@') made += (size_t)sprintf(request + made, "%ld", time % docs + 1);
        else request[made++] = text[at] == '~' ? (time / docs % 2 == 0 ? 'A' : 'B') : text[at];
    }
    return made;
}

static int connected(const struct sockaddr_in *address, int patience) {
    for (;;) {
        int peer = socket(AF_INET, SOCK_STREAM, 0), one = 1;
        if (peer < 0) stop("no socket");
        setsockopt(peer, IPPROTO_TCP, TCP_NODELAY, &one, sizeof one);
        if (connect(peer, (const struct sockaddr *)address, sizeof *address) == 0) return peer;
        if (errno != ECONNREFUSED || patience-- == 0) stop("no connection");
        close(peer);
        usleep(50000);
    }
}

// One exchange; the number of bytes of the reply.
static size_t exchange(const struct sockaddr_in *address, size_t length, const char *wanted, int patience) {
    int peer = connected(address, patience);
    for (size_t sent = 0; sent < length;) {
        ssize_t part = send(peer, request + sent, length - sent, MSG_NOSIGNAL);
        if (part <= 0) stop("the request can't be sent");
        sent += (size_t)part;
    }
    size_t came = 0;
    for (;;) {
        ssize_t part = recv(peer, reply + came, sizeof reply - came, 0);
        if (part < 0) stop("the reply can't be read");
        if (part == 0) break;
        came += (size_t)part;
    }
    close(peer);
    if (came < 12 || memcmp(reply + 9, wanted, 3) != 0) {
        fprintf(stderr, "serve_client: another status: %.*s\n", came < 300 ? (int)came : 300, reply);
        exit(1);
    }
    return came;
}

int main(int argc, char **argv) {
    if (argc != 7) stop("PORT TIMES REQUEST STATUS DOCS REPLY");
    long times = atol(argv[2]), docs = atol(argv[5]);
    if (times < 0 || docs < 1) stop("a number is too small");
    long kinds = kinds_of(argv[3]);
    size_t bytes = 0;
    struct sockaddr_in address = {.sin_family = AF_INET, .sin_port = htons((unsigned short)atoi(argv[1]))};
    address.sin_addr.s_addr = htonl(INADDR_LOOPBACK);
    bytes = exchange(&address, asked(kinds, 0, docs), argv[4], PATIENCE);
    double begun = now(), longest = 0;
    for (long turn = 1; turn <= times; turn++) {
        double start = now();
        bytes = exchange(&address, asked(kinds, turn, docs), argv[4], 0);
        double took = now() - start;
        if (took > longest) longest = took;
    }
    printf("%.9f %.9f %zu\n", (now() - begun) / (double)(times > 0 ? times : 1), longest, bytes);
    if (strcmp(argv[6], "-") != 0) {
        FILE *out = fopen(argv[6], "wb");
        if (out == NULL || fwrite(reply, 1, bytes, out) != bytes || fclose(out) != 0) stop("the reply can't be kept");
    }
    return 0;
}
