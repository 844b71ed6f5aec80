// A bare desk: accepts so many connections, one behind another, reads each until its request is whole, writes a fixed reply,
// and hangs up as a desk does (the writing side first, then what still comes is read off). It reads no word of a request but
// the empty line and Content-Length. Words: port, how many, the file of the reply's bytes.
#define _GNU_SOURCE
#include <arpa/inet.h>
#include <netinet/tcp.h>
#include <stdio.h>
#include <stdlib.h>
#include <string.h>
#include <sys/socket.h>
#include <unistd.h>

static void stop(const char *why) {
    fprintf(stderr, "serve_bare: %s\n", why);
    exit(1);
}

// Whether these bytes hold a head, and as much of a body as it says.
static int is_whole(char *bytes, size_t length) {
    bytes[length] = 0;
    char *end = strstr(bytes, "\r\n\r\n"), *field = strcasestr(bytes, "content-length:");
    if (end == NULL) return 0;
    size_t body = field != NULL && field < end ? (size_t)atol(field + 15) : 0;
    return length >= (size_t)(end + 4 - bytes) + body;
}

int main(int argc, char **argv) {
    if (argc != 4) stop("PORT COUNT REPLY");
    static char reply[2097152], bytes[2097153];
    FILE *file = fopen(argv[3], "rb");
    if (file == NULL) stop("the reply can't be opened");
    size_t length = fread(reply, 1, sizeof reply, file);
    int door = socket(AF_INET, SOCK_STREAM, 0), one = 1;
    setsockopt(door, SOL_SOCKET, SO_REUSEADDR, &one, sizeof one);
    struct sockaddr_in address = {.sin_family = AF_INET, .sin_port = htons((unsigned short)atoi(argv[1]))};
    address.sin_addr.s_addr = htonl(INADDR_LOOPBACK);
    if (bind(door, (struct sockaddr *)&address, sizeof address) != 0 || listen(door, 128) != 0) stop("the port is taken");
    for (long count = atol(argv[2]); count > 0; count--) {
        int peer = accept(door, NULL, NULL);
        if (peer < 0) stop("nobody is accepted");
        size_t came = 0;
        while (!is_whole(bytes, came)) {
            ssize_t part = recv(peer, bytes + came, sizeof bytes - 1 - came, 0);
            if (part <= 0) break;
            came += (size_t)part;
        }
        for (size_t sent = 0; sent < length;) {
            ssize_t part = send(peer, reply + sent, length - sent, MSG_NOSIGNAL);
            if (part <= 0) break;
            sent += (size_t)part;
        }
        shutdown(peer, SHUT_WR);
        while (recv(peer, bytes, sizeof bytes - 1, 0) > 0) {}
        close(peer);
    }
    return 0;
}
