/* A plain print host, to measure octo beside: the same exchange with so many lines in flight, each written by itself, without
   rules on files. */
#include <netdb.h>
#include <netinet/in.h>
#include <netinet/tcp.h>
#include <stdio.h>
#include <stdlib.h>
#include <string.h>
#include <sys/socket.h>
#include <unistd.h>

static int dial(const char *host, const char *port)
{
    struct addrinfo hints = {.ai_socktype = SOCK_STREAM}, *found;
    int one = 1, fd;
    if (getaddrinfo(host, port, &hints, &found) != 0) return -1;
    fd = socket(found->ai_family, SOCK_STREAM, 0);
    for (int tries = 0; connect(fd, found->ai_addr, found->ai_addrlen) != 0; tries++) {
        if (tries == 1000) return -1;
        close(fd);
        usleep(10000);
        fd = socket(found->ai_family, SOCK_STREAM, 0);
    }
    setsockopt(fd, IPPROTO_TCP, TCP_NODELAY, &one, sizeof one);
    freeaddrinfo(found);
    return fd;
}

/* Waits for an `ok`. */
static int await_ok(int fd)
{
    static char held[4096];
    static int first, count;
    for (;;) {
        char *end = memchr(held + first, '\n', count);
        if (end == NULL) {
            memmove(held, held + first, count);
            first = 0;
            int got = read(fd, held + count, sizeof held - count);
            if (got <= 0) return -1;
            count += got;
            continue;
        }
        int done = strncmp(held + first, "ok", 2) == 0;
        count -= end + 1 - (held + first);
        first = end + 1 - held;
        if (done) return 0;
    }
}

int main(int argc, char **argv)
{
    char text[256], line[300];
    long number = 0, flying = 0, window = argc == 5 ? atol(argv[4]) : 0;
    FILE *file = window > 0 ? fopen(argv[3], "r") : NULL;
    int fd = file ? dial(argv[1], argv[2]) : -1;
    if (fd < 0 || write(fd, "N0 M110 N1*124\n", 15) != 15 || await_ok(fd) != 0) return 1;
    while (fgets(text, sizeof text, file)) {
        text[strcspn(text, "\r\n")] = 0;
        int length = sprintf(line, "N%ld %s", ++number + 1, text);
        unsigned char sum = 0;
        for (int i = 0; i < length; i++) sum ^= line[i];
        length += sprintf(line + length, "*%d\n", sum);
        if (flying++ == window) {
            if (await_ok(fd) != 0) return 1;
            flying--;
        }
        if (write(fd, line, length) != length) return 1;
    }
    while (flying-- > 0)
        if (await_ok(fd) != 0) return 1;
    printf("done: %ld commands\n", number);
    return 0;
}
