/* A plain HTTP server of four threads, to measure octo beside: each connection is read up to the end of its head and gets one of two
   replies, those of octo to the same messages. It knows no other rule of messages, no key and no printer. */
#include <netinet/in.h>
#include <netinet/tcp.h>
#include <arpa/inet.h>
#include <pthread.h>
#include <stdio.h>
#include <stdlib.h>
#include <string.h>
#include <sys/socket.h>
#include <sys/time.h>
#include <unistd.h>

static const char version[] =
    "HTTP/1.1 200 OK\r\nConnection: close\r\nContent-Length: 63\r\nContent-Type: application/json\r\n\r\n"
    "{\"api\":\"0.1\",\"server\":\"profile-1\",\"text\":\"OctoPrint profile-1\"}";
static const char nothing[] = "HTTP/1.1 404 Not Found\r\nConnection: close\r\nContent-Length: 0\r\n\r\n";

static int listener;

/* Reads up to the end of the head; -1 if the peer closes before it. */
static int read_head(int fd, char *held, int most)
{
    int count = 0;
    for (;;) {
        int got = read(fd, held + count, most - 1 - count);
        if (got <= 0) return -1;
        count += got;
        held[count] = '\0';
        if (strstr(held, "\r\n\r\n") != NULL) return count;
        if (count == most - 1) return -1;
    }
}

static int write_all(int fd, const char *bytes, int count)
{
    while (count > 0) {
        int put = write(fd, bytes, count);
        if (put <= 0) return -1;
        bytes += put;
        count -= put;
    }
    return 0;
}

static void serve(int fd)
{
    struct timeval limit = {.tv_sec = 60};
    char held[16384], rest[512];
    int one = 1;
    setsockopt(fd, SOL_SOCKET, SO_RCVTIMEO, &limit, sizeof limit);
    setsockopt(fd, IPPROTO_TCP, TCP_NODELAY, &one, sizeof one);
    if (read_head(fd, held, sizeof held) > 0) {
        if (strncmp(held, "GET /api/version ", 17) == 0) write_all(fd, version, sizeof version - 1);
        else write_all(fd, nothing, sizeof nothing - 1);
        /* The peer is to read the reply before the connection is gone. */
        shutdown(fd, SHUT_WR);
        while (read(fd, rest, sizeof rest) > 0) {}
    }
    close(fd);
}

static void *work(void *unused)
{
    (void)unused;
    for (;;) {
        int fd = accept(listener, NULL, NULL);
        if (fd >= 0) serve(fd);
    }
    return NULL;
}

int main(int argc, char **argv)
{
    struct sockaddr_in at = {.sin_family = AF_INET, .sin_port = htons(atoi(argc > 1 ? argv[1] : "0"))};
    pthread_t threads[4];
    int one = 1;
    at.sin_addr.s_addr = htonl(INADDR_LOOPBACK);
    listener = socket(AF_INET, SOCK_STREAM, 0);
    setsockopt(listener, SOL_SOCKET, SO_REUSEADDR, &one, sizeof one);
    if (bind(listener, (struct sockaddr *)&at, sizeof at) != 0 || listen(listener, 128) != 0) {
        perror("listen");
        return 1;
    }
    for (int i = 0; i < 4; i++) pthread_create(&threads[i], NULL, work, NULL);
    for (int i = 0; i < 4; i++) pthread_join(threads[i], NULL);
    return 0;
}
