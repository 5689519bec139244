/* Asks a server on the loopback address from so many threads for so many seconds: each message on a connection of its own, read until the
   peer closes. Prints the requests a second, the wrong replies, and the 50th and the 99th percentile of the times in milliseconds.
   Usage: plain_load PORT THREADS SECONDS STATUS PATH [KEY] */
#include <arpa/inet.h>
#include <netinet/in.h>
#include <netinet/tcp.h>
#include <pthread.h>
#include <stdio.h>
#include <stdlib.h>
#include <string.h>
#include <sys/socket.h>
#include <sys/time.h>
#include <time.h>
#include <unistd.h>

enum { MOST = 1 << 20 };

struct series {
    float *taken;
    int count, wrong;
};

static int port;
static double until;
static char message[1024], wanted[64];

static double now(void)
{
    struct timespec t;
    clock_gettime(CLOCK_MONOTONIC, &t);
    return t.tv_sec + t.tv_nsec / 1e9;
}

/* Whether one request got its reply. */
static int ask(void)
{
    struct sockaddr_in at = {.sin_family = AF_INET, .sin_port = htons(port)};
    struct timeval limit = {.tv_sec = 20};
    char held[4096];
    int count = 0, got, one = 1, fd = socket(AF_INET, SOCK_STREAM, 0);
    at.sin_addr.s_addr = htonl(INADDR_LOOPBACK);
    setsockopt(fd, SOL_SOCKET, SO_RCVTIMEO, &limit, sizeof limit);
    setsockopt(fd, IPPROTO_TCP, TCP_NODELAY, &one, sizeof one);
    if (connect(fd, (struct sockaddr *)&at, sizeof at) != 0 || write(fd, message, strlen(message)) < 0) {
        close(fd);
        return 0;
    }
    while ((got = read(fd, held + count, sizeof held - 1 - count)) > 0) count += got;
    close(fd);
    held[count] = '\0';
    return got == 0 && strncmp(held, wanted, strlen(wanted)) == 0;
}

static void *work(void *at)
{
    struct series *s = at;
    while (now() < until && s->count < MOST) {
        double began = now();
        if (!ask()) s->wrong++;
        s->taken[s->count++] = (now() - began) * 1e3;
    }
    return NULL;
}

static int by_time(const void *a, const void *b)
{
    float x = *(const float *)a, y = *(const float *)b;
    return (x > y) - (x < y);
}

int main(int argc, char **argv)
{
    if (argc < 6) return 2;
    int threads = atoi(argv[2]), total = 0, wrong = 0;
    double seconds = atof(argv[3]);
    pthread_t id[64];
    struct series s[64];
    port = atoi(argv[1]);
    snprintf(wanted, sizeof wanted, "HTTP/1.1 %s ", argv[4]);
    snprintf(message, sizeof message, "GET %s HTTP/1.1\r\nHost: 127.0.0.1\r\nX-Api-Key: %s\r\n\r\n", argv[5], argc > 6 ? argv[6] : "none");
    double began = now();
    until = began + seconds;
    for (int i = 0; i < threads; i++) {
        s[i] = (struct series){.taken = malloc(MOST * sizeof(float))};
        pthread_create(&id[i], NULL, work, &s[i]);
    }
    for (int i = 0; i < threads; i++) pthread_join(id[i], NULL);
    double taken = now() - began;
    for (int i = 0; i < threads; i++) total += s[i].count, wrong += s[i].wrong;
    float *all = malloc((total + 1) * sizeof(float));
    total = 0;
    for (int i = 0; i < threads; i++) {
        memcpy(all + total, s[i].taken, s[i].count * sizeof(float));
        total += s[i].count;
    }
    qsort(all, total, sizeof(float), by_time);
    printf("%.0f %d %.3f %.3f\n", total / taken, wrong, total ? all[total / 2] : 0, total ? all[(int)(total * 0.99)] : 0);
    return 0;
}
