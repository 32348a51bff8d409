/* load PORT CLIENTS REQUESTS EACH: so many requests from so many connections, each waiting for its answer before it sends the next one. Each EACH-th
   request of a connection is a report of another text on one of 1,000 resources, and the others ask for the number of alarms: with 1 all are reports,
   with 0 none is. It prints requests a second, and the latency in microseconds at the 50th, 99th and 99.9th of a hundred; of a mix that of the reads
   alone. bench/serve builds it. */
#define _GNU_SOURCE
#include <arpa/inet.h>
#include <netinet/tcp.h>
#include <pthread.h>
#include <stdio.h>
#include <stdlib.h>
#include <string.h>
#include <strings.h>
#include <time.h>
#include <unistd.h>

enum { RESOURCES = 1000 };

static int port, clients;
static long requests, each;
static float *micros;

static void fail(const char *why) { fprintf(stderr, "load: %s\n", why); exit(1); }

static double now(void) {
    struct timespec t;
    clock_gettime(CLOCK_MONOTONIC, &t);
    return (double)t.tv_sec * 1e6 + (double)t.tv_nsec / 1e3;
}

static int is_report(long number) { return each && (number + 1) % each == 0; }

static int request(char *room, size_t size, int client, long number) {
    char body[400];
    if (!is_report(number))
        return snprintf(room, size, "GET /restconf/data/ietf-alarms:alarms/alarm-list/number-of-alarms HTTP/1.1\r\nHost: a\r\n\r\n");
    int length = snprintf(body, sizeof body,
        "{\"alarmd:input\":{\"alarm-text\":\"text %d %ld\",\"alarm-type-id\":\"ex:link\",\"perceived-severity\":\"major\",\"resource\":\"port%ld\"}}",
        client, number, (client + number / each * clients) % RESOURCES);
    return snprintf(room, size, "POST /restconf/operations/alarmd:report HTTP/1.1\r\nHost: a\r\nContent-Length: %d\r\n\r\n%s", length, body);
}

static void answer(int connection) {
    char room[65536];
    size_t have = 0;
    for (;;) {
        ssize_t got = recv(connection, room + have, sizeof room - 1 - have, 0);
        if (got <= 0) fail("an answer was cut off");
        have += (size_t)got;
        room[have] = 0;
        char *end = strstr(room, "\r\n\r\n");
        if (!end) continue;
        char *length = strcasestr(room, "\r\nContent-Length:");
        size_t body = length && length < end ? strtoul(length + 17, 0, 10) : 0;
        if (have < (size_t)(end + 4 - room) + body) continue;
        if (room[9] != '2') fail("an answer that is none of success");
        return;
    }
}

static void *talk(void *number) {
    int client = (int)(long)number, on = 1;
    int connection = socket(AF_INET, SOCK_STREAM, 0);
    struct sockaddr_in at = {.sin_family = AF_INET, .sin_port = htons((uint16_t)port), .sin_addr.s_addr = htonl(INADDR_LOOPBACK)};
    if (connect(connection, (struct sockaddr *)&at, sizeof at)) fail("no connection");
    setsockopt(connection, IPPROTO_TCP, TCP_NODELAY, &on, sizeof on);
    char room[1024];
    for (long n = 0; n < requests / clients; n++) {
        int length = request(room, sizeof room, client, n);
        double begun = now();
        if (send(connection, room, (size_t)length, MSG_NOSIGNAL) != length) fail("a request was cut off");
        answer(connection);
        micros[(long)client * (requests / clients) + n] = each > 1 && is_report(n) ? -1 : (float)(now() - begun);
    }
    close(connection);
    return 0;
}

static int rising(const void *a, const void *b) {
    float x = *(const float *)a, y = *(const float *)b;
    return (x > y) - (x < y);
}

int main(int words, char **word) {
    if (words != 5) fail("usage: load PORT CLIENTS REQUESTS EACH");
    port = atoi(word[1]), clients = atoi(word[2]), requests = atol(word[3]), each = atol(word[4]);
    long all = requests / clients * clients;
    micros = calloc((size_t)all, sizeof *micros);
    pthread_t thread[64];
    double begun = now();
    for (long n = 0; n < clients; n++)
        if (pthread_create(&thread[n], 0, talk, (void *)n)) fail("no thread");
    for (long n = 0; n < clients; n++) pthread_join(thread[n], 0);
    double seconds = (now() - begun) / 1e6;
    qsort(micros, (size_t)all, sizeof *micros, rising);
    float *timed = micros;
    while (timed < micros + all - 1 && *timed < 0) timed++;
    long times = all - (timed - micros);
    printf("%.0f %.0f %.0f %.0f\n", (double)all / seconds, timed[times / 2], timed[times * 99 / 100], timed[times * 999 / 1000]);
    return 0;
}
