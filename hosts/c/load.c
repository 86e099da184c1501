/* A server for tools/load, a thread for each connection: "load measured", or "load plain". Its recorders are shared by
 * threads, each under a mutex, as each instrument is.
 */
#define _POSIX_C_SOURCE 200809L
#include "wormweekly.h"

#include <arpa/inet.h>
#include <pthread.h>
#include <stdio.h>
#include <stdlib.h>
#include <string.h>
#include <sys/socket.h>
#include <time.h>
#include <unistd.h>

enum { REQUESTS, DURATION, IN_FLIGHT, INSTRUMENTS };
enum { RECORDERS = 2, ROOM = 8192 };

#define RECORDER "[[recorder]]\nname = '%s'\nbudget = [{ instrument = 0, amount = 10000 }, " \
                 "{ instrument = 1, amount = 10000 }, { instrument = 2, amount = 20000 }]\n"

static const char INSTRUMENT_TEXT[] =
    "format = 1\n[[meter]]\nname = 'http'\n"
    "[[meter.instrument]]\nname = 'http.requests'\nkind = 'counter'\nrange = [1, 1]\n"
    "key = [{ name = 'route', values = ['/'] }, { name = 'status', values = [200] }]\n"
    "[[meter.instrument]]\nname = 'http.duration'\nkind = 'histogram'\nunit = 'ms'\nrange = [0, 60000]\n"
    "boundaries = [5, 50, 500]\n"
    "[[meter.instrument]]\nname = 'http.in_flight'\nkind = 'up_down_counter'\nrange = [-1, 1]\n";
static const char CONFIG[] = "format = 1\n[[reader]]\nname = 'prometheus'\n";

static wormweekly_instrument instruments[INSTRUMENTS];
static wormweekly_recorder recorders[RECORDERS];
static wormweekly_reader reader;
static pthread_mutex_t instrument_locks[INSTRUMENTS], recorder_locks[RECORDERS], page_lock = PTHREAD_MUTEX_INITIALIZER;
static int is_measured;

static void open_metrics(void) {
    char catalogue[2048], recorder[RECORDERS][512];
    uint8_t fault[200];
    size_t length;
    wormweekly_counts counts;
    for (int i = 0; i < INSTRUMENTS; i++) pthread_mutex_init(&instrument_locks[i], NULL);
    for (int i = 0; i < RECORDERS; i++) {
        pthread_mutex_init(&recorder_locks[i], NULL);
        snprintf(recorder[i], sizeof recorder[i], RECORDER, i == 0 ? "first" : "second");
    }
    snprintf(catalogue, sizeof catalogue, "%s%s%s", INSTRUMENT_TEXT, recorder[0], recorder[1]);
    if (wormweekly_open((const uint8_t *)catalogue, strlen(catalogue), (const uint8_t *)CONFIG, strlen(CONFIG), 0,
                        instruments, INSTRUMENTS, recorders, RECORDERS, &reader, 1, &counts, fault, sizeof fault,
                        &length) != WORMWEEKLY_DONE) {
        fprintf(stderr, "%.*s\n", (int)(length < sizeof fault ? length : sizeof fault), (const char *)fault);
        exit(1);
    }
}

/* By the recorder of a connection. */
static void record(size_t by, size_t instrument, const wormweekly_pair *pairs, size_t count, int64_t value) {
    pthread_mutex_lock(&recorder_locks[by]);
    pthread_mutex_lock(&instrument_locks[instrument]);
    uint32_t answer = wormweekly_record_pairs(&instruments[instrument], &recorders[by], pairs, count, value);
    pthread_mutex_unlock(&instrument_locks[instrument]);
    pthread_mutex_unlock(&recorder_locks[by]);
    if (answer != WORMWEEKLY_DONE) fprintf(stderr, "not counted: %u\n", answer);
}

static void hold(void *host, size_t instrument, int is_held) {
    (void)host;
    (is_held ? pthread_mutex_lock : pthread_mutex_unlock)(&instrument_locks[instrument]);
}

static size_t write_page(char *page) {
    size_t length = 0;
    pthread_mutex_lock(&page_lock);
    uint32_t answer = wormweekly_page(instruments, INSTRUMENTS, &reader, (uint64_t)time(NULL) * 1000000000u, 0, NULL, 0,
                                      hold, NULL, (uint8_t *)page, ROOM, &length);
    pthread_mutex_unlock(&page_lock);
    return answer == WORMWEEKLY_DONE ? length : 0;
}

static int64_t milliseconds(void) {
    struct timespec now;
    clock_gettime(CLOCK_MONOTONIC, &now);
    return now.tv_sec * 1000 + now.tv_nsec / 1000000;
}

static size_t serve(size_t by, char *body) {
    static const wormweekly_pair about[] = { { .key = "route", .text = "/" },
                                             { .key = "status", .kind = WORMWEEKLY_WHOLE, .whole = 200 } };
    const struct timespec pause = { 0, 50000000 };
    int64_t began = milliseconds();
    if (is_measured) record(by, IN_FLIGHT, NULL, 0, 1);
    nanosleep(&pause, NULL);
    if (is_measured) {
        record(by, IN_FLIGHT, NULL, 0, -1);
        record(by, DURATION, NULL, 0, milliseconds() - began);
        record(by, REQUESTS, about, 2, 1);
    }
    return (size_t)sprintf(body, "done\n");
}

static void *connection(void *arg) {
    int socket = (int)(intptr_t)arg;
    char request[1024], body[ROOM], head[128];
    while (recv(socket, request, sizeof request, 0) > 0) {
        size_t length = strncmp(request, "GET /metrics", 12) == 0 ? write_page(body) : serve((size_t)socket % RECORDERS, body);
        size_t before = (size_t)sprintf(head, "HTTP/1.1 200 OK\r\nContent-Length: %zu\r\n\r\n", length);
        if (send(socket, head, before, MSG_NOSIGNAL) < 0 || send(socket, body, length, MSG_NOSIGNAL) < 0) break;
    }
    close(socket);
    return NULL;
}

int main(int count, char **words) {
    struct sockaddr_in address = { .sin_family = AF_INET, .sin_addr.s_addr = htonl(INADDR_LOOPBACK) };
    socklen_t length = sizeof address;
    int listener = socket(AF_INET, SOCK_STREAM, 0);
    is_measured = count > 1 && strcmp(words[1], "measured") == 0;
    if (is_measured) open_metrics();
    if (bind(listener, (struct sockaddr *)&address, length) != 0 || listen(listener, 128) != 0 ||
        getsockname(listener, (struct sockaddr *)&address, &length) != 0) {
        return 1;
    }
    printf("%d\n", ntohs(address.sin_port));
    fflush(stdout);
    for (;;) {
        pthread_t thread;
        int accepted = accept(listener, NULL, NULL);
        if (accepted < 0 || pthread_create(&thread, NULL, connection, (void *)(intptr_t)accepted) != 0) return 1;
        pthread_detach(thread);
    }
}
