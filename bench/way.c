/* The two ends of a live run, in one thread: an outstation that answers each poll with a report, at
 * a pace, and a control centre that acknowledges each eighth I frame.
 *
 *     way LINE LISTENER POLLS REPORTS
 *
 * LINE is the port at which it waits for the gateway, LISTENER the one at which the gateway does, POLLS
 * the pace in polls a second. For each of so many REPORTS it prints how many microseconds passed
 * from before the call that hands the answer to the system to behind the call that gives the I
 * frame. Nothing else runs in this process, and no call of it waits but `ppoll`.
 */
#define _GNU_SOURCE
#include <arpa/inet.h>
#include <netinet/tcp.h>
#include <poll.h>
#include <stdint.h>
#include <stdio.h>
#include <stdlib.h>
#include <string.h>
#include <sys/prctl.h>
#include <sys/socket.h>
#include <time.h>
#include <unistd.h>

typedef int64_t Nanoseconds;

enum { SECOND = 1000000000 };

static int line, centre, wanted, given, seen;
static Nanoseconds pause_of_poll, due, *sent;

/* The octets of each end that are no whole frame yet. */
static uint8_t from_line[4096], from_centre[65536];
static size_t line_held, centre_held;

static uint8_t answer[16];
static size_t answer_size;

static const uint8_t STATUS[] = {0x10, 11, 1, 12, 0x16}, CONFIRMED[] = {0xE5};
/* A single point, spontaneous. */
static const uint8_t REPORT[] = {0x68, 8, 8, 0x68, 8, 1, 1, 1, 3, 1, 10, 1, 26, 0x16};
static const uint8_t START[] = {0x68, 4, 7, 0, 0, 0}, TEST[] = {0x68, 4, 0x43, 0, 0, 0};
static const uint8_t TESTED[] = {0x68, 4, 0x83, 0, 0, 0};

static Nanoseconds now(void) {
    struct timespec at;
    clock_gettime(CLOCK_MONOTONIC, &at);
    return at.tv_sec * (Nanoseconds)SECOND + at.tv_nsec;
}

static void fail(const char *what) {
    perror(what);
    exit(1);
}

static void put(int end, const uint8_t *octets, size_t size) {
    if (write(end, octets, size) != (ssize_t)size) fail("write");
}

static void send_at_once(int end) {
    int is_so = 1;
    if (setsockopt(end, IPPROTO_TCP, TCP_NODELAY, &is_so, sizeof is_so)) fail("TCP_NODELAY");
}

static struct sockaddr_in at_port(int port) {
    struct sockaddr_in at = {.sin_family = AF_INET, .sin_port = htons(port)};
    at.sin_addr.s_addr = htonl(INADDR_LOOPBACK);
    return at;
}

/* The gateway's connection. */
static int accepted(int port) {
    int server = socket(AF_INET, SOCK_STREAM, 0), is_so = 1;
    struct sockaddr_in at = at_port(port);
    setsockopt(server, SOL_SOCKET, SO_REUSEADDR, &is_so, sizeof is_so);
    if (bind(server, (void *)&at, sizeof at) || listen(server, 1)) fail("listen");
    int end = accept(server, NULL, NULL);
    if (end < 0) fail("accept");
    send_at_once(end);
    return end;
}

/* A connection to the gateway, as soon as it listens. */
static int connected(int port) {
    struct sockaddr_in at = at_port(port);
    for (int tries = 0; tries < 5000; tries++) {
        int end = socket(AF_INET, SOCK_STREAM, 0);
        if (!connect(end, (void *)&at, sizeof at)) {
            send_at_once(end);
            return end;
        }
        close(end);
        usleep(2000);
    }
    fail("connect");
    return -1;
}

static void set_answer(const uint8_t *octets, size_t size, Nanoseconds pause) {
    memcpy(answer, octets, answer_size = size);
    due = now() + pause;
}

/* Answers a request of this function. */
static void take_request(int function) {
    if (function == 9) set_answer(STATUS, sizeof STATUS, 0);
    else if (function == 0) set_answer(CONFIRMED, sizeof CONFIRMED, 0);
    else set_answer(REPORT, sizeof REPORT, pause_of_poll);
}

static void give_answer(void) {
    if (answer_size == sizeof REPORT) sent[given++] = now();
    due = 0;
    put(line, answer, answer_size);
}

static void read_line(void) {
    ssize_t count = read(line, from_line + line_held, sizeof from_line - line_held);
    if (count <= 0) fail("the line is gone");
    line_held += count;
    while (line_held >= 5) {
        int is_fixed = from_line[0] == 0x10;
        size_t size = is_fixed ? 5 : from_line[1] + 6;
        if (line_held < size) return;
        take_request((is_fixed ? from_line[1] : from_line[4]) & 15);
        memmove(from_line, from_line + size, line_held -= size);
    }
}

static void take_apdu(const uint8_t *apdu, Nanoseconds came) {
    if (!memcmp(apdu, TEST, sizeof TEST)) put(centre, TESTED, sizeof TESTED);
    if (apdu[2] & 1) return;
    printf("%.1f\n", (came - sent[seen]) / 1e3);
    if (++seen % 8) return;
    uint8_t number[] = {0x68, 4, 1, 0, seen * 2 & 255, seen * 2 >> 8 & 255};
    put(centre, number, sizeof number);
}

static void read_centre(void) {
    size_t room = sizeof from_centre - centre_held;
    ssize_t count = read(centre, from_centre + centre_held, room);
    Nanoseconds came = now();
    if (count <= 0) fail("the gateway closed");
    centre_held += count;
    size_t place = 0;
    while (centre_held - place >= 2 && centre_held - place >= from_centre[place + 1] + 2u) {
        size_t size = from_centre[place + 1] + 2;
        if (seen < wanted) take_apdu(from_centre + place, came);
        place += size;
    }
    memmove(from_centre, from_centre + place, centre_held -= place);
}

int main(int count, char **words) {
    if (count != 5) return 2;
    pause_of_poll = SECOND / atof(words[3]);
    wanted = atoi(words[4]);
    /* Reports that come before the control centre wait, so there may be more of them. */
    sent = calloc(wanted + 100000, sizeof *sent);
    /* The system may else wake this process 0.05 ms late. */
    prctl(PR_SET_TIMERSLACK, 1UL);
    line = accepted(atoi(words[1]));
    centre = connected(atoi(words[2]));
    put(centre, START, sizeof START);
    struct pollfd ends[] = {{line, POLLIN, 0}, {centre, POLLIN, 0}};
    while (seen < wanted) {
        Nanoseconds left = due ? due - now() : SECOND;
        if (left <= 0) {
            give_answer();
            continue;
        }
        struct timespec wait = {left / SECOND, left % SECOND};
        if (ppoll(ends, 2, &wait, NULL) < 0) fail("ppoll");
        if (ends[1].revents) read_centre();
        if (ends[0].revents) read_line();
    }
    return 0;
}
