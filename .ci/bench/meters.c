/* meters PORT LATENCY SILENT TALK..: answers polls on many connections as one of the recorded sessions has them. The answer to a request is
 * the recorded one, LATENCY milliseconds later; the same request again gets the same answer again. If SILENT is not 0, one of so many
 * connections gets no answer. A session is lines '> HEX' and '< HEX'. It writes a line when it listens, and ends at SIGTERM. */
#define _GNU_SOURCE
#include <arpa/inet.h>
#include <errno.h>
#include <netinet/tcp.h>
#include <signal.h>
#include <stdint.h>
#include <stdio.h>
#include <stdlib.h>
#include <string.h>
#include <sys/epoll.h>
#include <sys/resource.h>
#include <time.h>
#include <unistd.h>

enum { TALKS = 4, STEPS = 4096, CONNECTIONS = 65536, LATER = 1 << 20 };

typedef struct { unsigned char *octets; int length; } Text;
static Text asked[TALKS][STEPS], answers[TALKS][STEPS];
static int steps[TALKS], talks;

/* 'talk' is the first session that the requests are in so far; 'turn' tells a connection from an earlier one of the same descriptor. */
typedef struct { int talk, step, length, is_silent; uint32_t turn; unsigned char octets[4096]; } Connection;
static Connection *connections[CONNECTIONS];
static uint32_t turns[CONNECTIONS];

typedef struct { int64_t at; int descriptor; uint32_t turn; Text answer; } Late;
static Late late[LATER];
static size_t first_late, end_late;

static volatile sig_atomic_t is_ended;
static void on_end(int number) { (void)number; is_ended = 1; }

static int64_t microseconds(void) {
    struct timespec now;
    clock_gettime(CLOCK_MONOTONIC, &now);
    return now.tv_sec * 1000000LL + now.tv_nsec / 1000;
}

static Text octets_of(const char *digits) {
    Text text = { malloc(strlen(digits) / 2 + 1), 0 };
    for (unsigned octet; sscanf(digits, "%2x", &octet) == 1; digits += 2) text.octets[text.length++] = octet;
    return text;
}

static void read_talk(const char *path) {
    static char line[1 << 20];
    FILE *file = fopen(path, "r");
    int asks = 0, *count = &steps[talks];
    while (file && fgets(line, sizeof line, file)) {
        if (line[0] == '>') asked[talks][asks++] = octets_of(line + 2);
        else if (line[0] == '<' && asks > *count) answers[talks][(*count)++] = octets_of(line + 2);
    }
    talks++;
    if (file) fclose(file);
}

static int is_asked(const Connection *it, int talk, int step) {
    return step >= 0 && step < steps[talk] && it->length == asked[talk][step].length && !memcmp(it->octets, asked[talk][step].octets, it->length);
}

/* Whether a session has the same requests as another up to this step. */
static int is_same(int one, int other, int step) {
    for (int at = 0; at < step; at++)
        if (asked[one][at].length != asked[other][at].length || memcmp(asked[one][at].octets, asked[other][at].octets, asked[one][at].length)) return 0;
    return 1;
}

/* The answer to a whole request, if it is the next one of a session or the last one again. */
static Text *answer_to(Connection *it) {
    for (int talk = it->talk; talk < talks; talk++)
        if (is_asked(it, talk, it->step) && is_same(it->talk, talk, it->step)) {
            it->talk = talk;
            return &answers[talk][it->step++];
        }
    return is_asked(it, it->talk, it->step - 1) ? &answers[it->talk][it->step - 1] : NULL;
}

static void send_answer(int descriptor, Text answer) {
    if (write(descriptor, answer.octets, answer.length) != answer.length) perror("write");
}

static void take(int descriptor, int64_t latency) {
    Connection *it = connections[descriptor];
    ssize_t count = read(descriptor, it->octets + it->length, sizeof it->octets - it->length);
    if (count == 0 || (count < 0 && errno != EAGAIN)) {
        free(it);
        connections[descriptor] = NULL;
        turns[descriptor]++;
        close(descriptor);
        return;
    }
    if (count < 0) return;
    it->length += count;
    if (it->is_silent) { it->length = 0; return; }
    Text *answer = answer_to(it);
    if (!answer) return;
    it->length = 0;
    if (latency == 0) send_answer(descriptor, *answer);
    else late[end_late++ % LATER] = (Late){ microseconds() + latency, descriptor, it->turn, *answer };
}

int main(int count, char **words) {
    if (count < 5) return 2;
    int64_t latency = atoi(words[2]) * 1000LL;
    int silent = atoi(words[3]), accepted = 0, one = 1;
    for (int at = 4; at < count && talks < TALKS; at++) read_talk(words[at]);
    signal(SIGTERM, on_end);
    signal(SIGPIPE, SIG_IGN);
    int listening = socket(AF_INET, SOCK_STREAM | SOCK_NONBLOCK, 0);
    setsockopt(listening, SOL_SOCKET, SO_REUSEADDR, &one, sizeof one);
    struct sockaddr_in address = { .sin_family = AF_INET, .sin_port = htons(atoi(words[1])), .sin_addr.s_addr = htonl(INADDR_LOOPBACK) };
    if (bind(listening, (void *)&address, sizeof address) || listen(listening, 16384)) { perror("listen"); return 1; }
    int events = epoll_create1(0);
    struct epoll_event wanted = { .events = EPOLLIN, .data.fd = listening };
    epoll_ctl(events, EPOLL_CTL_ADD, listening, &wanted);
    fprintf(stderr, "listening\n");
    static struct epoll_event came[1024];
    while (!is_ended) {
        int wait = -1;
        if (first_late != end_late) {
            int64_t left = late[first_late % LATER].at - microseconds();
            wait = left <= 0 ? 0 : (int)((left + 999) / 1000);
        }
        int ready = epoll_wait(events, came, 1024, wait);
        for (int at = 0; at < ready; at++) {
            int descriptor = came[at].data.fd;
            if (descriptor != listening) {
                if (connections[descriptor]) take(descriptor, latency);
                continue;
            }
            for (int it; (it = accept4(listening, NULL, NULL, SOCK_NONBLOCK)) >= 0;) {
                if (it >= CONNECTIONS) { close(it); continue; }
                setsockopt(it, IPPROTO_TCP, TCP_NODELAY, &one, sizeof one);
                connections[it] = calloc(1, sizeof(Connection));
                connections[it]->turn = turns[it];
                connections[it]->is_silent = silent && ++accepted % silent == 0;
                wanted.data.fd = it;
                epoll_ctl(events, EPOLL_CTL_ADD, it, &wanted);
            }
        }
        for (int64_t now = microseconds(); first_late != end_late && late[first_late % LATER].at <= now; first_late++) {
            Late *it = &late[first_late % LATER];
            if (connections[it->descriptor] && connections[it->descriptor]->turn == it->turn) send_answer(it->descriptor, it->answer);
        }
    }
    return 0;
}
