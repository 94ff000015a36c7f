/* The peers of bench/serve, bench/run and bench/speed, built by them with `cc -O2`:
 *
 *   keep PORT COUNT   asks COUNT times over one connection, each time when the answer is there, and prints the seconds
 *   anew PORT COUNT   does so over a connection for each request
 *   paced PORT COUNT CONNECTIONS RATE
 *                     sends COUNT requests at that RATE a second, whether or not answers arrive in time, and prints the seconds, and the microseconds
 *                     within which 500, 990 and 999 of 1,000 answers arrive. If all connections are busy, a request waits for one. Each time is
 *                     measured from when the request is due, so that a slow answer makes later ones late. The client keeps its core busy
 *   memory FILE ..    listens on 127.0.0.1, prints `listening PORT`, and answers each request for the name of a file with its bytes, which are a whole
 *                     response. One event loop writes them from memory, in parts of 64 KiB, to sockets that never block
 *   floor             listens on 127.0.0.1, prints `listening PORT`, and answers each read with one write of the same bytes, a connection after another:
 *                     no server that makes these two calls a request can be faster
 */
#include <arpa/inet.h>
#include <errno.h>
#include <netinet/in.h>
#include <netinet/tcp.h>
#include <stdio.h>
#include <stdlib.h>
#include <string.h>
#include <strings.h>
#include <sys/epoll.h>
#include <sys/socket.h>
#include <time.h>
#include <unistd.h>

#define MOST_EVENTS 512
#define PART 65536
#define HEAD "GET /who HTTP/1.1\r\nHost: localhost\r\n"

static const char ANSWER[] =
    "HTTP/1.1 200 OK\r\ndate: Thu, 01 Jan 1970 00:00:00 GMT\r\ncontent-type: text/plain\r\ncontent-length: 9\r\n\r\ncaller -\n";

static void fail(const char *what) {
    perror(what);
    exit(1);
}

static double seconds(void) {
    struct timespec now;
    clock_gettime(CLOCK_MONOTONIC, &now);
    return now.tv_sec + now.tv_nsec / 1e9;
}

static struct sockaddr_in loopback(int port) {
    struct sockaddr_in address = {.sin_family = AF_INET, .sin_port = htons(port)};
    address.sin_addr.s_addr = htonl(INADDR_LOOPBACK);
    return address;
}

static int connected(int port) {
    struct sockaddr_in address = loopback(port);
    int one = 1, stream = socket(AF_INET, SOCK_STREAM, 0);
    if (stream < 0 || connect(stream, (struct sockaddr *)&address, sizeof address) < 0) fail("connect");
    setsockopt(stream, IPPROTO_TCP, TCP_NODELAY, &one, sizeof one);
    return stream;
}

/* The length of the answer that begins a text, or 0 where its head is not whole. */
static size_t answer_length(const char *text) {
    const char *end = strstr(text, "\r\n\r\n");
    const char *length = strcasestr(text, "content-length: ");
    return end && length && length < end ? end + 4 - text + strtoul(length + 16, NULL, 10) : 0;
}

/* Asks once and reads the whole answer. */
static void ask(int stream, const char *request) {
    static char text[65536];
    size_t have = 0, size = strlen(request);
    if (send(stream, request, size, MSG_NOSIGNAL) != (ssize_t)size) fail("send");
    do {
        ssize_t count = recv(stream, text + have, sizeof text - 1 - have, 0);
        if (count <= 0) fail("recv");
        have += count;
        text[have] = 0;
    } while (answer_length(text) == 0 || have < answer_length(text));
    if (strncmp(text, "HTTP/1.1 200 ", 13) || strcmp(text + have - 9, "caller -\n")) {
        fprintf(stderr, "another answer: %s\n", text);
        exit(1);
    }
}

static void keep(int port, long count) {
    int stream = connected(port);
    while (count-- > 0) ask(stream, HEAD "\r\n");
    close(stream);
}

static void anew(int port, long count) {
    while (count-- > 0) {
        int stream = connected(port);
        ask(stream, HEAD "Connection: close\r\n\r\n");
        close(stream);
    }
}

/* A connection that waits for an answer: the bytes received, and the time from which it is measured. */
struct waiting {
    int stream;
    char text[1024];
    size_t have;
    double since;
};

static void ask_on(struct waiting *waiting, double since) {
    static const char request[] = HEAD "\r\n";
    waiting->have = 0;
    waiting->since = since;
    if (send(waiting->stream, request, sizeof request - 1, MSG_NOSIGNAL) != sizeof request - 1) fail("send");
}

/* Reads what came; says whether the answer is whole. */
static int is_answered(struct waiting *waiting) {
    ssize_t count = recv(waiting->stream, waiting->text + waiting->have, sizeof waiting->text - 1 - waiting->have, 0);
    if (count <= 0) fail("recv");
    waiting->have += count;
    waiting->text[waiting->have] = 0;
    size_t length = answer_length(waiting->text);
    return length && waiting->have >= length;
}

static int rising(const void *one, const void *other) {
    double first = *(const double *)one, second = *(const double *)other;
    return (first > second) - (first < second);
}

static void watch(int poller, int stream, unsigned events, void *what) {
    struct epoll_event event = {.events = events, .data.ptr = what};
    if (epoll_ctl(poller, EPOLL_CTL_ADD, stream, &event) < 0) fail("epoll_ctl");
}

static void print_times(double *times, long count, double took) {
    static const int shares[] = {500, 990, 999};
    qsort(times, count, sizeof *times, rising);
    printf("%.6f\n", took);
    for (int i = 0; i < 3; i++) printf("%.1f\n", times[(count - 1) * shares[i] / 1000] * 1e6);
}

/* The connections take turns: the next request uses the one that is idle longest. */
static void paced(int port, long count, int connections, double rate) {
    struct waiting *all = calloc(connections, sizeof *all), **idle = calloc(connections, sizeof *idle);
    struct epoll_event events[MOST_EVENTS];
    double *times = calloc(count, sizeof *times), start;
    long asked = 0, answered = 0;
    int poller = epoll_create1(0);
    for (int i = 0; i < connections; i++) {
        idle[i] = &all[i];
        all[i].stream = connected(port);
        watch(poller, all[i].stream, EPOLLIN, &all[i]);
    }
    start = seconds();
    while (answered < count) {
        double now = seconds();
        for (; asked < count && asked - answered < connections && start + asked / rate <= now; asked++)
            ask_on(idle[asked % connections], start + asked / rate);
        int ready = epoll_wait(poller, events, MOST_EVENTS, 0);
        for (int i = 0; i < ready; i++) {
            struct waiting *waiting = events[i].data.ptr;
            if (!is_answered(waiting)) continue;
            times[answered] = seconds() - waiting->since;
            idle[answered++ % connections] = waiting;
        }
    }
    print_times(times, count, seconds() - start);
}

/* Answers each read of a connection until a request asks to close it, or the peer does. */
static void answer_all(int stream) {
    char text[16384];
    for (ssize_t count; (count = recv(stream, text, sizeof text - 1, 0)) > 0;) {
        text[count] = 0;
        if (send(stream, ANSWER, sizeof ANSWER - 1, MSG_NOSIGNAL) < 0 || strstr(text, "close\r\n")) break;
    }
    close(stream);
}

/* Listens on a free port, and prints it. */
static int listening(void) {
    struct sockaddr_in address = loopback(0);
    socklen_t size = sizeof address;
    int listener = socket(AF_INET, SOCK_STREAM, 0);
    if (bind(listener, (struct sockaddr *)&address, size) < 0 || listen(listener, 1024) < 0) fail("listen");
    getsockname(listener, (struct sockaddr *)&address, &size);
    printf("listening %d\n", ntohs(address.sin_port));
    fflush(stdout);
    return listener;
}

static void floor_server(void) {
    int one = 1, listener = listening();
    for (int stream; (stream = accept(listener, NULL, NULL)) >= 0;) {
        setsockopt(stream, IPPROTO_TCP, TCP_NODELAY, &one, sizeof one);
        answer_all(stream);
    }
}

struct file {
    const char *name;
    char *bytes;
    size_t size;
};

/* A connection of the event loop: the bytes of its request, and the file that it sends, with the number of bytes sent. */
struct served {
    int stream;
    char text[4096];
    size_t have, sent;
    const struct file *file;
};

static struct file read_file(const char *path) {
    struct file file = {.name = strrchr(path, '/') ? strrchr(path, '/') + 1 : path};
    FILE *source = fopen(path, "rb");
    if (!source || fseek(source, 0, SEEK_END)) fail(path);
    file.size = ftell(source);
    file.bytes = malloc(file.size);
    rewind(source);
    if (fread(file.bytes, 1, file.size, source) != file.size) fail(path);
    fclose(source);
    return file;
}

/* Reads bytes, and finds the file once the request is complete. Returns 0 if the connection must be closed. */
static int take_request(struct served *served, const struct file *files, int count) {
    ssize_t came = recv(served->stream, served->text + served->have, sizeof served->text - 1 - served->have, 0);
    if (came <= 0) return came < 0 && errno == EAGAIN;
    served->have += came;
    served->text[served->have] = 0;
    if (!strstr(served->text, "\r\n\r\n")) return 1;
    const char *name = served->text + sizeof "GET /" - 1;
    for (int i = 0; i < count; i++)
        if (!strncmp(name, files[i].name, strcspn(name, " ")) && !files[i].name[strcspn(name, " ")]) served->file = &files[i];
    served->have = served->sent = 0;
    return served->file != NULL;
}

/* Writes as much of the file as the socket accepts. Returns 0 if the connection must be closed. */
static int write_file(struct served *served) {
    while (served->sent < served->file->size) {
        size_t left = served->file->size - served->sent;
        ssize_t sent = send(served->stream, served->file->bytes + served->sent, left < PART ? left : PART, MSG_NOSIGNAL);
        if (sent < 0) return errno == EAGAIN;
        served->sent += sent;
    }
    served->file = NULL;
    return 1;
}

static void accept_one(int poller, int listener) {
    int one = 1, stream = accept4(listener, NULL, NULL, SOCK_NONBLOCK);
    if (stream < 0) fail("accept4");
    struct served *served = calloc(1, sizeof *served);
    served->stream = stream;
    setsockopt(stream, IPPROTO_TCP, TCP_NODELAY, &one, sizeof one);
    watch(poller, stream, EPOLLIN | EPOLLOUT | EPOLLET, served);
}

static void serve_memory(int count, char **paths) {
    struct file *files = calloc(count, sizeof *files);
    struct epoll_event events[MOST_EVENTS];
    int poller = epoll_create1(0);
    for (int i = 0; i < count; i++) files[i] = read_file(paths[i]);
    int listener = listening();
    watch(poller, listener, EPOLLIN, NULL);
    for (;;) {
        int ready = epoll_wait(poller, events, MOST_EVENTS, -1);
        for (int i = 0; i < ready; i++) {
            struct served *served = events[i].data.ptr;
            if (!served) {
                accept_one(poller, listener);
            } else if ((!served->file && !take_request(served, files, count)) || (served->file && !write_file(served))) {
                close(served->stream);
                free(served);
            }
        }
    }
}

int main(int count, char **words) {
    double start = seconds();
    if (count == 2 && !strcmp(words[1], "floor")) floor_server();
    else if (count == 4 && !strcmp(words[1], "keep")) keep(atoi(words[2]), atol(words[3]));
    else if (count == 4 && !strcmp(words[1], "anew")) anew(atoi(words[2]), atol(words[3]));
    else if (count == 6 && !strcmp(words[1], "paced")) return paced(atoi(words[2]), atol(words[3]), atoi(words[4]), atof(words[5])), 0;
    else if (count > 2 && !strcmp(words[1], "memory")) serve_memory(count - 2, words + 2);
    else return 2;
    printf("%.6f\n", seconds() - start);
    return 0;
}
