// Clients of a desk that listens, for bench/listen: so many connections, each with one request at a
// time, in one thread that waits for all of them.
//
//     listen_load PORT CLIENTS REQUESTS SECONDS keep|close settled|repeat|get
//
// It ends after REQUESTS replies or SECONDS. `close` takes a connection for each request. `settled`
// are new requests of one caller for each client, `repeat` the first of them again and again, `get`
// a query; all are of one service, which it adds first. It prints the replies a second, the median
// and the 99th percentile of the microseconds from a request to its reply, and how many clients had
// no reply at all. An answer other than 200 ends it with status 1, and so does an end of a stream.
#define _GNU_SOURCE
#include <arpa/inet.h>
#include <errno.h>
#include <netinet/in.h>
#include <netinet/tcp.h>
#include <stdio.h>
#include <stdlib.h>
#include <string.h>
#include <sys/epoll.h>
#include <sys/socket.h>
#include <time.h>
#include <unistd.h>

struct client {
    int socket;
    long number;     // of its last request
    long replies;
    double sent;     // when it sent that, or began to connect for it
    size_t held;     // bytes of its reply that have come
    char reply[4096];
};

static struct sockaddr_in desk;
static int events, closes;
static const char *kind;

static void fail(const char *why) {
    perror(why);
    exit(1);
}

static double now(void) {
    struct timespec at;
    clock_gettime(CLOCK_MONOTONIC, &at);
    return at.tv_sec + at.tv_nsec * 1e-9;
}

static int dial(int flags) {
    int one = 1, opened = socket(AF_INET, SOCK_STREAM | flags, 0);
    if (opened < 0)
        fail("socket");
    setsockopt(opened, IPPROTO_TCP, TCP_NODELAY, &one, sizeof one);
    if (connect(opened, (struct sockaddr *)&desk, sizeof desk) && errno != EINPROGRESS)
        fail("connect");
    return opened;
}

// From now on waits until the client can write, or can read.
static void await(struct client *client, int change, int what) {
    struct epoll_event event = {.events = what, .data.ptr = client};
    if (epoll_ctl(events, change, client->socket, &event))
        fail("epoll_ctl");
}

// Begins to connect a client, which asks once it is connected.
static void come(struct client *client) {
    client->socket = dial(SOCK_NONBLOCK);
    await(client, EPOLL_CTL_ADD, EPOLLOUT);
}

static void send_all(int to, const char *message, size_t length) {
    if (write(to, message, length) != (ssize_t)length)
        fail("write");
}

static void put(int to, const char *caller, long number, const char *body, const char *fields) {
    char message[1024];
    int length = snprintf(message, sizeof message,
                          "PUT /callers/%s/requests/%ld HTTP/1.1\r\nHost: desk\r\n"
                          "Content-Length: %zu\r\n%s\r\n%s",
                          caller, number, strlen(body), fields, body);
    send_all(to, message, length);
}

// Sends the next request of a client, the one with the place `place`.
static void ask(struct client *client, long place) {
    const char *fields = closes ? "Connection: close\r\n" : "";
    char text[256];
    client->held = 0;
    if (!strcmp(kind, "get")) {
        int length = snprintf(text, sizeof text,
                              "GET /services/web HTTP/1.1\r\nHost: desk\r\n%s\r\n", fields);
        send_all(client->socket, text, length);
        return;
    }
    if (client->number == 0 || strcmp(kind, "repeat"))
        client->number++;
    snprintf(text, sizeof text, "client-%ld", place);
    put(client->socket, text, client->number, "{\"tick\":{\"service\":\"web\"}}", fields);
}

// Reads what has come of a reply, and says whether it is whole.
static int is_answered(struct client *client) {
    ssize_t come = read(client->socket, client->reply + client->held,
                        sizeof client->reply - 1 - client->held);
    if (come <= 0)
        fail("the stream ends");
    client->held += come;
    client->reply[client->held] = 0;
    char *end = strstr(client->reply, "\r\n\r\n");
    char *length = strcasestr(client->reply, "content-length:");
    if (!end || !length || client->reply + client->held < end + 4 + atoi(length + 15))
        return 0;
    if (strncmp(client->reply, "HTTP/1.1 200", 12)) {
        fprintf(stderr, "%s\n", client->reply);
        exit(1);
    }
    return 1;
}

// Adds the service, over a connection of its own that is closed before the others come.
static void add_service(void) {
    struct client setup = {.socket = dial(0)};
    put(setup.socket, "setup", 1,
        "{\"service\":{\"version\":\"v1\",\"manifest\":{\"metadata\":{\"name\":\"web\"},\"spec\":"
        "{\"strategy\":{\"canary\":{\"steps\":[{\"setWeight\":20},{\"pause\":{}}]}}}}}}",
        "Connection: close\r\n");
    while (!is_answered(&setup))
        ;
    close(setup.socket);
}

// Takes the reply of a client and sends its next request: how long the reply took.
static double go_on(struct client *client, long place) {
    double at = now(), spent = at - client->sent;
    client->replies++;
    client->sent = at;
    if (closes) {
        close(client->socket);
        come(client);
    } else {
        ask(client, place);
    }
    return spent;
}

// Lets the clients go on until there are so many replies, or so late: how many there are.
static long serve(struct client *clients, double *spent, long most, double until) {
    struct epoll_event ready[64];
    long done = 0;
    while (done < most && now() < until) {
        int count = epoll_wait(events, ready, 64, 100);
        for (int i = 0; i < count && done < most; i++) {
            struct client *client = ready[i].data.ptr;
            if (ready[i].events & EPOLLOUT) {
                ask(client, client - clients);
                await(client, EPOLL_CTL_MOD, EPOLLIN);
            } else if (is_answered(client))
                spent[done++] = go_on(client, client - clients);
        }
    }
    return done;
}

static int compare(const void *one, const void *other) {
    double a = *(const double *)one, b = *(const double *)other;
    return (a > b) - (a < b);
}

int main(int count, char **words) {
    if (count != 7)
        return 2;
    long number = atol(words[2]), most = atol(words[3]), starved = 0;
    closes = !strcmp(words[5], "close");
    kind = words[6];
    desk.sin_family = AF_INET;
    desk.sin_port = htons(atoi(words[1]));
    desk.sin_addr.s_addr = htonl(INADDR_LOOPBACK);
    struct client *clients = calloc(number, sizeof *clients);
    double *spent = calloc(most, sizeof *spent);
    if (!clients || !spent || (events = epoll_create1(0)) < 0)
        fail("no memory");
    add_service();
    double begun = now();
    for (long i = 0; i < number; i++) {
        clients[i].sent = now();
        come(&clients[i]);
    }
    long done = serve(clients, spent, most, begun + atof(words[4]));
    double took = now() - begun;
    for (long i = 0; i < number; i++)
        starved += clients[i].replies == 0;
    qsort(spent, done, sizeof *spent, compare);
    printf("%.0f %.1f %.1f %ld\n", done / took, done ? spent[done / 2] * 1e6 : 0,
           done ? spent[done * 99 / 100] * 1e6 : 0, starved);
    return 0;
}
