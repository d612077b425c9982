/* Fails calls of a program that is begun with this library in LD_PRELOAD, as long as the file WHILE
   is there. Of the two words in that file the first is an error's number and the second a port:
   connect() to that port fails so, with port 0 socket() does, with -1 a connection that was begun,
   and with -PORT one to that port. If the first is below 0, getaddrinfo() answers it, and leaves the second in errno. A host
   whose name begins with `both` has an address of IPv6 first, and then the one of IPv4. The steady
   clock goes FASTER times as fast. */
#define _GNU_SOURCE
#include <arpa/inet.h>
#include <errno.h>
#include <fcntl.h>
#include <netdb.h>
#include <stdio.h>
#include <stdlib.h>
#include <string.h>
#include <sys/socket.h>
#include <sys/syscall.h>
#include <time.h>
#include <unistd.h>

/* Reads the two numbers; whether they are there. */
static int is_hindered(int *first, int *second) {
    const char *name = getenv("WHILE");
    char text[64];
    int kept = errno, file = name ? open(name, O_RDONLY | O_CLOEXEC) : -1;
    ssize_t length = file < 0 ? -1 : read(file, text, sizeof text - 1);
    if (file >= 0)
        close(file);
    errno = kept;
    if (length <= 0)
        return 0;
    text[length] = 0;
    return sscanf(text, "%d %d", first, second) == 2;
}

int socket(int family, int kind, int protocol) {
    int error, port;
    if (family != AF_UNIX && is_hindered(&error, &port) && error > 0 && port == 0) {
        errno = error;
        return -1;
    }
    return syscall(SYS_socket, family, kind, protocol);
}

int connect(int file, const struct sockaddr *address, socklen_t length) {
    int error, port;
    const struct sockaddr_in *known = (const struct sockaddr_in *)address;
    if (address->sa_family == AF_INET && is_hindered(&error, &port) && error > 0 && port > 0
        && ntohs(known->sin_port) == port) {
        errno = error;
        return -1;
    }
    return syscall(SYS_connect, file, address, length);
}

/* Whether a socket has a connection to this port. */
static int leads_to(int file, int port) {
    struct sockaddr_in peer;
    socklen_t length = sizeof peer;
    return syscall(SYS_getpeername, file, &peer, &length) == 0 && ntohs(peer.sin_port) == port;
}

int getsockopt(int file, int level, int name, void *value, socklen_t *length) {
    int error, port;
    if (level == SOL_SOCKET && name == SO_ERROR && is_hindered(&error, &port) && error > 0
        && (port == -1 || (port < -1 && leads_to(file, -port)))) {
        memcpy(value, &error, sizeof error);
        *length = sizeof error;
        return 0;
    }
    return syscall(SYS_getsockopt, file, level, name, value, length);
}

int clock_gettime(clockid_t clock, struct timespec *time) {
    static long long begun;
    const char *factor = getenv("FASTER");
    int answer = syscall(SYS_clock_gettime, clock, time);
    long long now = time->tv_sec * 1000000000LL + time->tv_nsec;
    if (answer != 0 || clock != CLOCK_MONOTONIC || factor == NULL)
        return answer;
    if (begun == 0)
        begun = now;
    now = begun + (now - begun) * strtol(factor, NULL, 10);
    time->tv_sec = now / 1000000000;
    time->tv_nsec = now % 1000000000;
    return 0;
}

/* An address of this machine, and those that come after it. */
static struct addrinfo *address_of(int family, struct addrinfo *next) {
    struct addrinfo *one = calloc(1, sizeof *one);
    struct sockaddr_storage *address = calloc(1, sizeof *address);
    one->ai_family = address->ss_family = family;
    one->ai_socktype = SOCK_STREAM;
    one->ai_addr = (struct sockaddr *)address;
    one->ai_next = next;
    if (family == AF_INET6) {
        ((struct sockaddr_in6 *)address)->sin6_addr = in6addr_loopback;
        one->ai_addrlen = sizeof(struct sockaddr_in6);
    } else {
        ((struct sockaddr_in *)address)->sin_addr.s_addr = htonl(INADDR_LOOPBACK);
        one->ai_addrlen = sizeof(struct sockaddr_in);
    }
    return one;
}

int getaddrinfo(const char *name, const char *service, const struct addrinfo *hints,
                struct addrinfo **found) {
    int code, error;
    (void)service, (void)hints;
    if (is_hindered(&code, &error) && code < 0) {
        errno = error;
        return code;
    }
    *found = address_of(AF_INET, NULL);
    if (strncmp(name, "both", 4) == 0)
        *found = address_of(AF_INET6, *found);
    return 0;
}

void freeaddrinfo(struct addrinfo *found) {
    while (found != NULL) {
        struct addrinfo *next = found->ai_next;
        free(found->ai_addr);
        free(found);
        found = next;
    }
}
