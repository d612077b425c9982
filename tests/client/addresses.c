/* Addresses of names that no machine has, for a program that is begun with this library in
   LD_PRELOAD: `six-first` has ::1 and then 127.0.0.1, `four-first` has 127.0.0.1 first, and for
   `no-memory` there is no memory. */
#define _GNU_SOURCE
#include <dlfcn.h>
#include <netdb.h>
#include <string.h>

typedef int look_up(const char *, const char *, const struct addrinfo *, struct addrinfo **);

int getaddrinfo(const char *name, const char *port, const struct addrinfo *hints,
                struct addrinfo **found) {
    look_up *real = (look_up *)dlsym(RTLD_NEXT, "getaddrinfo");
    if (name && strcmp(name, "no-memory") == 0)
        return EAI_MEMORY;
    int six = name && strcmp(name, "six-first") == 0;
    int four = name && strcmp(name, "four-first") == 0;
    if (!six && !four)
        return real(name, port, hints, found);
    int failed = real(six ? "::1" : "127.0.0.1", port, hints, found);
    if (failed)
        return failed;
    struct addrinfo *last = *found;
    while (last->ai_next)
        last = last->ai_next;
    return real(six ? "127.0.0.1" : "::1", port, hints, &last->ai_next);
}
