#include "address.h"

#include "errors.h"
#include "text.h"

#include <errno.h>
#include <netdb.h>
#include <stdio.h>
#include <string.h>
#include <sys/socket.h>
#include <sys/time.h>
#include <time.h>
#include <unistd.h>

struct address address_read(const char *word)
{
    struct address address = { .host = "127.0.0.1" };
    const char *colon = strrchr(word, ':');
    const char *digits = colon == NULL ? word : colon + 1;
    uint64_t port = 0;

    if (!span_number((struct span){ digits, strlen(digits) }, &port) || port == 0 || port > UINT16_MAX
        || (colon != NULL && (colon == word || (size_t)(colon - word) >= sizeof address.host))) {
        fail(STATUS_WORDS, "%s is no address: write HOST:PORT or PORT", word);
    }
    if (colon != NULL) {
        memcpy(address.host, word, (size_t)(colon - word));
        address.host[colon - word] = '\0';
    }
    address.port = (uint16_t)port;
    snprintf(address.name, sizeof address.name, "%s:%u", address.host, (unsigned)address.port);
    return address;
}

/* The first place of this address. Free it by freeaddrinfo. NULL: there is none. */
static struct addrinfo *place_of(const struct address *address)
{
    struct addrinfo wanted = { .ai_family = AF_INET, .ai_socktype = SOCK_STREAM };
    struct addrinfo *found = NULL;
    char port[8];

    snprintf(port, sizeof port, "%u", (unsigned)address->port);
    return getaddrinfo(address->host, port, &wanted, &found) == 0 ? found : NULL;
}

int address_bind(const struct address *address)
{
    struct addrinfo *place = place_of(address);
    int one = 1;
    int listener;

    if (place == NULL) {
        fail(STATUS_NETWORK, "%s: there is no such host", address->name);
    }
    listener = socket(place->ai_family, place->ai_socktype, 0);
    if (listener < 0 || setsockopt(listener, SOL_SOCKET, SO_REUSEADDR, &one, sizeof one) != 0
        || bind(listener, place->ai_addr, place->ai_addrlen) != 0) {
        fail(STATUS_NETWORK, "%s: %s", address->name, strerror(errno));
    }
    freeaddrinfo(place);
    return listener;
}

int address_connect(const struct address *address, int milliseconds)
{
    struct timeval most = { milliseconds / 1000, milliseconds % 1000 * 1000 };
    struct addrinfo *place = place_of(address);
    int one;

    if (place == NULL) {
        return -1;
    }
    one = socket(place->ai_family, place->ai_socktype, 0);
    if (one < 0 || setsockopt(one, SOL_SOCKET, SO_RCVTIMEO, &most, sizeof most) != 0
        || setsockopt(one, SOL_SOCKET, SO_SNDTIMEO, &most, sizeof most) != 0) {
        fail(STATUS_NETWORK, "a socket can't be opened: %s", strerror(errno));
    }
    if (connect(one, place->ai_addr, place->ai_addrlen) != 0) {
        close(one);
        one = -1;
    }
    freeaddrinfo(place);
    return one;
}

int64_t now(void)
{
    struct timespec time;

    if (clock_gettime(CLOCK_MONOTONIC, &time) != 0) {
        fail(STATUS_NETWORK, "there is no clock");
    }
    return (int64_t)time.tv_sec * 1000 + time.tv_nsec / 1000000;
}

void sleep_for(int milliseconds)
{
    struct timespec time = { milliseconds / 1000, milliseconds % 1000 * 1000000L };

    nanosleep(&time, NULL);
}
