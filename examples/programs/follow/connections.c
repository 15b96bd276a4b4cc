#include "connections.h"

#include "errors.h"

#include <errno.h>
#include <fcntl.h>
#include <poll.h>
#include <stdlib.h>
#include <string.h>
#include <sys/socket.h>
#include <unistd.h>

/* If a client has this many bytes of answers to read, no more of its requests are read. */
#define UNREAD_MOST 65536

void connections_open(struct connections *connections, int listener, const char *address)
{
    memset(connections, 0, sizeof *connections);
    connections->listener = listener;
    if (fcntl(listener, F_SETFL, O_NONBLOCK) != 0 || listen(listener, 64) != 0) {
        fail(STATUS_NETWORK, "%s: %s", address, strerror(errno));
    }
}

/* Where the line feed of the connection's next line is, or NULL. */
static const char *line_end(const struct connection *connection)
{
    return memchr(connection->input, '\n', connection->used);
}

static bool has_line(const struct connection *connection)
{
    return !connection->is_broken && connection->answers.length < UNREAD_MOST && line_end(connection) != NULL;
}

static bool has_any_line(const struct connections *connections)
{
    for (size_t i = 0; i < connections->count; i++) {
        if (has_line(connections->all[i])) {
            return true;
        }
    }
    return false;
}

static void accept_one(struct connections *connections)
{
    int socket = accept(connections->listener, NULL, NULL);
    struct connection *connection;
    int one = 1;

    if (socket < 0) {
        /* The client has gone, or there are too many files: the others go on. */
        return;
    }
    connection = calloc(1, sizeof *connection);
    /* A client whose machine has gone is noticed some time. */
    if (connection == NULL || fcntl(socket, F_SETFL, O_NONBLOCK) != 0
        || setsockopt(socket, SOL_SOCKET, SO_KEEPALIVE, &one, sizeof one) != 0) {
        free(connection);
        close(socket);
        return;
    }
    connection->socket = socket;
    connections->all[connections->count++] = connection;
}

/* Drops this many bytes at the front of what came. */
static void drop(struct connection *connection, size_t length)
{
    connection->used -= length;
    memmove(connection->input, connection->input + length, connection->used);
}

/* Refuses a line that is longer than the buffer, and drops what comes of it. */
static void skip_long_line(struct connection *connection)
{
    const char *end = line_end(connection);

    if (connection->is_skipping) {
        drop(connection, end == NULL ? connection->used : (size_t)(end - connection->input) + 1);
        connection->is_skipping = end == NULL;
    } else if (connection->used == LINE_MOST && end == NULL) {
        text_print(&connection->answers, "refused: a line has more than %d bytes\n", LINE_MOST);
        connection->used = 0;
        connection->is_skipping = true;
    }
}

static void read_some(struct connection *connection)
{
    ssize_t count = read(connection->socket, connection->input + connection->used, LINE_MOST - connection->used);

    if (count > 0) {
        connection->used += (size_t)count;
        skip_long_line(connection);
    } else if (count == 0) {
        connection->is_ended = true;
    } else if (errno != EAGAIN && errno != EINTR) {
        connection->is_broken = true;
    }
}

/* What to wait for at a connection's socket. */
static short events_of(const struct connection *connection)
{
    short events = 0;

    if (!connection->is_ended && connection->used < LINE_MOST && connection->answers.length < UNREAD_MOST) {
        events |= POLLIN;
    }
    if (connection->kept != 0) {
        events |= POLLOUT;
    }
    return events;
}

void connections_wait(struct connections *connections, int milliseconds)
{
    struct pollfd places[CONNECTIONS_MOST + 1];
    size_t count = connections->count;

    for (size_t i = 0; i < count; i++) {
        places[i] = (struct pollfd){ connections->all[i]->socket, events_of(connections->all[i]), 0 };
    }
    places[count] = (struct pollfd){ count < CONNECTIONS_MOST ? connections->listener : -1, POLLIN, 0 };
    if (poll(places, (nfds_t)count + 1, has_any_line(connections) ? 0 : milliseconds) < 0) {
        if (errno != EINTR) {
            fail(STATUS_NETWORK, "poll: %s", strerror(errno));
        }
        return;
    }
    for (size_t i = 0; i < count; i++) {
        if ((places[i].revents & (POLLERR | POLLNVAL)) != 0) {
            connections->all[i]->is_broken = true;
        } else if ((places[i].events & POLLIN) != 0 && (places[i].revents & (POLLIN | POLLHUP)) != 0) {
            read_some(connections->all[i]);
        }
    }
    if ((places[count].revents & POLLIN) != 0) {
        accept_one(connections);
    }
}

struct connection *connections_next_line(struct connections *connections, struct span *line)
{
    for (size_t i = 0; i < connections->count; i++) {
        struct connection *connection = connections->all[connections->next % connections->count];

        connections->next = (connections->next + 1) % connections->count;
        if (has_line(connection)) {
            *line = (struct span){ connection->input, (size_t)(line_end(connection) - connection->input) };
            return connection;
        }
    }
    return NULL;
}

void connections_drop_line(struct connection *connection, struct span line)
{
    drop(connection, line.length + 1);
}

/* Sends what the socket takes. */
static void send_some(struct connection *connection)
{
    ssize_t count = send(connection->socket, connection->answers.at, connection->kept, MSG_NOSIGNAL);

    if (count >= 0) {
        text_drop(&connection->answers, (size_t)count);
        connection->kept -= (size_t)count;
    } else if (errno != EAGAIN && errno != EINTR) {
        connection->is_broken = true;
    }
}

static void connection_close(struct connection *connection)
{
    close(connection->socket);
    text_free(&connection->answers);
    free(connection);
}

/* Whether nothing more comes of a connection. */
static bool is_over(const struct connection *connection)
{
    return connection->is_broken || (connection->is_ended && line_end(connection) == NULL && connection->answers.length == 0);
}

void connections_release(struct connections *connections)
{
    size_t left = 0;

    for (size_t i = 0; i < connections->count; i++) {
        struct connection *connection = connections->all[i];

        connection->kept = connection->answers.length;
        if (connection->kept != 0) {
            send_some(connection);
        }
        if (is_over(connection)) {
            connection_close(connection);
        } else {
            connections->all[left++] = connection;
        }
    }
    connections->count = left;
}

void connections_close(struct connections *connections)
{
    for (size_t i = 0; i < connections->count; i++) {
        connection_close(connections->all[i]);
    }
    close(connections->listener);
}
