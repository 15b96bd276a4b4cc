#include "client.h"

#include "errors.h"
#include "text.h"

#include <inttypes.h>
#include <stdio.h>
#include <stdlib.h>
#include <string.h>
#include <sys/socket.h>
#include <unistd.h>

/* Milliseconds for an answer before it is asked again, for one that is asked once, between two tries, and until a leader has to
 * answer. */
#define ANSWER_TIME 2000
#define ONLY_ANSWER_TIME 30000
#define TRY_TIME 20
#define AWAY_TIME 60000

struct session {
    uint64_t client;
    const struct address *addresses;
    size_t count;
    /* The address that is tried now, and the socket, or -1. */
    size_t tried;
    int socket;
    /* What came from the socket and is no whole line yet. */
    struct text input;
};

static void disconnect(struct session *session)
{
    if (session->socket >= 0) {
        close(session->socket);
    }
    session->socket = -1;
    text_drop(&session->input, session->input.length);
}

/* Sends all, or returns false. */
static bool send_all(int socket, const char *at, size_t length)
{
    while (length != 0) {
        ssize_t count = send(socket, at, length, MSG_NOSIGNAL);

        if (count <= 0) {
            return false;
        }
        at += count;
        length -= (size_t)count;
    }
    return true;
}

/* Receives a line without its line feed. Returns false if none comes in time. */
static bool receive_line(struct session *session, struct text *line)
{
    char part[4096];
    const char *end;

    while (session->input.length == 0 || (end = memchr(session->input.at, '\n', session->input.length)) == NULL) {
        ssize_t count = recv(session->socket, part, sizeof part, 0);

        if (count <= 0) {
            return false;
        }
        text_add(&session->input, part, (size_t)count);
    }
    text_drop(line, line->length);
    text_add(line, session->input.at, (size_t)(end - session->input.at));
    text_drop(&session->input, line->length + 1);
    return true;
}

/* One try: connects if need be, sends the request, and receives the answer. */
static bool try_once(struct session *session, const struct text *request, struct text *answer)
{
    if (session->socket < 0) {
        session->socket = address_connect(&session->addresses[session->tried], ANSWER_TIME);
    }
    return session->socket >= 0 && send_all(session->socket, request->at, request->length) && receive_line(session, answer);
}

/* Sends a request until it is answered. What breaks in between may have been performed or not: the leader knows by the request's
 * number. */
static void ask(struct session *session, const struct text *request, struct text *answer)
{
    int64_t until = now() + AWAY_TIME;

    while (!try_once(session, request, answer)) {
        disconnect(session);
        session->tried = (session->tried + 1) % session->count;
        if (now() > until) {
            fail(STATUS_NETWORK, "client %" PRIu64 ": no leader answers", session->client);
        }
        sleep_for(TRY_TIME);
    }
}

/* What is after a prefix of an answer, or all of an answer that has another. */
static struct span behind(const struct text *answer, const struct text *prefix)
{
    struct span all = { answer->at, answer->length };

    if (!span_begins(all, prefix->at)) {
        return all;
    }
    return (struct span){ all.at + prefix->length, all.length - prefix->length };
}

/* The number of the client's last request that was performed, also by an earlier process. */
static uint64_t ask_for_last(struct session *session)
{
    struct text request = { NULL, 0, 0 }, prefix = { NULL, 0, 0 }, answer = { NULL, 0, 0 };
    uint64_t last;

    text_print(&prefix, "%" PRIu64 " last ", session->client);
    text_print(&request, "%" PRIu64 " last\n", session->client);
    ask(session, &request, &answer);
    if (!span_number(behind(&answer, &prefix), &last)) {
        fail(STATUS_FAULT, "client %" PRIu64 ": this is no answer: %s", session->client, answer.at);
    }
    text_free(&request);
    text_free(&prefix);
    text_free(&answer);
    return last;
}

/* Asks by one line, and prints the answer. Returns whether the request was performed, so that its number is used. */
static bool ask_line(struct session *session, uint64_t number, struct span line)
{
    struct text request = { NULL, 0, 0 }, prefix = { NULL, 0, 0 }, answer = { NULL, 0, 0 };
    struct span words;
    bool performed;

    text_print(&prefix, "%" PRIu64 " %" PRIu64 " ", session->client, number);
    text_add(&request, prefix.at, prefix.length);
    text_add(&request, line.at, line.length);
    text_add(&request, "\n", 1);
    ask(session, &request, &answer);
    words = behind(&answer, &prefix);
    performed = words.length != answer.length;
    fwrite(words.at, 1, words.length, stdout);
    if (putchar('\n') == EOF) {
        fail(STATUS_NETWORK, "standard output can't be written");
    }
    text_free(&request);
    text_free(&prefix);
    text_free(&answer);
    return performed;
}

/* Sleeps until the next request may be sent. */
static void pause_until(int64_t next)
{
    int64_t left = next - now();

    if (left > 0) {
        sleep_for((int)left);
    }
}

void client_run(uint64_t client, const struct address *addresses, size_t count, int milliseconds)
{
    struct session session = { client, addresses, count, 0, -1, { NULL, 0, 0 } };
    uint64_t number = ask_for_last(&session) + 1;
    char *line = NULL;
    size_t capacity = 0;
    ssize_t length;

    while (!is_stopping && (length = getline(&line, &capacity, stdin)) >= 0) {
        size_t whole = (size_t)length - (length > 0 && line[length - 1] == '\n');
        int64_t next = now() + milliseconds;

        number += ask_line(&session, number, (struct span){ line, whole });
        pause_until(next);
    }
    free(line);
    disconnect(&session);
    text_free(&session.input);
}

void client_ask(const struct address *address, char **lines, size_t count)
{
    struct session session = { 0, address, 1, 0, address_connect(address, ONLY_ANSWER_TIME), { NULL, 0, 0 } };
    struct text answer = { NULL, 0, 0 };

    for (size_t i = 0; i < count; i++) {
        if (session.socket < 0 || !send_all(session.socket, lines[i], strlen(lines[i])) || !send_all(session.socket, "\n", 1)
            || !receive_line(&session, &answer)) {
            fail(STATUS_NETWORK, "%s: no answer", address->name);
        }
        printf("%s\n", answer.at);
    }
    text_free(&answer);
    disconnect(&session);
    text_free(&session.input);
}
