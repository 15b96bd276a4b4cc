#include "service.h"

#include "bytes.h"
#include "errors.h"
#include "request.h"

#include <inttypes.h>
#include <string.h>

/* A request has at most four entries: a queue's two, a put, and the answer. */
#define LIMIT (4 * BATCH_MOST)

/* Whether an m-variable's text is this service's: `queue NAME`, or `client NUMBER REQUEST` and an answer. */
static bool is_ours(struct span kind, struct span name, struct span rest)
{
    uint64_t number;

    if (span_is(kind, "queue")) {
        return name.length != 0 && rest.length == 0;
    }
    return span_is(kind, "client") && span_number(name, &number) && span_number(next_word(&rest), &number);
}

/* Has the names find the m-variable that holds this text. Returns false if the text isn't this service's, or is there twice. */
static bool find_again(struct service *service, uint64_t variable, struct span held)
{
    struct span rest = held;
    struct span kind = next_word(&rest);
    struct span name = next_word(&rest);
    struct text key = { NULL, 0, 0 };
    bool added;

    if (!is_ours(kind, name, rest)) {
        return false;
    }
    text_add(&key, held.at, kind.length + 1 + name.length);
    added = names_add(&service->names, key.at, variable);
    text_free(&key);
    return added;
}

/* Goes over the object of this number, and returns the number of the next. */
static uint64_t restore_object(struct service *service, uint64_t object)
{
    struct text held = { NULL, 0, 0 };
    uint64_t kind, next;
    bool is_queue;

    require_done(seryugo_kind(&service->room, object, &kind), "the kind of an object");
    if (kind != SERYUGO_MVAR || !bytes_held(&service->room, object, &held)
        || !find_again(service, object, (struct span){ held.at, held.length })) {
        fail(STATUS_FAULT, "object %" PRIu64 " of the journal is another program's", object);
    }
    is_queue = span_begins((struct span){ held.at, held.length }, "queue ");
    text_free(&held);
    next = object + 1;
    if (is_queue && (seryugo_kind(&service->room, next++, &kind) != SERYUGO_DONE || kind != SERYUGO_MAILBOX)) {
        fail(STATUS_FAULT, "object %" PRIu64 " of the journal is a queue without its mailbox", object);
    }
    return next;
}

/* The sum of the last piece that was read, if there is one. */
static struct seryugo_sum last_sum(struct seryugo *reading)
{
    struct seryugo_sum sum = { 0 };
    uint64_t lines;
    uint32_t code = seryugo_reading_sum(reading, &sum);

    require_done(seryugo_reading_lines(reading, &lines), "a count");
    if (code != SERYUGO_NOTHING) {
        require_done(code, "a sum");
    } else if (lines != 0) {
        fail(STATUS_FAULT, "the journal has no sums: an earlier version of this program wrote it");
    }
    return sum;
}

void service_open(struct service *service, struct seryugo *reading)
{
    uint64_t object = 0, kind;

    memset(service, 0, sizeof *service);
    service->sum = last_sum(reading);
    require_done(seryugo_room_restore(reading, LIMIT, &service->room), "a room on the journal");
    require_done(seryugo_new_seat(&service->room, &service->seat), "a seat");
    while (seryugo_kind(&service->room, object, &kind) == SERYUGO_DONE) {
        object = restore_object(service, object);
    }
}

/* Makes an m-variable that holds this text, and is found by this name. */
static uint64_t make_named(struct service *service, const char *name, struct span held)
{
    uint64_t variable;

    require_done(seryugo_bytes_mvar_init(&service->room, service->seat, held.at, held.length, &variable), "a variable");
    if (!names_add(&service->names, name, variable)) {
        fail(STATUS_FAULT, "the name %s is there twice", name);
    }
    return variable;
}

/* Finds the mailbox of a queue. */
static bool find_queue(const struct service *service, struct span queue, struct text *key, uint64_t *mailbox)
{
    text_print(key, "queue %.*s", (int)queue.length, queue.at);
    if (!names_find(&service->names, key->at, mailbox)) {
        return false;
    }
    *mailbox += 1;
    return true;
}

static void put(struct service *service, const struct request *request, struct text *answer)
{
    struct text key = { NULL, 0, 0 };
    uint64_t mailbox;

    if (!find_queue(service, request->queue, &key, &mailbox)) {
        make_named(service, key.at, (struct span){ key.at, key.length });
        require_done(seryugo_new_mailbox(&service->room, service->seat, &mailbox), "a mailbox");
    }
    require_done(seryugo_bytes_send(&service->room, service->seat, mailbox, request->text.at, request->text.length), "a message");
    text_free(&key);
    text_print(answer, "done");
}

static void get(struct service *service, const struct request *request, struct text *answer)
{
    struct text key = { NULL, 0, 0 };
    struct text message = { NULL, 0, 0 };
    uint64_t mailbox;

    if (find_queue(service, request->queue, &key, &mailbox)
        && bytes_received(&service->room, service->seat, mailbox, &message)) {
        text_print(answer, "message ");
        text_add(answer, message.at, message.length);
    } else {
        text_print(answer, "nothing");
    }
    text_free(&message);
    text_free(&key);
}

static void count(struct service *service, const struct request *request, struct text *answer)
{
    struct text key = { NULL, 0, 0 };
    uint64_t mailbox, waiting = 0;

    if (find_queue(service, request->queue, &key, &mailbox)) {
        require_done(seryugo_owed(&service->room, mailbox, &waiting), "a count");
    }
    text_free(&key);
    text_print(answer, "count %" PRIu64, waiting);
}

static void perform(struct service *service, const struct request *request, struct text *answer)
{
    switch (request->verb) {
    case VERB_PUT:
        put(service, request, answer);
        break;
    case VERB_GET:
        get(service, request, answer);
        break;
    case VERB_COUNT:
        count(service, request, answer);
        break;
    case VERB_LAST:
        break;
    }
}

/* What the room has of a client: its name, its variable, and its last request with the answer: `client 7 12 done`. */
struct session {
    struct text name;
    bool is_new;
    uint64_t variable;
    struct text held;
    uint64_t last;
    struct span answer;
};

static void session_open(struct service *service, uint64_t client, struct session *session)
{
    struct span rest;

    memset(session, 0, sizeof *session);
    text_print(&session->name, "client %" PRIu64, client);
    session->is_new = !names_find(&service->names, session->name.at, &session->variable);
    if (session->is_new) {
        return;
    }
    if (bytes_held(&service->room, session->variable, &session->held)) {
        rest = (struct span){ session->held.at + session->name.length + 1, session->held.length - session->name.length - 1 };
        if (session->held.length > session->name.length && span_number(next_word(&rest), &session->last)) {
            session->answer = rest;
            return;
        }
    }
    fail(STATUS_FAULT, "the journal has no last request of %s", session->name.at);
}

static void session_close(struct session *session)
{
    text_free(&session->name);
    text_free(&session->held);
}

/* Stores a request's number and its answer in the client's variable, so that they are in the journal too. */
static void record(struct service *service, const struct session *session, uint64_t number, struct span answer)
{
    struct text held = { NULL, 0, 0 };

    text_print(&held, "%s %" PRIu64 " ", session->name.at, number);
    text_add(&held, answer.at, answer.length);
    if (session->is_new) {
        make_named(service, session->name.at, (struct span){ held.at, held.length });
    } else {
        bytes_store(&service->room, service->seat, session->variable, (struct span){ held.at, held.length });
    }
    text_free(&held);
}

/* Answers a request of this client. */
static void answer_in(struct service *service, const struct session *session, const struct request *request, struct text *answers)
{
    struct text answer = { NULL, 0, 0 };

    if (request->verb == VERB_LAST) {
        text_print(answers, "%" PRIu64 " last %" PRIu64 "\n", request->client, session->last);
    } else if (request->number == session->last + 1) {
        perform(service, request, &answer);
        record(service, session, request->number, (struct span){ answer.at, answer.length });
        text_print(answers, "%" PRIu64 " %" PRIu64 " ", request->client, request->number);
        text_add(answers, answer.at, answer.length);
        text_add(answers, "\n", 1);
    } else if (request->number == session->last) {
        text_print(answers, "%" PRIu64 " %" PRIu64 " ", request->client, request->number);
        text_add(answers, session->answer.at, session->answer.length);
        text_add(answers, "\n", 1);
    } else {
        text_print(answers, "refused: the last request of client %" PRIu64 " was %" PRIu64 "\n", request->client, session->last);
    }
    text_free(&answer);
}

bool service_answer(struct service *service, struct span line, struct text *answers)
{
    struct request request;
    struct session session;
    const char *fault = request_read(line, &request);

    if (fault != NULL) {
        text_print(answers, "refused: %s\n", fault);
        return false;
    }
    session_open(service, request.client, &session);
    answer_in(service, &session, &request, answers);
    session_close(&session);
    return true;
}

void service_take_piece(struct service *service, struct text *piece)
{
    uint64_t from;

    require_done(seryugo_cut_at(&service->room, &from), "the journal's position");
    bytes_piece(&service->room, from - service->cut + service->count, &service->sum, piece);
}

uint64_t service_entries(struct service *service)
{
    uint64_t entries;

    require_done(seryugo_entries(&service->room, &entries), "a count");
    return entries - service->cut + service->count;
}

bool service_shorten(struct service *service, uint64_t most, struct text *text)
{
    struct seryugo journal;
    uint64_t entries, cut, count;

    require_done(seryugo_entries(&service->room, &entries), "a count");
    require_done(seryugo_cut_at(&service->room, &cut), "a count");
    /* Nothing is in the journal, so a short one that isn't added to the stream drops nothing. */
    if (entries != cut || seryugo_compact_and_cut(&service->room, &journal, &count) != SERYUGO_DONE) {
        return false;
    }
    if (count > most) {
        seryugo_close(journal);
        return false;
    }
    service->sum = bytes_short(journal, text);
    service->cut = cut;
    service->count = count;
    return true;
}

void service_close(struct service *service)
{
    names_free(&service->names);
    seryugo_close(service->room);
}
