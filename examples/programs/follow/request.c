#include "request.h"

/* A queue's name has printed bytes. */
static bool is_name(struct span word)
{
    for (size_t i = 0; i < word.length; i++) {
        if (word.at[i] < '!' || word.at[i] > '~') {
            return false;
        }
    }
    return word.length != 0 && word.length <= QUEUE_MOST;
}

static bool read_verb(struct span word, enum verb *verb)
{
    bool known = true;

    if (span_is(word, "put")) {
        *verb = VERB_PUT;
    } else if (span_is(word, "get")) {
        *verb = VERB_GET;
    } else if (span_is(word, "count")) {
        *verb = VERB_COUNT;
    } else {
        known = false;
    }
    return known;
}

/* Reads what is after the client's number. */
static const char *read_numbered(struct span word, struct span rest, struct request *request)
{
    bool has_text;

    if (!span_number(word, &request->number) || request->number == 0) {
        return "the second word is no number from 1, nor `last`";
    }
    if (!read_verb(next_word(&rest), &request->verb)) {
        return "the third word is not put, get or count";
    }
    request->queue = next_word(&rest);
    if (!is_name(request->queue)) {
        return "the fourth word is no name of a queue: 1 to 64 printed bytes";
    }
    has_text = request->queue.at + request->queue.length != rest.at;
    if (has_text != (request->verb == VERB_PUT)) {
        return has_text ? "words too many" : "put has no text";
    }
    request->text = rest;
    return NULL;
}

const char *request_read(struct span line, struct request *request)
{
    struct span rest = line;
    struct span word = next_word(&rest);

    *request = (struct request){ 0, VERB_LAST, 0, { "", 0 }, { "", 0 } };
    if (!span_number(word, &request->client)) {
        return "the first word is no client's number";
    }
    word = next_word(&rest);
    if (span_is(word, "last") && rest.length == 0) {
        return NULL;
    }
    return read_numbered(word, rest, request);
}
