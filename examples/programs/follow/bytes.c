#include "bytes.h"

#include "errors.h"

/* Appends a message that the library handed over, and frees it. Any code but SERYUGO_DONE and SERYUGO_NOTHING ends the process. */
static bool append(uint32_t code, const struct seryugo_bytes *message, struct text *into, const char *what)
{
    if (code == SERYUGO_NOTHING) {
        return false;
    }
    require_done(code, what);
    text_add(into, seryugo_bytes_at(message), message->length);
    seryugo_bytes_free(*message);
    return true;
}

bool bytes_received(struct seryugo *room, uint64_t seat, uint64_t mailbox, struct text *into)
{
    struct seryugo_bytes message;

    return append(seryugo_bytes_recv_poll(room, seat, mailbox, &message), &message, into, "a message that is received");
}

bool bytes_held(struct seryugo *room, uint64_t variable, struct text *into)
{
    struct seryugo_bytes message;

    return append(seryugo_bytes_held(room, variable, &message), &message, into, "what a variable holds");
}

void bytes_store(struct seryugo *room, uint64_t seat, uint64_t variable, struct span message)
{
    struct seryugo_bytes held;

    require_done(seryugo_bytes_swap(room, seat, variable, message.at, message.length, false, &held), "a message that is stored");
    seryugo_bytes_free(held);
}

/* Appends a journal's text, and closes the journal. */
static void append_text(struct seryugo journal, uint64_t from, struct seryugo_sum *sum, struct text *into)
{
    struct seryugo_bytes piece;

    append(seryugo_sealed_text(&journal, from, sum, &piece), &piece, into, "a piece of the journal");
    seryugo_close(journal);
}

void bytes_piece(struct seryugo *room, uint64_t from, struct seryugo_sum *sum, struct text *into)
{
    struct seryugo journal;
    uint64_t count;

    require_done(seryugo_take_journal(room, &journal, &count), "the journal that is taken");
    append_text(journal, from, sum, into);
}

struct seryugo_sum bytes_short(struct seryugo journal, struct text *into)
{
    struct seryugo_sum sum = { 0 };

    append_text(journal, 0, &sum, into);
    return sum;
}
