/* A seat's calls by name. The proved library makes each by one door, seryugo_call_from. Sends and receives aren't here: most calls
 * are these, and the proved library has a function for each. */
#include "seryugo.h"

/* Makes a call whose message is a number, or that has none, and writes the name or the number that it gives. */
static uint32_t ask(struct seryugo *room, enum seryugo_call_kind kind, bool is_again, uint64_t seat, uint64_t object, uint64_t number,
                    uint64_t *given)
{
    const struct seryugo_asked asked = {
        .kind = kind,
        .is_again = is_again,
        .takes_numbers = true,
        .takes_bytes = kind <= SERYUGO_CALL_NEW_MVAR,
        .seat = seat,
        .object = object,
        .number = number,
        .at = "",
    };
    struct seryugo_bytes message;

    return seryugo_call_from(room, &asked, given, &message);
}

/* Makes a call that gives neither. */
static uint32_t tell(struct seryugo *room, enum seryugo_call_kind kind, uint64_t seat, uint64_t object, uint64_t number)
{
    uint64_t given = 0;

    return ask(room, kind, false, seat, object, number, &given);
}

/* Makes a call in a room of bytes, and writes the name or hands over the message that it gives. */
static uint32_t ask_bytes(struct seryugo *room, enum seryugo_call_kind kind, bool is_again, uint64_t seat, uint64_t object,
                          const void *at, size_t length, uint64_t *name, struct seryugo_bytes *message)
{
    const struct seryugo_asked asked = {
        .kind = kind,
        .is_again = is_again,
        .takes_bytes = true,
        .seat = seat,
        .object = object,
        .at = at == NULL ? "" : at,
        .length = length,
    };

    return seryugo_call_from(room, &asked, name, message);
}

/* Makes a call that sends bytes and gives nothing. */
static uint32_t send_bytes(struct seryugo *room, enum seryugo_call_kind kind, uint64_t seat, uint64_t object, const void *at,
                           size_t length)
{
    uint64_t name = 0;
    struct seryugo_bytes message;

    return ask_bytes(room, kind, false, seat, object, at, length, &name, &message);
}

/* Makes a call that sends nothing and gives a message of bytes. */
static uint32_t receive_bytes(struct seryugo *room, enum seryugo_call_kind kind, bool is_again, uint64_t seat, uint64_t object,
                              struct seryugo_bytes *message)
{
    uint64_t name = 0;

    return ask_bytes(room, kind, is_again, seat, object, NULL, 0, &name, message);
}

/* ---- objects ---- */

uint32_t seryugo_new_mailbox(struct seryugo *room, uint64_t seat, uint64_t *mailbox)
{
    return ask(room, SERYUGO_CALL_NEW_MAILBOX, false, seat, 0, 0, mailbox);
}

uint32_t seryugo_new_channel(struct seryugo *room, uint64_t seat, uint64_t *channel)
{
    return ask(room, SERYUGO_CALL_NEW_CHANNEL, false, seat, 0, 0, channel);
}

uint32_t seryugo_new_port(struct seryugo *room, uint64_t seat, uint64_t channel, uint64_t *port)
{
    return ask(room, SERYUGO_CALL_NEW_PORT, false, seat, channel, 0, port);
}

uint32_t seryugo_copy_port(struct seryugo *room, uint64_t seat, uint64_t port, uint64_t *copy)
{
    return ask(room, SERYUGO_CALL_COPY_PORT, false, seat, port, 0, copy);
}

uint32_t seryugo_close_port(struct seryugo *room, uint64_t seat, uint64_t port)
{
    return tell(room, SERYUGO_CALL_CLOSE_PORT, seat, port, 0);
}

uint32_t seryugo_new_ivar(struct seryugo *room, uint64_t seat, uint64_t *variable)
{
    return ask(room, SERYUGO_CALL_NEW_IVAR, false, seat, 0, 0, variable);
}

uint32_t seryugo_new_mvar(struct seryugo *room, uint64_t seat, uint64_t *variable)
{
    return ask(room, SERYUGO_CALL_NEW_MVAR, false, seat, 0, 0, variable);
}

/* ---- numbers ---- */

uint32_t seryugo_mvar_init(struct seryugo *room, uint64_t seat, uint64_t message, uint64_t *variable)
{
    return ask(room, SERYUGO_CALL_MVAR_INIT, false, seat, 0, message, variable);
}

uint32_t seryugo_multicast(struct seryugo *room, uint64_t seat, uint64_t channel, uint64_t message)
{
    return tell(room, SERYUGO_CALL_MULTICAST, seat, channel, message);
}

uint32_t seryugo_recv_poll(struct seryugo *room, uint64_t seat, uint64_t source, uint64_t *message)
{
    return ask(room, SERYUGO_CALL_RECV_POLL, false, seat, source, 0, message);
}

uint32_t seryugo_put(struct seryugo *room, uint64_t seat, uint64_t variable, uint64_t message)
{
    return tell(room, SERYUGO_CALL_PUT, seat, variable, message);
}

uint32_t seryugo_get(struct seryugo *room, uint64_t seat, uint64_t variable, bool is_again, uint64_t *message)
{
    return ask(room, SERYUGO_CALL_GET, is_again, seat, variable, 0, message);
}

uint32_t seryugo_get_poll(struct seryugo *room, uint64_t seat, uint64_t variable, uint64_t *message)
{
    return ask(room, SERYUGO_CALL_GET_POLL, false, seat, variable, 0, message);
}

uint32_t seryugo_take(struct seryugo *room, uint64_t seat, uint64_t variable, bool is_again, uint64_t *message)
{
    return ask(room, SERYUGO_CALL_TAKE, is_again, seat, variable, 0, message);
}

uint32_t seryugo_take_poll(struct seryugo *room, uint64_t seat, uint64_t variable, uint64_t *message)
{
    return ask(room, SERYUGO_CALL_TAKE_POLL, false, seat, variable, 0, message);
}

uint32_t seryugo_swap(struct seryugo *room, uint64_t seat, uint64_t variable, uint64_t message, bool is_again, uint64_t *held)
{
    return ask(room, SERYUGO_CALL_SWAP, is_again, seat, variable, message, held);
}

/* ---- bytes ---- */

uint32_t seryugo_bytes_mvar_init_from(struct seryugo *room, uint64_t seat, const void *at, size_t length, uint64_t *variable)
{
    struct seryugo_bytes message;

    return ask_bytes(room, SERYUGO_CALL_MVAR_INIT, false, seat, 0, at, length, variable, &message);
}

uint32_t seryugo_bytes_multicast_from(struct seryugo *room, uint64_t seat, uint64_t channel, const void *at, size_t length)
{
    return send_bytes(room, SERYUGO_CALL_MULTICAST, seat, channel, at, length);
}

uint32_t seryugo_bytes_recv_poll(struct seryugo *room, uint64_t seat, uint64_t source, struct seryugo_bytes *message)
{
    return receive_bytes(room, SERYUGO_CALL_RECV_POLL, false, seat, source, message);
}

uint32_t seryugo_bytes_put_from(struct seryugo *room, uint64_t seat, uint64_t variable, const void *at, size_t length)
{
    return send_bytes(room, SERYUGO_CALL_PUT, seat, variable, at, length);
}

uint32_t seryugo_bytes_get(struct seryugo *room, uint64_t seat, uint64_t variable, bool is_again, struct seryugo_bytes *message)
{
    return receive_bytes(room, SERYUGO_CALL_GET, is_again, seat, variable, message);
}

uint32_t seryugo_bytes_get_poll(struct seryugo *room, uint64_t seat, uint64_t variable, struct seryugo_bytes *message)
{
    return receive_bytes(room, SERYUGO_CALL_GET_POLL, false, seat, variable, message);
}

uint32_t seryugo_bytes_take(struct seryugo *room, uint64_t seat, uint64_t variable, bool is_again, struct seryugo_bytes *message)
{
    return receive_bytes(room, SERYUGO_CALL_TAKE, is_again, seat, variable, message);
}

uint32_t seryugo_bytes_take_poll(struct seryugo *room, uint64_t seat, uint64_t variable, struct seryugo_bytes *message)
{
    return receive_bytes(room, SERYUGO_CALL_TAKE_POLL, false, seat, variable, message);
}

uint32_t seryugo_bytes_swap_from(struct seryugo *room, uint64_t seat, uint64_t variable, const void *at, size_t length, bool is_again,
                                 struct seryugo_bytes *held)
{
    uint64_t name = 0;

    return ask_bytes(room, SERYUGO_CALL_SWAP, is_again, seat, variable, at, length, &name, held);
}
