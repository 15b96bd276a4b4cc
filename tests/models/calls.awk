# The calls, for the plain programs and for those that make up cases: `awk -f tests/models/calls.awk -f tests/models/plain.awk ..`. Each row has a
# call's word, the kinds of objects that take it, whether it gives a message, its replies, whether it may block, and how often it is
# chosen by chance. Behind the table is what the calls do. It shares nothing with the crates, so what both say alike is said twice.
#
# `word_of` has the words by place, from 1 to `calls`. By word there are `kinds_of`, `gives`, `replies_of`, `blocks` and `chance_of`.

BEGIN {
    a_call("mailbox", "", 0, "made", 0, 1)
    a_call("channel", "", 0, "made", 0, 1)
    a_call("ivar", "", 0, "made", 0, 1)
    a_call("mvar", "", 0, "made", 0, 1)
    a_call("send", "mailbox", 1, "done", 0, 3)
    a_call("multicast", "channel", 1, "done", 0, 2)
    a_call("port", "channel", 0, "made", 0, 1)
    a_call("copy", "port", 0, "made closed", 0, 1)
    a_call("close", "port", 0, "done closed", 0, 1)
    a_call("recv", "mailbox port", 0, "message closed", 1, 2)
    a_call("poll", "mailbox port", 0, "message none closed", 0, 2)
    a_call("put", "ivar mvar", 1, "done put", 0, 1)
    a_call("get", "ivar mvar", 0, "message", 1, 1)
    a_call("getpoll", "ivar mvar", 0, "message none", 0, 1)
    a_call("take", "mvar", 0, "message", 1, 1)
    a_call("takepoll", "mvar", 0, "message none", 0, 1)
    a_call("swap", "mvar", 1, "message", 1, 1)
}

function a_call(word, kinds, gives_message, replies, may_block, chance) {
    word_of[++calls] = word
    kinds_of[word] = kinds
    gives[word] = gives_message
    replies_of[word] = replies
    blocks[word] = may_block
    chance_of[word] = chance
}

# Whether the word is in these words.
function is_among(word, words) { return index(" " words " ", " " word " ") > 0 }

function makes_an_object(word) { return is_among("made", replies_of[word]) }

# What the calls do. An object has a kind, which the caller of these functions keeps in `kind`. `message` has what was sent to a mailbox
# or multicast on a channel, from 0 on, and `sent` how many these are. A mailbox, a port and a feed have their place there in `got`.

function forget_objects() {
    split("", message); split("", sent); split("", got)
    split("", channel_of); split("", start); split("", closed); split("", held); split("", full)
}

function begin_object(name) { sent[name] = got[name] = full[name] = closed[name] = 0 }

# A variable that holds this.
function begin_full(name, first) {
    begin_object(name)
    full[name] = 1
    held[name] = first
}

# A reader of the channel, from this place on.
function begin_reader(name, channel, place) {
    begin_object(name)
    channel_of[name] = channel
    start[name] = got[name] = place
}

function is_reader(name) { return kind[name] == "port" || kind[name] == "feed" }

function stream(name) { return is_reader(name) ? channel_of[name] : name }

function owed(name) { return sent[stream(name)] - got[name] }

# Whether there is a message to read.
function has_message(name) { return is_among(kind[name], "ivar mvar") ? full[name] : owed(name) > 0 }

function next_message(name) { return is_among(kind[name], "ivar mvar") ? held[name] : message[stream(name), got[name]] }

# Makes a call, which the object takes: its reply, or `waits`, and then nothing is done. What `port` and `copy` make gets the name `new`.
function reply_to(word, name, given, new,    first) {
    if (closed[name] && is_among("closed", replies_of[word])) return "closed"
    if (word == "send" || word == "multicast") message[name, sent[name]++] = given
    if (word == "port") begin_reader(new, name, sent[name])
    if (word == "copy") begin_reader(new, channel_of[name], got[name])
    if (word == "close") closed[name] = 1
    if (word == "put" && full[name]) return "put"
    if (word == "put") begin_full(name, given)
    if (!is_among("message", replies_of[word])) return is_among("done", replies_of[word]) ? "done" : "made"
    if (!has_message(name)) return blocks[word] ? "waits" : "none"
    first = next_message(name)
    if (word == "recv" || word == "poll") got[name]++
    if (word == "take" || word == "takepoll") full[name] = 0
    if (word == "swap") held[name] = given
    return first
}

function would_wait(word, name) { return blocks[word] && !closed[name] && !has_message(name) }

# The least place in a channel from which on its messages are kept: they are in chunks of four, and a chunk goes once all open readers
# are past it. `objects` has the names of all objects.
function first_kept(channel, objects,    least, at, name) {
    least = sent[channel]
    for (at in objects) {
        name = objects[at]
        if (is_reader(name) && channel_of[name] == channel && !closed[name] && got[name] < least) least = got[name]
    }
    return least - least % 4
}
