"""A second program that finds the endings of a script: `python3 endings.py [MOST] < SCRIPT`.

It knows docs/FORMATS.md alone. It goes on from each state by each thread whose step needn't wait, the shortest orders first, and
merges equal states. It writes each ending as one line: its kind, the line that each thread with steps left is at, and the lines
that a report has for the objects and the end, parted by ` / `. The lines are sorted. The last line has the number of states. If
there are more than MOST, it writes `too many`.
"""

import sys
from typing import NamedTuple


class Step(NamedTuple):
    line: int
    words: tuple


class Port(NamedTuple):
    channel: str
    start: int
    place: int
    is_open: bool


class Script:
    def __init__(self, text):
        lines = text.split("\n")
        self.mark = "=" if lines[0] == "cml 2" else ""
        self.names = []
        self.declared = {}
        self.kinds = {}
        self.threads = []
        self.steps = {}
        for number, line in enumerate(lines[1:], 2):
            if line and not line.startswith("#"):
                self.read(number, line.split(" "))

    def read(self, number, words):
        if words[0] == "thread":
            self.threads.append(words[1])
            self.steps[words[1]] = []
        elif words[0] in self.steps:
            self.steps[words[0]].append(Step(number, tuple(words[1:])))
            if words[1] in ("port", "copy"):
                self.name(words[3], "port")
        elif words[0] == "port":
            self.name(words[2], "port")
            self.declared[words[2]] = Port(words[1], 0, 0, True)
        else:
            self.name(words[1], words[0])
            self.declared[words[1]] = tuple(words[2:])

    def name(self, name, kind):
        self.names.append(name)
        self.kinds[name] = kind


class State(NamedTuple):
    """How far each thread is, and what each name has: messages, a Port, the name of the closed port that it stands for, or None."""

    at: tuple
    objects: tuple


def first_state(script):
    return State((0,) * len(script.threads), tuple(script.declared.get(name) for name in script.names))


class Making:
    """One step from a state."""

    def __init__(self, script, state, thread):
        self.script = script
        self.objects = dict(zip(script.names, state.objects))
        self.at = list(state.at)
        self.thread = thread

    def after(self):
        """The state after the step, or None if it must wait."""
        steps = self.script.steps[self.script.threads[self.thread]]
        if self.at[self.thread] == len(steps):
            return None
        word, name, *more = steps[self.at[self.thread]].words
        if not getattr(self, word)(self.real(name), *more):
            return None
        self.at[self.thread] += 1
        return State(tuple(self.at), tuple(self.objects[name] for name in self.script.names))

    def real(self, name):
        while isinstance(self.objects[name], str):
            name = self.objects[name]
        return name

    def send(self, name, message):
        self.objects[name] += (message,)
        return True

    multicast = send

    def port(self, channel, name):
        sent = len(self.objects[channel])
        self.objects[name] = Port(channel, sent, sent, True)
        return True

    def copy(self, port, name):
        old = self.objects[port]
        self.objects[name] = Port(old.channel, old.place, old.place, True) if old.is_open else port
        return True

    def close(self, port):
        self.objects[port] = self.objects[port]._replace(is_open=False)
        return True

    def recv(self, name):
        held = self.objects[name]
        if not isinstance(held, Port):
            self.objects[name] = held[1:]
            return len(held) > 0
        if not held.is_open:
            return True
        self.objects[name] = held._replace(place=held.place + 1)
        return held.place < len(self.objects[held.channel])

    def poll(self, name):
        kept = self.objects[name]
        if not self.recv(name):
            self.objects[name] = kept
        return True

    def put(self, name, message):
        self.objects[name] = self.objects[name] or (message,)
        return True

    def get(self, name):
        return self.objects[name] != ()

    def getpoll(self, name):
        return True

    def take(self, name):
        held, self.objects[name] = self.objects[name], ()
        return held != ()

    def takepoll(self, name):
        self.take(name)
        return True

    def swap(self, name, message):
        held, self.objects[name] = self.objects[name], (message,)
        return held != ()


def merged(script, state):
    """A state as it is compared: a channel's messages count as far as a port may still receive them."""
    objects = dict(zip(script.names, state.objects))
    for name, kind in script.kinds.items():
        if kind == "channel":
            places = [held.place for held in state.objects if isinstance(held, Port) and held.channel == name and held.is_open]
            passed = min(places, default=len(objects[name]))
            objects[name] = (None,) * passed + objects[name][passed:]
        if isinstance(objects[name], str):
            objects[name] = ""
    return State(state.at, tuple(objects.values()))


def object_line(script, state, sent, name):
    kind, held = script.kinds[name], dict(zip(script.names, state.objects))[name]
    if held is None or isinstance(held, str):
        return f"{kind} {name}: not made"
    if kind == "mailbox":
        return f"mailbox {name}: sent {sent[name]} got {sent[name] - len(held)} waits {len(held)}"
    if kind == "channel":
        places = [port.place for port in state.objects if isinstance(port, Port) and port.channel == name and port.is_open]
        first = min(places, default=len(held)) // 4 * 4
        return f"channel {name}: sent {len(held)} kept {len(held) - first} first {first}"
    if kind == "port":
        owed = len(dict(zip(script.names, state.objects))[held.channel]) - held.place
        end = f"owed {owed}" if held.is_open else "closed"
        return f"port {name}: start {held.start} got {held.place - held.start} {end}"
    return f"{kind} {name}: " + (f"full {script.mark}{held[0]}" if held else "empty")


def ending(script, state):
    sent = dict.fromkeys(script.names, 0)
    left, waiting = 0, []
    for thread, at in zip(script.threads, state.at):
        for step in script.steps[thread][:at]:
            sent[step.words[1]] += step.words[0] == "send"
        left += len(script.steps[thread]) - at
        if at < len(script.steps[thread]):
            waiting.append(f"{thread} {script.steps[thread][at].line}")
    performed = sum(state.at)
    kind = "stalled" if left else "done"
    last = f"end: stalled {performed} left {left}" if left else f"end: done {performed}"
    return " / ".join([kind, *waiting, *(object_line(script, state, sent, name) for name in script.names), last])


def explore(script, most):
    first = first_state(script)
    found, endings, layer = {merged(script, first)}, set(), [first]
    while layer:
        following = []
        for state in layer:
            after = [Making(script, state, thread).after() for thread in range(len(script.threads))]
            after = [one for one in after if one is not None]
            if not after:
                endings.add(ending(script, state))
            for one in after:
                key = merged(script, one)
                if key not in found:
                    found.add(key)
                    following.append(one)
        if len(found) > most:
            return None, len(found)
        layer = following
    return sorted(endings), len(found)


def main():
    most = int(sys.argv[1]) if len(sys.argv) > 1 else 1_000_000
    endings, states = explore(Script(sys.stdin.read()), most)
    if endings is None:
        print("too many")
        return
    print("\n".join(endings))
    print(f"states {states}")


if __name__ == "__main__":
    main()
