"""What the tests of the chat server share: a server that is built once, started and killed, and
clients.
"""

import hashlib
import os
import pathlib
import random
import re
import shutil
import socket
import subprocess
import sys
import time

FOLDER = pathlib.Path(__file__).resolve().parent
sys.path.insert(0, str(FOLDER.parents[2] / "tests/lib"))
from cases import TOP, Cases, wait_until  # noqa: E402


def sealed(*lines, then=()):
    """A journal with sums, in lines: a piece of these entries, and one more if others come then."""
    text, done = "", 0
    after = ""
    for entries in filter(None, (lines, then)):
        head = [f"journal 4{after}"] + [f"from {done}"] * (done > 0)
        piece = "".join(f"{line}\n" for line in (*head, *entries))
        done += len(entries)
        after = f" {hashlib.sha256(piece.encode()).hexdigest()}"
        text += f"{piece}end {done}{after}\n"
    return text


def text_of(path):
    """A journal's text: the whole lines of a file up to its first byte 0."""
    text, line_end, _ = path.read_bytes().partition(b"\0")[0].rpartition(b"\n")
    return text + line_end


def leave_torn(path, torn):
    """Has a file end as a killed server may leave it: after its whole lines with this."""
    length = len(text_of(path))
    with open(path, "r+b") as journal:
        journal.truncate(length)
        journal.seek(length)
        journal.write(torn)


class Client:
    """A client with a name, by lines."""

    def __init__(self, address, name, *seen):
        host, port = address.split(":")
        self.socket = socket.create_connection((host, int(port)), 60)
        self.lines = self.socket.makefile("r", encoding="utf-8", newline="\n")
        self.name = name
        self.say(" ".join(["/name", name, *map(str, seen)]))
        self.greeting = self.line()

    def say(self, *lines):
        self.socket.sendall("".join(f"{line}\n" for line in lines).encode())

    def line(self):
        return self.lines.readline().rstrip("\n")

    def ask(self, line):
        self.say(line)
        return self.line()

    def says(self, count):
        """Says this many lines, each with its number among them, and returns what comes back."""
        returned = []
        for first in range(0, count, 40):
            numbers = range(first, min(first + 40, count))
            self.say(*(f"line {number}" for number in numbers))
            returned += [self.line() for _ in numbers]
        return returned

    def history(self, *between):
        """The numbers of the messages that the server's history has of those between."""
        line = self.ask(" ".join(["/history", *map(str, between)]))
        numbers = []
        while line.startswith("history "):
            numbers.append(int(line.split()[1]))
            line = self.line()
        return numbers

    def quit(self):
        """Quits, and returns the lines that come before the end."""
        self.say("/quit")
        return self.lines.read().split("\n")[:-1]


class ServerCases(Cases):
    program = None
    """The built program. All classes of tests share it."""
    server = None
    """The server that runs."""
    address = None
    """Where it listens: the next one listens there too."""
    seen = None
    """Where the test reads the journal, if the server has another file system."""

    @classmethod
    def setUpClass(cls):
        if not ServerCases.program:
            ServerCases.find()

    @classmethod
    def find(cls):
        """Finds the programs that the words name, or builds them."""
        given = pathlib.Path(cls.words[0]).resolve()
        cls.checker = cls.words[1:]
        if cls.checker:
            cls.checker[0] = str(pathlib.Path(cls.checker[0]).resolve())
        else:
            print("left out: whether the journals are lawful: no command that checks one is named")
        cls.archive = given if given.suffix == ".a" else None
        cls.prefix = cls.install_rooms(given) if cls.archive else None
        folder = cls.build() if cls.archive else given.parent
        cls.program = folder / ("chat_server" if cls.archive else given.name)
        cls.load = folder / "chat_load"

    @classmethod
    def cargo(cls, word):
        """Runs cargo on a copy of the sources, so that nothing is left beside them."""
        named = {
            "SERYUGO_PREFIX": str(cls.prefix),
            "CARGO_TARGET_DIR": str(cls.work / "target"),
        }
        manifest = cls.work / "examples/programs/chat_server/Cargo.toml"
        words = ["cargo", word, "--release", "--quiet", "--offline", "--manifest-path", manifest]
        return cls.run_program(*words, env={**os.environ, **named})

    @classmethod
    def build(cls):
        """Builds the server and its clients, and returns their folder."""
        shutil.copytree(TOP / "bindings", cls.work / "bindings")
        sources = cls.work / "examples/programs/chat_server"
        sources.mkdir(parents=True)
        for part in "Cargo.toml", "Cargo.lock":
            shutil.copy(FOLDER / part, sources)
        shutil.copytree(FOLDER / "src", sources / "src")
        built = cls.cargo("build")
        if built.status != 0:
            raise AssertionError(f"the program is built: {built.said()}{built.errors()}")
        return cls.work / "target/release"

    def launch(self, *options, stdin=subprocess.DEVNULL, wrapper=()):
        """Starts the server on the journal, where the last one listened.

        The first one gets a port below those that the system gives to clients: a client that tries
        again and again could get the server's port.
        """
        listen = self.address or f"127.0.0.1:{random.randrange(10000, 30000)}"
        words = [*wrapper, self.program, "--listen", listen, "--journal", self.journal, *options]
        self.server = self.start(*words, stdin=stdin)

    def listens(self):
        """Waits until the server listens or ends, and returns whether it listens."""
        wait_until(
            "the server listens or ends", lambda: self.server.said() or not self.server.runs()
        )
        listening = re.match(r"listening on ([0-9.:]*) ", self.server.said())
        if listening:
            self.address = listening[1]
        return bool(listening)

    def begin(self, *options, **how):
        """A case: the server starts. It tries another port if the first one is taken."""
        with self.case("the server starts"):
            for _ in range(10):
                self.launch(*options, **how)
                if self.listens():
                    return
                if self.address or "can't listen" not in self.server.errors():
                    break
            self.fail(self.server.said() + self.server.errors())

    def crash(self):
        """A case: the server is killed, and has said nothing on standard error."""
        self.server.kill()
        with self.case("a server says nothing on standard error"):
            self.assertEqual(self.server.errors(), "")

    def loads(self, word):
        """Runs clients, each of whose lines `passed` and `failed` is a case."""
        ran = self.run_program(self.load, word, self.address)
        lines = ran.said().splitlines() + ran.errors().splitlines()
        for line in lines:
            if line.startswith(("passed", "failed")):
                with self.case(word):
                    self.assertFalse(line.startswith("failed"), line)
            else:
                print(line)
        with self.case(f"{word}: the clients end"):
            self.assertIsNotNone(ran.status)

    def many(self, *options):
        """Starts many clients, who talk to each other."""
        return self.start(self.load, "everyone", self.address, *options)

    def all_end_well(self, name, clients):
        """A case: clients that were started end well."""
        status = clients.ends()
        print(f"{name}: {clients.said().strip()}")
        with self.case(name):
            self.assertEqual(status, 0, clients.errors())

    def everyone(self, name, *options):
        clients = self.many(*options)
        self.all_end_well(name, clients)
        return clients

    def lawful(self, name):
        """A case: the journal is lawful up to its last whole line, after which a server goes on.

        A server that ended well has ended the text by a line with its sum.
        """
        if self.checker:
            text = text_of(self.seen)
            whole = self.work / "whole"
            whole.write_bytes(text)
            with open(whole, "rb") as journal:
                checked = self.run_program(*self.checker, stdin=journal)
            lines = text.splitlines()
            is_open = f"journal: open after line {len(lines)}"
            told = (0, True, "") if lines[-1].startswith(b"end ") else (2, "", is_open)
            self.expect(f"the journal is lawful: {name}", checked, *told)

    def refuses(self, name, status, error, *words):
        """A case: the program ends with this status, and with an error that begins so."""
        ended = self.run_program(self.program, *words)
        self.expect(name, ended, status, "", True)
        with self.case(f"{name}: its error"):
            self.assertEqual(ended.errors()[: len(error)], error)

    def no_journal(self, name, text, why=""):
        """A case: a file that is no journal of a chat server is refused, and stays as it was.

        The reason begins so.
        """
        other = self.work / "other"
        other.write_text(text)
        error = f"chat_server: {other} is no journal of a chat server: {why}"
        self.refuses(name, 5, error, "--listen", "127.0.0.1:0", "--journal", other)
        with self.case(f"{name}: the file stays"):
            self.assertEqual(other.read_text(), text)

    def setUp(self):
        self.journal = self.work / f"journal.{self._testMethodName}"
        self.seen = self.journal
        self.address = None

    def starts_short(self, name, entries, length, *options):
        """Cases: a server starts on a file with less than this many entries and bytes."""
        size = len(text_of(self.journal))
        start = time.monotonic()
        self.begin(*options)
        took = time.monotonic() - start
        read = int(re.search(r" after (\d+) entries ", self.server.said())[1])
        print(f"{name}: a start reads {read} entries in {size} bytes, in {took:.2f} s")
        with self.case(f"{name}: the file is short"):
            self.assertLess(size, length)
        with self.case(f"{name}: a start reads few entries"):
            self.assertLess(read, entries)
