"""A second machine that follows by Redis: `python3 test_follow.py LIBRARY CHECK WORD..`.

LIBRARY is the archive of cml_c, or the folder that bindings/install.sh installed into, and CHECK
the command that checks a journal. Six clients put and get while the leader is killed ten times, a
follower twice and Redis once, and an old leader is stopped, replaced and continued. What was
answered is kept: each put is received once, in order, and the journal in Redis is lawful. So is a
piece that an old leader adds before the next one's first entry. Wrong streams, and a Redis that has
lost its file, are refused by name. The tests of short streams are in `test_short.py`.
"""

import collections
import hashlib
import itertools
import re
import shutil
import signal
import subprocess
import sys
import time

from service import FOLDER, PLACES, Client, Service  # noqa: I001
from service import clients_requests, free_port, sealed
from test_short import Short
from cases import LIMIT, TOP, has, left_out, main, wait_until

QUEUES = (1, 2, 3)
# How many leaders may be replaced unasked, on a machine that is too busy.
MOST_UNASKED = 5
LEAST_PUTS = 300


class Follow(Service):
    """One run: each test goes on from what the one before left."""

    def test_words(self):
        away = (self.port, "letters", self.port + 4)
        no_redis = f"redis 127.0.0.1:{self.port}: Connection refused"
        self.refuses("no words", 3, "^usage: follow serve")
        self.refuses(
            "a word that is no address", 3, "x is no address", "serve", "x", "letters", "1"
        )
        self.refuses(
            "a lease that is too short",
            3,
            "at least 100 milliseconds",
            "serve",
            "--lease",
            "99",
            *away,
        )
        self.refuses("a Redis that is not there", 4, no_redis, "serve", *away)
        self.refuses("the same, by dump", 4, no_redis, "dump", self.port, "letters")

    def is_held(self, command):
        """Whether Redis holds back this command of a client."""
        return re.search(rf" flags=[a-zA-Z]*b.* cmd={command} ", self.ask_redis("CLIENT", "LIST"))

    def stop(self, place):
        """A case: a server ends by SIGTERM."""
        self.servers[place].signal(signal.SIGTERM)
        self.holds(
            f"server {place} is stopped",
            self.servers[place].ends() == 0,
            self.servers[place].errors(),
        )

    def test_window(self):
        """An old leader adds a piece between a follower's last read and its first entry.

        The lease is removed, and from then on Redis holds back all commands that write: the
        leader's piece, and the follower's request for the lease, which it makes once a read found
        nothing. Redis then performs both before the follower can add its first entry. So the piece
        comes after that read and before that entry. The new leader has to have it. The leader has
        just renewed its lease, so it renews no more for ten seconds.
        """
        self.start_redis()
        self.serve(1, "window", 40000)
        self.wait_for(
            "a leader of its own stream", lambda: self.says(1, "leads by epoch 1 after 0 entries")
        )
        self.serve(2, "window", 40000)
        self.wait_for("a follower of it", lambda: self.says(2, "follows after 0 entries"))
        early = self.run_program(self.program, "ask", self.port + 1, "9 1 put late a")
        self.ask_redis(stdin="MULTI\nDEL window:lease\nCLIENT PAUSE 60000 WRITE\nEXEC\n")
        late = self.start(self.program, "ask", self.port + 1, "9 2 put late b")
        self.wait_for("the piece of the old leader is held back", lambda: self.is_held("xadd"))
        self.wait_for("the asking for the lease is held back", lambda: self.is_held("set"))
        self.ask_redis("CLIENT", "UNPAUSE")
        late.ends()
        self.wait_for("the follower leads", lambda: self.says(2, "leads by epoch 2 after [1-9]"))
        pieces = re.findall(r"^\d+-\d+$", self.ask_redis("XRANGE", "window", "-", "+"), re.M)
        requests = ["9 last", "9 2 put late b", "9 3 get late", "9 4 get late", "9 5 get late"]
        asked = self.run_program(self.program, "ask", self.port + 2, *requests)
        with self.case("a piece before the next leader's first entry"):
            self.assertEqual(early.said() + late.said(), "9 1 done\n9 2 done\n")
            self.assertEqual(pieces, ["1-1", "1-2", "1-3", "2-1"])
            answers = ["9 last 2", "9 2 done", "9 3 message a", "9 4 message b", "9 5 nothing"]
            self.assertEqual(asked.said().splitlines(), answers)
        self.stop(2)
        self.stop(1)

    def test_own_words(self):
        """No client puts the words of another, also if it takes them once all have started."""
        for number, requests in list(clients_requests()):
            if number in PLACES:
                words = [next(requests).split()[2] for _ in range(3)]
                with self.case(f"what client {number} puts"):
                    self.assertEqual(words, [f"{number}.{n}" for n in (1, 2, 3)])

    def test_kills(self):
        for place in PLACES:
            self.serve(place)
        self.leader()
        self.start_clients()
        self.clients_go_on("at first")
        self.kill_leaders(4)
        self.kill_follower()

    def test_restarts_redis(self):
        """Redis comes back with its file.

        The followers connect again, and so does the leader, unless it was replaced.
        """
        self.revive()
        self.kill_redis()
        time.sleep(0.2)
        self.start_redis()
        self.clients_go_on("after a kill of Redis")
        running = sum(server.runs() for server in self.servers.values())
        self.holds("servers run after a kill of Redis", running >= 2, running)
        self.revive()

    def test_broken_connections(self):
        """Redis breaks all connections again and again.

        A leader can't know then whether a piece was added, and adds it again.
        """
        broken = 0
        for _ in range(60):
            broken += int(
                re.sub(
                    r"\D", "", self.ask_redis("CLIENT", "KILL", "TYPE", "normal", "SKIPME", "yes")
                )
                or 0
            )
            time.sleep(0.02)
        self.holds("connections are broken", broken > 20, broken)
        self.clients_go_on("after broken connections")
        self.kill_leaders(3)

    def test_stopped_leader(self):
        """A leader that is stopped is replaced. Continued, it is refused, and ends."""
        self.revive()
        old = self.leader()
        server = self.servers[old]
        type(self).stopped = old
        server.signal(signal.SIGSTOP)
        self.leader()
        self.clients_go_on("while the old leader is stopped")
        server.signal(signal.SIGCONT)
        replaced = "replaced: another process leads, and Redis refused piece"
        self.holds(
            "an old leader ends",
            server.ends() == 6 and replaced in server.errors(),
            server.errors(),
        )
        self.serve(old)
        type(self).stopped = None
        self.keep_front()
        self.kill_follower()
        self.kill_leaders(2)
        self.stop_clients()

    def test_repeats(self):
        """A request that is repeated is performed once, also by another leader."""
        put, get = "9 1 put once a b", "9 2 get once"
        answers = ["9 1 done"] * 3 + ["9 2 message a b"] * 2 + ["9 3 count 0"]
        self.says_to(
            "a put thrice, a get twice", answers, put, put, put, get, get, "9 3 count once"
        )
        last = ["refused: the last request of client 9 was 3"]
        self.says_to("an old number", last, put)
        self.says_to("a number too large", last, "9 5 put once a b")
        self.kill_leader()
        repeated = ["9 last 3", "9 3 count 0", "9 4 nothing"]
        self.says_to(
            "repeated to the next leader", repeated, "9 last", "9 3 count other", "9 4 get once"
        )
        no_requests = ["refused: the first word is no client's number", "refused: put has no text"]
        self.says_to("lines that are no requests", no_requests, "x", "9 5 put q")
        long = ["refused: a line has more than 4096 bytes", "9 last 4"]
        self.says_to("a line that is too long", long, f"9 5 put q {'x' * 10000}", "9 last")

    def test_hold(self):
        """While Redis is stopped, no put is answered.

        It is stopped for longer than the leader waits for it, so the leader sends the piece a
        second time, and then Redis has both. The put is performed once, and answered.
        """
        leader = self.port + self.leader()
        self.redis.signal(signal.SIGSTOP)
        asking = self.start(self.program, "ask", leader, "9 5 put held a", "9 6 count held")
        time.sleep(6)
        early = asking.said()
        self.redis.signal(signal.SIGCONT)
        asking.ends()
        is_right = (early, asking.said()) == ("", "9 5 done\n9 6 count 1\n")
        self.holds("a put while Redis is stopped", is_right, early, asking.said(), asking.errors())

    def test_fence(self):
        """An entry with an earlier leader's epoch is refused, however large its number is."""
        epoch = int(self.says(self.leader(), r"leads by epoch (\d+) ")[1])
        told = self.ask_redis("XADD", "letters", f"{epoch - 1}-18446744073709551615", "piece", "x")
        self.holds(
            f"an entry of an epoch before {epoch}", epoch > 1 and "equal or smaller" in told, told
        )

    def drained(self, queue):
        """What is left in a queue is received too."""
        client = Client(self, f"2{queue}", itertools.repeat(f"get q{queue}"))
        wait_until("the queue is empty", lambda: "nothing" in client.answers())
        client.program.signal(signal.SIGTERM)
        client.program.ends()
        return client

    def test_who_put(self):
        """In the journal each word is followed by a request of the client that put it."""
        journal = self.dump().decode()
        put = r"^seat \d+ send \d+ =(\d+\.\d+): done\n"
        request = r"seat \d+ (?:mvar|swap \d+) =client%20(\d+)%20(\d+)%20done: "
        found = re.findall(put + request, journal, re.M)
        with self.case("who put each word"):
            others = [(word, client, n) for word, client, n in found if word != f"{client}.{n}"]
            self.assertEqual(others[:3], [], f"{len(others)} words are not their client's")
            self.assertEqual(len(found), len(re.findall(put, journal, re.M)))

    def test_each_put_once(self):
        """Each put that was answered was received once.

        Each producer's are in order at each queue, and the journal has no other.
        """
        puts, received, last = set(), collections.Counter(), {}
        for client in self.clients:
            refused = [line for line in client.answers() if line.startswith("refused")]
            self.holds(f"client {client.number} is not refused", not refused, refused[:3])
        for client in self.clients + [self.drained(queue) for queue in QUEUES]:
            if client.number in PLACES:
                puts.update(
                    f"{client.number}.{n + 1}" for n in range(client.answers().count("done"))
                )
                continue
            words = [line.split()[1] for line in client.answers() if line.startswith("message ")]
            received.update(words)
            for place, word in enumerate(words):
                producer, number = word.split(".")
                at = str(client.number)[-1], producer
                where = f"client {client.number} has {word} at {place} of {len(words)}"
                self.assertGreater(int(number), last.get(at, 0), where)
                last[at] = int(number)
        journal = self.dump()
        kept = collections.Counter(
            re.findall(r"^seat \d+ send \d+ =(\d+\.\d+):", journal.decode(), re.M)
        )
        with self.case("each put once"):
            self.assertGreaterEqual(len(puts), LEAST_PUTS)
            self.assertEqual(received, collections.Counter(puts))
            self.assertEqual(kept, collections.Counter(puts))
        checked = subprocess.run(
            self.checker, input=journal, capture_output=True, check=False
        ).stdout.decode()
        entries = sum(b":" in line for line in journal.splitlines())
        last_sum = journal.decode().split()[-1]
        told = f"lawful {entries}\nsum {last_sum}\n"
        self.holds("the journal is lawful", checked == told, checked, entries)
        for size, front in self.fronts:
            self.holds(
                f"the first {size} bytes are still there",
                hashlib.sha256(journal[:size]).digest() == front,
            )
        print(
            f"the leader was killed 10 times; {len(puts)} puts were answered, "
            f"in {entries} entries of the journal"
        )
        self.holds("few leaders were replaced unasked", self.unasked <= MOST_UNASKED, self.unasked)

    def test_streams(self):
        self.ask_redis("SET", "word", "x")
        self.refuses_stream(
            "a key that is no stream",
            "word",
            "word: this key of Redis holds something else, and no stream",
        )
        self.ask_redis("XADD", "other", "1-1", "color", "red")
        self.refuses_stream(
            "a stream of something else",
            "other",
            "stream other: entry 1-1 is something else: neither",
        )
        self.add("orphan", "2-2", sealed("")[0])
        self.refuses_stream(
            "a piece without a leader", "orphan", "stream orphan: piece 2-2 is no leader's"
        )
        made = "seat 0 mailbox: made 0/"
        queue = "seat 0 mvar =queue%20a: made 0/seat 0 mailbox: made 1/"
        first, _, third = sealed(queue, made, made)
        changed = sealed(queue + "seat 0 send 1 =hello: done/")[0].replace("hello", "hallo")
        faulty = [
            (
                "a torn line",
                "torn",
                [f"journal 4/{made}seat 0 send 0 =a: d"],
                "piece 1-2 is torn after line 2",
            ),
            (
                "a piece without its end",
                "endless",
                [f"journal 4/{made}"],
                "piece 1-2 is torn after line 2",
            ),
            (
                "a piece that is doubled",
                "doubled",
                sealed(made) * 2,
                "piece 1-3 has a fault: line 4 .*after 1 entries",
            ),
            (
                "a piece that is missing",
                "missing",
                [first, None, third],
                "piece 1-4 has a fault: line 5 .*after 2 entries",
            ),
            (
                "a letter that was changed",
                "changed",
                [changed],
                "piece 1-2 has a fault: line 5 .*after 3 entries",
            ),
            (
                "an entry that is unlawful",
                "unlawful",
                sealed(made + "seat 0 poll 0: =a/"),
                "piece 1-2 is unlawful at entry 1",
            ),
            (
                "a journal of numbers",
                "numbers",
                ["journal 1/seat 0 mailbox: made 0/end 1/"],
                "piece 1-2 has a fault: line 1 ",
            ),
        ]
        for name, stream, pieces, error in faulty:
            self.ask_redis("XADD", stream, "1-1", "leader", "x")
            for number, piece in enumerate(pieces, 2):
                if piece is not None:
                    self.add(stream, f"1-{number}", piece)
            self.refuses_stream(name, stream, f"stream {stream}: {error}")
        others = [
            ("another program's journal", sealed(made)[0], "object 0 of the journal is another"),
            ("a journal without sums", f"journal 2/{queue}end 2/", "the journal has no sums"),
        ]
        for place, (name, piece, error) in enumerate(others):
            stream = f"other{place}"
            self.ask_redis("XADD", stream, "1-1", "leader", "x")
            self.add(stream, "1-2", piece)
            self.refuses_stream(name, stream, error)
        self.ask_redis("CONFIG", "SET", "appendfsync", "everysec")
        self.refuses_stream(
            "a Redis that keeps less", "word", "appendfsync is everysec, not always"
        )
        self.ask_redis("CONFIG", "SET", "appendfsync", "always")

    def watched(self, name, *command):
        """Cases: one short run of a server, watched by a tool, with no complaint.

        A second server, which follows, takes the short journal that the first one makes.
        """
        options = ("serve", "--lease", "5000", "--compact-from", "20", self.port, name)
        server = self.start(*command, *options, self.port + 4)
        self.wait_for(
            f"a leader under {name}", lambda: "leads" in server.said() or not server.runs()
        )
        follower = self.start(*command, *options, free_port())
        self.wait_for(
            f"a follower under {name}", lambda: "follows" in follower.said() or not follower.runs()
        )
        requests = "put q a\nget q\n" * 10 + "count q\nget q\n"
        words = [self.program, "client", "1", str(self.port + 4)]
        told = subprocess.run(
            words, input=requests, capture_output=True, text=True, timeout=LIMIT, check=False
        ).stdout
        wanted = "done\nmessage a\n" * 10 + "count 0\nnothing\n"
        first = self.ask_redis("XRANGE", name, "-", "+", "COUNT", 1)
        self.holds(f"a short journal under {name}", "\nshort\n" in first, first)
        # The follower reads what is there meanwhile.
        time.sleep(1)
        for watched in follower, server:
            watched.signal(signal.SIGTERM)
            is_right = (watched.ends(), watched.errors(), told) == (0, "", wanted)
            self.holds(f"a run under {name}", is_right, told, watched.errors())

    def test_watched(self):
        if self.make("watched", "-fsanitize=address,undefined -fno-sanitize-recover").status == 0:
            self.watched("sanitizers", self.work / "watched/follow")
        else:
            print("left out: a run under sanitizers: the compiler has none")
        if has("valgrind"):
            self.watched(
                "valgrind",
                "valgrind",
                "--quiet",
                "--leak-check=full",
                "--error-exitcode=99",
                self.program,
            )
        else:
            print("left out: a run under valgrind: there is no valgrind")

    def test_demonstration(self):
        """The demonstration writes what its page says."""

        def shown(text):
            text = re.sub("at port [0-9]*", "at port N", re.sub("^    ", "", text, flags=re.M))
            return re.search(
                r"^put greetings hello: done$.*?^the one at port[^\n]*$", text, re.M | re.S
            )

        copy = self.work / "follow"
        shutil.copytree(FOLDER, copy, ignore=shutil.ignore_patterns("out"))
        ran = self.run_program("sh", copy / "demo.sh", free_port())
        page, told = shown((TOP / "docs/FOLLOW.md").read_text()), shown(ran.said())
        with self.case("the demonstration"):
            self.assertEqual(told and told[0], page[0], ran.said() + ran.errors())

    def test_lost(self):
        """Redis comes back without its file: no server goes on as if nothing were lost."""
        self.revive()
        self.leader()
        for place in PLACES:
            self.wait_for(
                f"server {place} has read the stream",
                lambda place=place: self.says(place, "follows after"),
            )
        self.kill_redis()
        shutil.rmtree(self.work / "redis")
        self.start_redis()
        for place in PLACES:
            server = self.servers[place]
            lost = "is gone: Redis has lost what it kept"
            self.holds(
                f"server {place} of a Redis without its file",
                server.ends() == 2 and lost in server.errors(),
                server.errors(),
            )


if __name__ == "__main__":
    for needed in "redis-server", "redis-cli", "make", "cc", "pkg-config":
        if not has(needed):
            left_out("the program that follows", needed)
    if subprocess.run(["pkg-config", "--exists", "hiredis"], check=False).returncode != 0:
        left_out("the program that follows", "hiredis")
    main(Follow, Short)
