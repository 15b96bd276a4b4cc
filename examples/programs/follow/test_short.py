"""Streams that a leader makes short: `test_follow.py` runs this too."""

import re
import signal
import subprocess

from service import Service, sealed
from cases import wait_until  # noqa: I001

# A stream is made short once it has this many entries of the journal.
FROM = 100

OPTIONS = ("--compact-from", FROM)

# How often a follower tries to keep up.
TRIES = 10


class Short(Service):
    """Each test has its own stream. Client 9 asks."""

    def setUp(self):
        self.stream = self._testMethodName
        self.last = 0

    def begin(self, lease=1500):
        """Two servers: the first one leads."""
        self.serve(1, self.stream, lease, OPTIONS)
        self.wait_for("a leader", lambda: self.says(1, "leads by epoch 1 after 0 entries"))
        self.serve(2, self.stream, lease, OPTIONS)
        self.wait_for("a follower", lambda: self.says(2, "follows after 0 entries"))

    def requests(self, count):
        """The next requests: they put numbers and get them again, so that the last ten wait."""
        for _ in range(count):
            self.last += 1
            call = f"put q {self.last}" if self.last <= 10 or self.last % 2 else "get q"
            yield f"9 {self.last} {call}"

    def asks(self, place, count):
        """Makes this many requests, in pieces, and returns the answers."""
        answers = []
        for first in range(0, count, 20):
            requests = self.requests(min(20, count - first))
            asked = self.run_program(self.program, "ask", self.port + place, *requests)
            answers += asked.said().splitlines()
        return answers

    def first(self):
        """The first entry of the stream: its ID, its kind and its text."""
        told = self.ask_redis("XRANGE", self.stream, "-", "+", "COUNT", 1)
        return told.split("\n", 2)

    def length(self):
        return int(self.ask_redis("XLEN", self.stream))

    def goes_on(self, place):
        """Cases: a new leader has the same client and the same texts."""
        self.wait_for(f"server {place} leads", lambda: self.says(place, r"leads by epoch \d+ "))
        # 1 to 10 were put, and then each odd number. Each even one was a get.
        put = [*range(1, 11), *range(11, self.last + 1, 2)]
        answers = [f"message {text}" for text in put[self.last // 2 - 5 :]] + ["nothing"]
        numbers = range(self.last + 1, self.last + 1 + len(answers))
        words = [f"9 {number} get q" for number in numbers]
        asked = self.run_program(self.program, "ask", self.port + place, "9 last", *words)
        wanted = [f"9 {number} {answer}" for number, answer in zip(numbers, answers)]
        with self.case(f"server {place} has what the leader had"):
            self.assertEqual(asked.said().splitlines(), [f"9 last {self.last}", *wanted])

    def end(self):
        for server in self.servers.values():
            if server.runs():
                server.kill()

    def test_starts_short(self):
        """After many requests with few texts left, the stream is short, and so is a start."""
        self.start_redis()
        self.begin()
        answers = self.asks(1, 240)
        with self.case("each request is answered"):
            self.assertEqual(len(answers), 240)
            self.assertTrue(all(re.match(r"9 \d+ (done|message \d+)$", line) for line in answers))
        with self.case("the stream begins with a short piece"):
            self.assertEqual(self.first()[1], "short")
        with self.case("the stream is short"):
            self.assertLess(self.length(), FROM)
        journal = self.dump(self.stream)
        checked = subprocess.run(self.checker, input=journal, capture_output=True, check=False)
        entries = sum(b":" in line for line in journal.splitlines())
        with self.case("the journal is lawful"):
            last_sum = journal.decode().split()[-1]
            self.assertEqual(checked.stdout.decode(), f"lawful {entries}\nsum {last_sum}\n")
            self.assertLess(entries, 2 * FROM + 80)
        self.serve(3, self.stream, options=OPTIONS)
        self.wait_for("a new follower", lambda: self.says(3, r"follows after \d+ entries"))
        with self.case("a new follower reads few entries"):
            self.assertEqual(self.says(3, r"follows after (\d+) ")[1], str(entries))
        # The follower that read all pieces has checked each short one.
        self.holds("the follower goes on", self.servers[2].runs(), self.servers[2].errors())
        self.servers[2].kill()
        self.servers[1].kill()
        self.goes_on(3)
        self.end()

    def test_followed_all(self):
        """A follower that reads each piece takes the short ones, and leads then.

        On a machine that is too busy it may read a short piece before the one that came before it,
        and begins anew. So there are some tries.
        """
        for number in range(TRIES):
            self.stream, self.last = f"{self._testMethodName}_{number}", 0
            self.begin()
            self.asks(1, 100)
            self.servers[1].kill()
            self.goes_on(2)
            began_anew = self.says(2, "begins anew")
            self.end()
            if not began_anew:
                break
        with self.case("it read each piece"):
            self.assertFalse(began_anew)

    def test_away(self):
        """A follower is stopped while pieces are dropped, also with its connection broken."""
        self.begin(lease=10000)
        for is_broken in False, True:
            self.servers[2].signal(signal.SIGSTOP)
            before = self.first()
            self.asks(1, 100)
            with self.case("pieces were dropped"):
                self.assertNotEqual(self.first(), before)
            if is_broken:
                self.ask_redis("CLIENT", "KILL", "TYPE", "normal", "SKIPME", "yes")
            self.servers[2].signal(signal.SIGCONT)
            count = 2 if is_broken else 1
            anew = r"^begins anew with short piece 1-\d+ after \d+ entries$"
            self.wait_for(
                "a follower that was away begins anew",
                lambda count=count: len(re.findall(anew, self.servers[2].said(), re.M)) >= count
                or not self.servers[2].runs(),
            )
            self.holds("it runs", self.servers[2].runs(), self.servers[2].errors())
        self.servers[1].signal(signal.SIGTERM)
        self.servers[1].ends()
        self.goes_on(2)
        self.end()

    def held(self, count):
        """Whether Redis holds back this many entries."""
        clients = self.ask_redis("CLIENT", "LIST")
        return len(re.findall(r" flags=[a-zA-Z]*b.* cmd=xadd ", clients)) == count

    def test_replaced(self):
        """A leader whose piece was still kept is replaced before it makes the stream short.

        Redis holds back its piece and the next leader's first entry, and then performs both. So
        the short piece comes after these.
        """
        self.serve(1, self.stream, 40000, OPTIONS)
        self.wait_for("a leader", lambda: self.says(1, "leads by epoch 1 "))
        # Four entries of the first request, and two of each other one: the next one makes 100.
        self.asks(1, 48)
        with self.case("the stream isn't long yet"):
            self.assertEqual(self.first()[1], "leader")
        before = self.length()
        self.ask_redis("CLIENT", "PAUSE", 60000, "WRITE")
        asking = self.start(self.program, "ask", self.port + 1, *self.requests(1))
        self.wait_for("its piece is held back", lambda: self.held(1))
        other = self.start(
            "redis-cli", "-p", self.port, "XADD", self.stream, "2-1", "leader", "other"
        )
        self.wait_for("the next leader's entry is held back", lambda: self.held(2))
        self.ask_redis("CLIENT", "UNPAUSE")
        other.ends()
        replaced = "replaced: another process leads, and Redis refused piece 1-"
        self.holds(
            "the leader ends",
            self.servers[1].ends() == 6 and replaced in self.servers[1].errors(),
            self.servers[1].errors(),
        )
        asking.ends()
        with self.case("what it kept is answered"):
            self.assertEqual(asking.said(), "9 49 done\n")
        told = self.ask_redis("XRANGE", self.stream, "-", "+")
        with self.case("it has dropped nothing"):
            self.assertEqual((self.first()[1], self.length()), ("leader", before + 2))
            self.assertNotIn("\nshort\n", told)
        self.ask_redis("DEL", f"{self.stream}:lease")
        self.serve(2, self.stream, 1500, OPTIONS)
        self.goes_on(2)
        self.end()

    def test_begins_with_old_requests(self):
        """A new leader answers old requests alone before the stream is to be made short.

        The leader's seat has made no entry then. A follower that has read all pieces must go on.
        """
        self.serve(1, self.stream, 1500, OPTIONS)
        self.wait_for("a leader", lambda: self.says(1, "leads by epoch 1 "))
        # With 50 texts no short piece is short enough. The old leader tries again at 200 entries.
        words = [f"9 {number} put q {number}" for number in range(1, 51)]
        words += [f"9 {number} get q" for number in range(51, 96)]
        for word in words:
            self.run_program(self.program, "ask", self.port + 1, word)
        for place in 2, 3:
            self.serve(place, self.stream, 1500, OPTIONS)
            self.wait_for("a follower", lambda place=place: self.says(place, "follows after "))
        self.servers[3].signal(signal.SIGSTOP)
        self.servers[1].kill()
        self.wait_for("a new leader", lambda: self.says(2, r"leads by epoch \d+ "))
        self.servers[3].signal(signal.SIGCONT)
        asked = self.run_program(self.program, "ask", self.port + 2, "9 last")
        with self.case("it answers what was asked before"):
            self.assertEqual(asked.said(), "9 last 95\n")
        asked = self.run_program(self.program, "ask", self.port + 2, "9 96 get q")
        with self.case("it answers what is asked anew"):
            self.assertEqual(asked.said(), "9 96 message 46\n")
        self.wait_for("the stream is short", lambda: self.first()[1] == "short")
        self.servers[2].signal(signal.SIGTERM)
        self.servers[2].ends()
        follower = self.servers[3]
        self.wait_for(
            "the follower leads",
            lambda: self.says(3, r"leads by epoch \d+ ") or not follower.runs(),
        )
        self.holds("the follower goes on", follower.runs(), follower.errors())
        self.end()

    def test_wrong_short(self):
        """A short piece that isn't what the pieces before it leave, or that has a fault."""
        made = "seat 0 mvar =queue%20a: made 0/seat 0 mailbox: made 1/"
        torn = f"journal 4/{made}"
        other = "short piece 1-3 isn't what the pieces before it leave"
        wrong = [("another", sealed(made)[0], other), ("torn", torn, other)]
        for name, short, error in wrong:
            self.ask_redis("XADD", name, "1-1", "leader", "x")
            self.add(name, "1-2", sealed(made + "seat 0 send 1 =x: done/")[0])
            self.add(name, "1-3", short, "short")
            self.refuses_stream(f"a short piece: {name}", name, f"stream {name}: {error}")
        self.add("alone", "3-7", torn, "short")
        self.refuses_stream("a torn one that begins", "alone", "stream alone: piece 3-7 is torn")

    def test_lost(self):
        """Redis has lost its file, and has a stream of the same name."""
        self.begin(lease=10000)
        self.asks(1, 100)
        wait_until("a follower", lambda: self.servers[2].runs())
        self.kill_redis()
        self.ask_redis("SHUTDOWN")
        for file in sorted((self.work / "redis").rglob("*"), reverse=True):
            file.rmdir() if file.is_dir() else file.unlink()
        self.start_redis()
        lost = "is gone: Redis has lost what it kept"
        for place in 1, 2:
            server = self.servers[place]
            self.holds(
                f"server {place}", server.ends() == 2 and lost in server.errors(), server.errors()
            )
