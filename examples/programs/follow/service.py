"""What runs while the service is tested: Redis, three servers, and six clients."""

import hashlib
import itertools
import os
import pathlib
import random
import re
import signal
import socket
import subprocess
import sys
import threading
import time

FOLDER = pathlib.Path(__file__).resolve().parent
sys.path.insert(0, str(FOLDER.parents[2] / "tests/lib"))
from cases import Cases, wait_until  # noqa: E402

PLACES = (1, 2, 3)


def is_free(port):
    with socket.socket() as tried:
        return tried.connect_ex(("127.0.0.1", port)) != 0


def free_port():
    """A port for Redis with four free ones after it, for three servers and one that is refused."""
    ports = (random.randrange(20000, 30000, 5) for _ in itertools.count())
    return next(port for port in ports if all(is_free(port + near) for near in range(5)))


def sealed(*pieces):
    """The pieces of a journal with these entries, each of which has `/` for its line feed."""
    texts, after, end = [], "", 0
    for entries in pieces:
        begun = f"from {end}/" if end else ""
        text = f"journal 4{after}/{begun}{entries}"
        end += entries.count("/")
        after = " " + hashlib.sha256(text.replace("/", "\n").encode()).hexdigest()
        texts.append(f"{text}end {end}{after}/")
    return texts


def puts(number):
    """Return what this client puts: its numbered words, into three queues in turn.

    Each line is made when the client takes it. If a loop made the generator in its body, the loop's
    variable could be the next client's number by then.
    """
    return (f"put q{(n + number) % 3 + 1} {number}.{n}" for n in itertools.count(1))


def clients_requests():
    """Each client's number and requests: three put words, and three get what is there."""
    for number in PLACES:
        yield number, puts(number)
        yield f"1{number}", itertools.repeat(f"get q{number}")


class Client:
    """A client that asks again and again, until its standard input ends."""

    def __init__(self, tests, number, requests):
        self.number = number
        places = [tests.port + place for place in PLACES]
        words = [tests.program, "client", "--every", "30", number, *places]
        self.program = tests.start(*words, stdin=subprocess.PIPE)
        threading.Thread(target=self.write, args=(requests,), daemon=True).start()

    def write(self, requests):
        try:
            for request in requests:
                self.program.process.stdin.write(f"{request}\n".encode())
        except (BrokenPipeError, ValueError):
            pass

    def answers(self):
        return self.program.said().splitlines()


class Service(Cases):
    """A program that serves at three places, with the library of a prefix."""

    @classmethod
    def setUpClass(cls):
        given = pathlib.Path(cls.words[0]).resolve()
        cls.checker = [str(pathlib.Path(cls.words[1]).resolve()), *cls.words[2:]]
        prefix = given if given.is_dir() else cls.install_rooms(given)
        os.environ["PKG_CONFIG_PATH"] = str(prefix / "lib/pkgconfig")
        built = cls.make("built")
        if built.status != 0:
            raise AssertionError(f"the program is built: {built.said()}{built.errors()}")
        cls.program = cls.work / "built/follow"
        cls.port = free_port()
        cls.servers = {}
        cls.stopped = None
        cls.unasked = 0
        cls.fronts = []
        cls.clients = []

    @classmethod
    def make(cls, out, *words):
        """Builds the program, with these words for the compiler too."""
        named = f"OUT={cls.work / out}", f"CHECKED={' '.join(words)}"
        return cls.run_program("make", "-C", FOLDER, *named)

    def holds(self, name, condition, *shown):
        with self.case(name):
            self.assertTrue(condition, shown)
        return condition

    def wait_for(self, name, condition):
        """A case: the condition holds in the end."""
        with self.case(name):
            wait_until(name, condition)
            return True
        return False

    # ---- Redis ----

    def ask_redis(self, *words, stdin=None):
        ran = subprocess.run(
            ["redis-cli", "-p", str(self.port), *map(str, words)],
            input=stdin,
            capture_output=True,
            text=True,
            check=False,
        )
        return ran.stdout + ran.stderr

    def start_redis(self):
        folder = self.work / "redis"
        folder.mkdir(exist_ok=True)
        kept = ["--save", "", "--appendonly", "yes", "--appendfsync", "always"]
        cls = type(self)
        cls.redis = self.start(
            "redis-server", "--port", self.port, "--bind", "127.0.0.1", "--dir", folder, *kept
        )
        self.wait_for("Redis answers", lambda: self.ask_redis("ping") == "PONG\n")

    def kill_redis(self):
        self.redis.kill()

    # ---- three servers, each at its own place ----

    def serve(self, place, stream="letters", lease=1500, options=()):
        """Starts a new server there."""
        words = ["serve", "--lease", lease, *options, self.port, stream, self.port + place]
        self.servers[place] = self.start(self.program, *words)

    def says(self, place, pattern):
        return re.search(f"^{pattern}", self.servers[place].said(), re.M)

    def leads(self, place):
        return place != self.stopped and self.servers[place].runs() and self.says(place, "leads by")

    def leader(self):
        """The place of a leader that runs, once there is one: a case."""
        found = []
        self.wait_for(
            "a server leads",
            lambda: found.extend(place for place in PLACES if self.leads(place)) or found,
        )
        return found[0]

    def revive(self):
        """On a machine that is too busy a leader may be replaced unasked.

        That is no fault if it is rare, and a new server takes its place.
        """
        for place in PLACES:
            server = self.servers[place]
            if not server.runs():
                if server.ends() != 6:
                    self.holds(f"server {place} runs", False, server.ends(), server.errors())
                type(self).unasked += 1
                self.serve(place)

    # ---- clients ----

    def start_clients(self):
        for number, requests in clients_requests():
            self.clients.append(Client(self, number, requests))

    def stop_clients(self):
        """Each client stops after the answer to its last request."""
        for client in self.clients:
            client.program.signal(signal.SIGTERM)
        for client in self.clients:
            self.holds("a client ends well", client.program.ends() == 0, client.program.errors())

    def clients_go_on(self, name):
        """A case: each client has some more answers."""
        before = {client: len(client.answers()) for client in self.clients}
        have_more = lambda: all(
            len(client.answers()) >= before[client] + 5 for client in self.clients
        )  # noqa: E731
        self.wait_for(f"{name}: each client has answers", have_more)

    # ---- what is killed ----

    def dump(self, stream="letters"):
        return subprocess.run(
            [self.program, "dump", str(self.port), stream], capture_output=True, check=False
        ).stdout

    def keep_front(self):
        """Keeps how many bytes the journal in Redis has, and their sum."""
        front = self.dump()
        self.fronts.append((len(front), hashlib.sha256(front).digest()))

    def kill_leader(self):
        self.revive()
        leader = self.leader()
        self.servers[leader].kill()
        self.holds("a leader is killed", self.servers[leader].ends() == -signal.SIGKILL)
        self.keep_front()
        self.serve(leader)
        self.leader()

    def kill_leaders(self, most):
        """Kills this many leaders at random times, while clients ask."""
        for _ in range(most):
            time.sleep(random.randrange(10) / 10)
            self.kill_leader()
            self.clients_go_on("after a kill of the leader")

    def kill_follower(self):
        self.revive()
        follower = self.leader() % 3 + 1
        self.servers[follower].kill()
        self.holds("a follower is killed", self.servers[follower].ends() == -signal.SIGKILL)
        self.serve(follower)
        self.wait_for(
            "a new follower has read the stream",
            lambda: self.says(follower, "follows after [1-9]"),
        )
        self.clients_go_on("after a kill of a follower")

    # ---- requests ----

    def says_to(self, name, expected, *requests):
        """A case: what the leader answers to these requests."""
        asked = self.run_program(self.program, "ask", self.port + self.leader(), *requests)
        with self.case(name):
            self.assertEqual(asked.said().splitlines(), expected, asked.errors())

    # ---- named errors ----

    def refuses(self, name, status, error, *words):
        """A case: the program ends so by these words, with this in an error."""
        ended = self.run_program(self.program, *words)
        self.holds(
            name,
            ended.status == status and re.search(error, ended.errors(), re.M),
            ended.status,
            ended.errors(),
        )

    def refuses_stream(self, name, stream, error):
        """A case: a server that would follow this stream ends so."""
        self.refuses(name, 2, error, "serve", "--lease", "100", self.port, stream, self.port + 4)

    def add(self, stream, number, piece, kind="piece"):
        """Adds a piece; in it each `/` is a line feed."""
        self.ask_redis("-x", "XADD", stream, number, kind, stdin=piece.replace("/", "\n"))
