"""The chat server makes its file short, as it starts and while clients talk, and no client sees it.

`test_chat_server.py` runs this too.
"""

import pathlib
import random
import time

from server_cases import Client, ServerCases, text_of

from cases import LIMIT, has, wait_until  # isort: skip

# How often the server is killed near the moment in which a file takes another one's place.
KILLS = 5

# How much a file grows before that at the least, in bytes.
GROWTH = 50000

# A disk of this many kilobytes: a file grows ahead by some megabytes.
DISK = 24000

GOES_ON = "it can't be made short, and goes on: "


def is_short(path):
    """Whether a journal was made short: then its first object was made before its record."""
    with open(path, "rb") as journal:
        return b"mvar: made 0" in [journal.readline() for _ in range(2)][1]


class Compaction(ServerCases):
    def setUp(self):
        super().setUp()
        self.beside = pathlib.Path(f"{self.journal}.new")

    def gets(self, client, first, last):
        """A case: a client gets the messages with these numbers, each once, in order."""
        with self.case(f"{client.name} gets the messages from {first} to {last}"):
            for number in range(first, last + 1):
                self.assertEqual(client.line().split(":")[0], f"{number} ann")

    def has_history(self, name, client, last, most):
        """A case: the history has the last messages, once the server has forgotten those before."""
        wait_until("the oldest are forgotten", lambda: len(client.history(1, last)) <= most)
        with self.case(f"{name}: the history has the last {most} messages"):
            self.assertEqual(client.history(1, last), list(range(last + 1 - most, last + 1)))

    def becomes_short(self, name, *options, **how):
        """A case: a server starts, and has made the file short."""
        self.begin(*options, **how)
        with self.case(f"{name}: the file is made short"):
            self.assertTrue(is_short(self.seen))

    def test_numbers_go_on(self):
        """Clients that wait, that went, and that come back get each message, with its number."""
        options = ("--compact-from", 20000, "--history-limit", 50)
        self.begin(*options)
        ann, ben, cyd, dan = (Client(self.address, name) for name in ("ann", "ben", "cyd", "dan"))
        for client in ann, ben, cyd, dan:
            with self.case(f"{client.name} joins"):
                self.assertEqual(client.ask("/join kitchen"), "joined kitchen next 1")
        ann.says(1900)
        self.gets(cyd, 1, 1900)
        self.gets(dan, 1, 1900)
        with self.case("dan leaves"):
            self.assertEqual((dan.quit(), cyd.quit()), (["bye"], ["bye"]))
            self.assertEqual(
                Client(self.address, "dan").greeting, "hello dan room kitchen next 1900 last 1900"
            )
        ann.says(100)
        self.gets(ben, 1, 2000)
        self.has_history("many messages", ann, 2000, 50)
        self.crash()
        self.becomes_short("many messages", *options)
        self.crash()
        # It may have four times what its short form has.
        self.starts_short("many messages", 2400, 120000, *options)
        self.comes_back()
        self.crash()
        self.begin(*options)
        dan = Client(self.address, "dan", 2001)
        with self.case("numbers go on after a second restart"):
            self.assertEqual(dan.greeting, "hello dan room kitchen next 2002 last 2001")
            self.assertEqual(dan.ask("last"), "2002 dan: last")
        self.crash()
        self.lawful("that was made short")

    def comes_back(self):
        """Cases: clients come back to a server that made its file short."""
        cyd = Client(self.address, "cyd")
        with self.case("a client that was away comes back"):
            self.assertEqual(cyd.greeting, "hello cyd room kitchen next 1901 last 2000")
        self.gets(cyd, 1901, 2000)
        ben = Client(self.address, "ben", 1990)
        with self.case("a client that saw most comes back"):
            self.assertEqual(ben.greeting, "hello ben room kitchen next 1991 last 2000")
        self.gets(ben, 1991, 2000)
        ann = Client(self.address, "ann", 5)
        with self.case("a client learns which messages are no longer there"):
            self.assertEqual(ann.greeting, "hello ann room kitchen next 1951 last 2000")
        self.gets(ann, 1951, 2000)
        with self.case("no message has such a number"):
            self.assertEqual(
                Client(self.address, "ann", 2001).greeting[:16], "error bad-number"
            )
        with self.case("numbers go on"):
            self.assertEqual(ben.ask("more"), "2001 ben: more")
            self.assertEqual(cyd.line(), "2001 ben: more")

    def test_nothing_is_left(self):
        """Nobody is in the room, and no message waits: its numbers go on all the same."""
        options = ("--compact-from", 1, "--history-limit", 1)
        self.begin(*options)
        ann = Client(self.address, "ann")
        ann.ask("/join kitchen")
        ann.says(300)
        with self.case("ann leaves"):
            self.assertEqual(ann.ask("/leave"), "left kitchen")
        self.crash()
        self.becomes_short("an empty room", *options)
        self.crash()
        self.begin(*options)
        ben = Client(self.address, "ben")
        with self.case("numbers go on in an empty room"):
            self.assertEqual(ben.ask("/join kitchen"), "joined kitchen next 301")
            self.assertEqual(ben.history(1, 400), [300])
            self.assertEqual(ben.ask("hello?"), "301 ben: hello?")
        self.crash()
        self.lawful("of an empty room")

    def test_killed_meanwhile(self):
        """The server is killed when a file takes another one's place, while clients talk."""
        options = ("--compact-from", 20000, "--history-limit", 6000)
        self.begin(*options)
        clients = self.many("--clients", 20, "--messages", 200, "--rooms", 2)
        left, short = 0, 0
        for _ in range(KILLS):
            self.await_growth(clients)
            self.crash()
            before = self.journal.stat().st_ino
            self.launch(*options)
            short += self.await_exchange(before)
            time.sleep(random.choice((0, 0, random.uniform(0, 0.03))))
            self.crash()
            left += self.beside.exists()
            self.begin(*options)
        print(f"{KILLS} kills: {short} near a short file, {left} left one that was begun")
        with self.case("a short file was begun before a kill"):
            self.assertGreater(short, 0)
        self.all_end_well("killed while the file is made short", clients)
        self.crash()
        self.becomes_short("killed meanwhile", *options)
        self.crash()
        self.lawful("of servers that were killed meanwhile")

    def await_growth(self, clients):
        """Waits until the file has four times as much, and more, or the clients have ended."""
        long = 4 * len(text_of(self.journal)) + GROWTH
        wait_until(
            "the file grows", lambda: len(text_of(self.journal)) > long or not clients.runs()
        )

    def await_exchange(self, before):
        """Waits until a short file is begun or there, or the server has begun. Returns whether one is."""
        end = time.monotonic() + LIMIT
        is_begun = False
        while not is_begun and self.server.runs() and time.monotonic() < end:
            # On a busy machine the short file may be there before anybody looks.
            is_begun = self.server.said()
            if self.beside.exists() or self.journal.stat().st_ino != before:
                return True
        return False

    def makes_long(self, **how):
        """A server runs until its file is long. Returns the last message's number."""
        self.begin("--history-limit", 20, **how)
        ann = Client(self.address, "ann")
        ann.ask("/join kitchen")
        for _ in range(100):
            last = ann.ask("x" * 1000).split()[0]
        self.crash()
        return int(last)

    def goes_on(self, name, last, *options, **how):
        """Cases: a server goes on with the long file."""
        self.begin("--history-limit", 20, *options, **how)
        ann = Client(self.address, "ann", last)
        with self.case(f"{name}: the file is the old one, and numbers go on"):
            self.assertFalse(is_short(self.seen))
            self.assertRegex(self.server.errors(), rf"^chat_server: {self.journal}: {GOES_ON}.*\n$")
            self.assertEqual(ann.ask("more"), f"{last + 1} ann: more")
        self.has_history(name, ann, last + 1, 20)

    def test_goes_on_without(self):
        """What has the short file's name stays, and the server goes on with the long file."""
        other = self.work / "in_the_way"
        other.write_text("it stays")
        options = ("--compact-from", 20000)
        last = self.makes_long()
        for leave, remove in (
            (lambda: self.beside.write_text("journal 4\nseat 0 mvar =chat%2"), self.beside.unlink),
            (lambda: self.beside.symlink_to(other), self.beside.unlink),
            (self.beside.mkdir, self.beside.rmdir),
        ):
            leave()
            self.goes_on("something is in the way", last, *options)
            last += 1
            self.server.kill()
            remove()
        with self.case("what a link names stays"):
            self.assertEqual(other.read_text(), "it stays")
        self.lawful("that can't be made short")
        self.becomes_short("nothing is in the way", "--history-limit", 20, *options)
        with self.case("numbers go on in a file that was made short at last"):
            self.assertEqual(Client(self.address, "ann", last).greeting.split()[-1], str(last))
        self.crash()
        self.lawful("that was made short at last")

    def test_full_disk(self):
        """There is no space for a short file."""
        unshared = ("unshare", "--user", "--map-root-user", "--mount")
        if not has("unshare", "nsenter") or self.run_program(*unshared, "true").status != 0:
            self.skipTest("a full disk: no disk can be mounted")
        disk = self.work / "disk"
        disk.mkdir()
        mount = f"mount -t tmpfs -o size={DISK}k none {disk} && echo mounted && exec sleep {LIMIT}"
        holder = self.start(*unshared, "sh", "-c", mount)
        wait_until("the disk is mounted", holder.said)
        number = holder.process.pid
        inside = ("nsenter", "--user", "--mount", "--preserve-credentials", f"--target={number}")
        self.journal = disk / "journal"
        self.seen = pathlib.Path(f"/proc/{number}/root{self.journal}")
        options = ("--compact-from", 20000)
        last = self.makes_long(wrapper=inside)
        filler = self.seen.with_name("filler")
        used = sum(1 + file.stat().st_blocks // 8 for file in self.seen.parent.iterdir())
        filler.write_bytes(bytes(4096 * (DISK // 4 - used)))
        self.goes_on("a full disk", last, *options, wrapper=inside)
        self.server.kill()
        with self.case("what was begun is removed"):
            self.assertFalse(self.seen.with_name("journal.new").exists())
        filler.unlink()
        name = "a disk that has space again"
        self.becomes_short(name, "--history-limit", 20, *options, wrapper=inside)
        with self.case(f"numbers go on: {name}"):
            self.assertEqual(Client(self.address, "ann").greeting.split()[-1], str(last + 1))
        self.crash()
        self.lawful(f"of {name}")
