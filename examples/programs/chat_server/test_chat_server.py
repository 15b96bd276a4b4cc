"""The chat server, tried by clients: `python3 test_chat_server.py CHAT_SERVER [CHECK WORD..]`.

CHAT_SERVER is the built program, with `chat_load` beside it; or the archive of cml_c, with which
both are built and their own tests run. The rest is the command that checks a journal. The server is
killed again and again, and each one goes on from the file that the one before left: each client
gets each message of its room once, in one order with all others.
"""

import os
import random
import re
import socket
import sys
import time

from server_cases import Client, ServerCases, leave_torn, sealed, text_of
from test_compaction import Compaction

from cases import has, left_out, main, wait_until  # isort: skip

# How many messages a second are received at the least: a tenth of what the server is made for.
LEAST_RATE = 2000

# How often the server is killed while a hundred clients talk, and how many connections that must
# cost at the least.
KILLS, LEAST_LOST = 6, 100

# How many bytes of a file are changed, one at a time.
CHANGES = 200


# What an earlier server wrote as it made its file short, and after that.
EARLIER = """\
seat 7 mvar: made 0
seat 7 mailbox: made 1
seat 7 channel: made 2
seat 7 mvar: made 3
seat 7 port 2: made 4
seat 7 mvar: made 5
seat 7 port 2: made 6
seat 7 mvar: made 7
seat 7 send 1 =138%20ann%20line%20137: done
seat 7 send 1 =139%20ann%20line%20138: done
seat 7 send 1 =140%20ann%20line%20139: done
seat 7 send 1 =141%20ann%20line%20140: done
seat 7 multicast 2 =141%20ann%20line%20140: done
seat 7 put 0 =chat%202: done
seat 7 put 3 =room%20kitchen%20queue%201%20channel%202%20published%20141: done
seat 7 recv 4: =141%20ann%20line%20140
seat 7 put 5 =member%20ann%20of%20kitchen%20reads%204: done
seat 7 put 7 =member%20ben%20of%20kitchen%20reads%206: done
"""
LATER = """\
seat 5 recv 6: =141%20ann%20line%20140
seat 2 send 1 =142%20ann%20line%20141: done
seat 1 multicast 2 =142%20ann%20line%20141: done
seat 1 poll 1: =138%20ann%20line%20137
seat 3 recv 4: =142%20ann%20line%20141
seat 5 recv 6: =142%20ann%20line%20141
seat 2 send 1 =143%20ann%20line%20142: done
"""


def limited(blocks):
    """The words before a program whose files have at most this many blocks of 512 bytes."""
    return "sh", "-c", f"trap '' XFSZ; ulimit -f {blocks}; exec \"$@\"", "sh"


def earlier():
    """The file of an earlier server, with two pieces that have sums."""
    return sealed(*EARLIER.splitlines(), then=LATER.splitlines())


class ChatServer(ServerCases):
    def test_sources(self):
        if not self.archive:
            self.skipTest("the tests of the sources: the program was built elsewhere")
        tested = self.cargo("test")
        with self.case("the tests of the sources pass"):
            self.assertEqual(tested.status, 0, tested.said() + tested.errors())
        for _ in range(
            sum(map(int, re.findall(r"^test result: ok. (\d+) passed", tested.said(), re.M)))
        ):
            with self.case("a test of the sources"):
                pass

    def test_refusals(self):
        self.journal.touch()
        self.begin()
        anywhere = ("--listen", "127.0.0.1:0")
        self.refuses("no words", 2, "chat_server: --listen is missing; see chat_server --help")
        self.refuses("an unknown word", 2, "chat_server: unknown word: --foo", "--foo")
        self.refuses(
            "a wrong address", 2, "chat_server: --listen can't be here", "--listen", "here"
        )
        self.refuses(
            "a wrong limit", 2, "chat_server: --owed-limit can't be 0", "--owed-limit", "0"
        )
        self.refuses(
            "a word twice",
            2,
            "chat_server: --journal is there twice",
            "--journal",
            "a",
            "--journal",
            "b",
        )
        second = self.work / "second"
        self.refuses(
            "a port in use",
            3,
            "chat_server: can't listen: ",
            "--listen",
            self.address,
            "--journal",
            second,
        )
        folder = f"chat_server: {self.work} is no journal of a chat server: the file is no journal"
        self.refuses("a folder", 5, folder, *anywhere, "--journal", self.work)
        nowhere = self.work / "none/journal"
        self.refuses(
            "a file in no folder", 4, f"chat_server: {nowhere}: ", *anywhere, "--journal", nowhere
        )
        self.refuses(
            "a device",
            5,
            "chat_server: /dev/null is no journal",
            *anywhere,
            "--journal",
            "/dev/null",
        )
        in_use = f"chat_server: {self.journal}: another server has the file"
        self.refuses("a file in use", 6, in_use, *anywhere, "--journal", self.journal)
        self.no_journals()
        self.expect("help", self.run_program(self.program, "--help"), 0, True, "")
        self.crash()

    def no_journals(self):
        """Cases: files that are no journals of a chat server."""
        self.no_journal("a text", "Shopping\nmilk\n", "the file is no journal\n")
        self.no_journal("a text of one line without its end", "milk", "the file is no journal\n")
        numbers = "journal 1\nseat 0 mailbox: made 0\nend 1\n"
        self.no_journal("a journal of numbers", numbers, "the journal's messages are those of the")
        later = "journal 9\nend 0\n"
        self.no_journal("a journal of a later version", later, "the journal's text has a version")
        cut = "journal 2\nfrom 4\nend 4\n"
        self.no_journal("a journal from a cut on", cut, "the journal begins after a cut")
        self.no_journals_of_lines()
        self.foreign_journals()

    def no_journals_of_lines(self):
        """Cases: journals in which a line is wrong."""
        chat = "seat 0 mvar =chat%202: made 0"
        unlawful = "journal 2\n" + chat + "\nseat 0 recv 0: =a\n"
        where = "the entry at position 1 of the journal's file isn't lawful\n"
        self.no_journal("an unlawful journal", unlawful, where)
        damaged = "journal 2\n" + chat + "\nseat O put 0 =a: done\n"
        self.no_journal("a damaged journal", damaged, "line 3 of the journal's file has a fault\n")
        sent = (chat, "seat 0 mailbox: made 1", "seat 0 send 1 =7%20ann%20hello: done")
        other = sealed(*sent).replace("hello", "hallo")
        changed = "line 5 of the journal's file has a fault\n"
        self.no_journal("a letter that was changed in a piece with a sum", other, changed)

    def foreign_journals(self):
        """Cases: lawful journals of other programs. Opening one could make it short."""
        torn = "journal 2\nseat 0 mailbox: made 0\nseat 0 send 0 =a: do"
        why = "its first object isn't the record of a chat server\n"
        self.no_journal("a journal of another program", torn, why)
        self.no_journal("a sealed one of another program", sealed("seat 0 mailbox: made 0"), why)
        chat = "seat 0 mvar =chat%202: made 0"
        room = "seat 0 mvar =room%20a: made 1"
        bad = "object 1 is no record of a chat server\n"
        self.no_journal("a journal with a record of nothing", sealed(chat, room), bad)
        no_message = "a message of the journal is not a line that was said\n"
        kitchen = (
            chat,
            "seat 0 mailbox: made 1",
            "seat 0 channel: made 2",
            "seat 0 mvar =room%20kitchen%20queue%201%20channel%202%20published%200: made 3",
        )
        unnumbered = sealed(*kitchen, "seat 0 send 1 =ann%20hello: done")
        self.no_journal("a message without a number", unnumbered, no_message)
        gap = ("seat 0 send 1 =7%20ann%20hello: done", "seat 0 send 1 =9%20ann%20hello: done")
        self.no_journal("a message that is missing", sealed(*kitchen, *gap), no_message)
        ports = ("seat 0 channel: made 4", "seat 0 port 4: made 5")
        for name, port in ("a room whose witness is a channel", 4), ("one of another channel", 5):
            record = kitchen[3].replace("published%200", f"published%200%20witness%20{port}")
            bad = "object 3 is no record of a chat server\n"
            self.no_journal(name, sealed(*kitchen[:3], record, *ports), bad)

    def test_changes(self):
        """What a change of a byte shows at the start.

        A start sees each change before the last sum. After it, it sees no change of what was said and
        that nobody has received, or of who made a call. But it sees each of what was received.
        """
        self.begin()
        ann, ben = (Client(self.address, name) for name in ("ann", "ben"))
        for client in ann, ben:
            client.ask("/join kitchen")
        for number in range(7, 60):
            ann.ask(f"We need {number} eggs, and {number * number} g of flour.")
        ann.quit()
        self.crash()
        whole = text_of(self.journal)
        seen = 0
        # A server that takes a file ends then, since it can't listen.
        with socket.create_server(("127.0.0.1", 0)) as listener:
            words = ("--listen", f"127.0.0.1:{listener.getsockname()[1]}", "--journal")
            for place in sorted(random.sample(range(len(whole)), CHANGES)):
                seen += self.is_seen(whole, place, words)
            self.ends_by_a_zero(whole, words)
        print(f"{seen} of {CHANGES} changes of a byte are seen")
        with self.case("most changes are seen"):
            self.assertGreater(seen, CHANGES // 2)

    def is_seen(self, whole, place, words):
        """A case: of a file with a changed byte, which is refused and stays, or taken.

        Returns whether it is refused.
        """
        changed = bytearray(whole)
        changed[place] ^= random.choice((1, 2, 4, 8, 16, 32, 64, 128))
        other = self.work / "changed"
        other.write_bytes(changed)
        begin = whole.rfind(b"\n", 0, place) + 1
        line = whole[begin : whole.index(b"\n", place)].decode()
        is_received = re.match(r"seat \d+ (recv|poll) \d+: =", line)
        ended = self.run_program(self.program, *words, other)
        with self.case(f"byte {place} is changed to {changed[place]}: {line}"):
            # A byte 0 ends the text.
            if is_received and place >= begin + is_received.end() and changed[place]:
                self.assertEqual(ended.status, 5, ended.errors())
            self.assertIn(ended.status, (3, 5), ended.errors())
            if ended.status == 5:
                refused = f"chat_server: {other} is no journal of a chat server: "
                self.assertEqual(ended.errors()[: len(refused)], refused)
                self.assertEqual(other.read_bytes(), changed)
        return ended.status == 5

    def ends_by_a_zero(self, whole, words):
        """A case: a byte 0 ends the text, and what comes after its last whole line is cut off."""
        place = len(whole) // 2
        other = self.work / "changed"
        other.write_bytes(whole[:place] + bytes(1) + whole[place + 1 :])
        ended = self.run_program(self.program, *words, other)
        self.expect("a byte 0", ended, 3, "", True)
        with self.case("a byte 0 ends the text"):
            kept = whole[: whole.rfind(b"\n", 0, place) + 1]
            self.assertRegex(other.read_bytes()[len(kept) :], rb"\A(end|journal) [^=]*\Z")
            self.assertTrue(other.read_bytes().startswith(kept))

    def test_restarts(self):
        """What one server leaves and the next one finds.

        It was killed, and the file has only some bytes of a line.
        """
        self.begin()
        self.loads("before")
        self.crash()
        torn = b"seat 1 send 2 =kept-ben%20never"
        leave_torn(self.journal, torn[: random.randrange(len(torn))] + bytes(4096))
        self.begin()
        self.loads("after")
        self.crash()
        self.lawful("after a crash")

    def test_free_records(self):
        """A new room and its member get the records of members that left, in any order."""
        self.begin()
        ann, ben, cyd = (Client(self.address, name) for name in ("ann", "ben", "cyd"))
        for client in ann, ben:
            client.ask("/join kitchen")
        for client in ann, ben:
            with self.case(f"{client.name} leaves"):
                self.assertEqual(client.ask("/leave"), "left kitchen")
        with self.case("a new room"):
            self.assertEqual(cyd.ask("/join hall"), "joined hall next 1")
        self.crash()
        self.begin()
        with self.case("the room and its member are found again"):
            hello = "hello cyd room hall next 1 last 0"
            self.assertEqual(Client(self.address, "cyd").greeting, hello)
        self.crash()

    def test_mends(self):
        """A server that was killed between two calls.

        It left messages that were said and not published, a port that no member reads, and a place
        that was ended by its port alone.
        """
        lines = [
            "journal 4",
            "seat 0 mvar =chat%202: made 0",
            "seat 0 mailbox: made 1",
            "seat 0 channel: made 2",
            "seat 0 mvar =room%20kitchen%20queue%201%20channel%202%20published%200: made 3",
            "seat 0 port 2: made 4",
            "seat 0 mvar =member%20ann%20of%20kitchen%20reads%204: made 5",
            "seat 0 port 2: made 6",
            "seat 0 mvar =member%20ben%20of%20kitchen%20reads%206: made 7",
            "seat 0 close 6: done",
            "seat 0 port 2: made 8",
            "seat 0 send 1 =1%20ann%20one: done",
            "seat 1 multicast 2 =1%20ann%20one: done",
            "seat 0 send 1 =2%20ann%20two: done",
            "seat 0 send 1 =3%20ann%20three: done",
            "seat 1 mul",
        ]
        self.journal.write_text("\n".join(lines))
        self.begin()
        self.loads("mended")
        self.crash()
        with self.case("a port that no member reads is closed"):
            closed = re.compile(r"^seat \d* close 8: done$", re.M)
            self.assertRegex(text_of(self.journal).decode(), closed)
        self.lawful("what was mended")

    def test_earlier_server(self):
        """A server goes on from the file of an earlier one, whose pieces had sums.

        That one had made it short. Its rooms had no witnesses, so members may get again what they
        have.
        """
        self.journal.write_text(earlier())
        words = ("--listen", "127.0.0.1:0", "--journal", self.journal)
        ended = self.run_program(*limited(100), self.program, *words)
        self.expect("a file of an earlier server that can't grow", ended, 4, "", True)
        self.begin()
        ben = Client(self.address, "ben", 142)
        with self.case("a member that says what it has seen gets the rest"):
            self.assertEqual(ben.greeting, "hello ben room kitchen next 143 last 143")
            self.assertEqual(ben.line(), "143 ann: line 142")
        ann = Client(self.address, "ann")
        with self.case("another one gets its last messages again"):
            self.assertRegex(ann.greeting, "^hello ann room kitchen next 14[12] last 143$")
            for number in range(int(ann.greeting.split()[5]), 144):
                self.assertEqual(ann.line(), f"{number} ann: line {number - 1}")
        self.crash()
        for last in 143, 144:
            self.begin()
            ben = Client(self.address, "ben", last)
            with self.case(f"numbers go on after {last}"):
                hello = f"hello ben room kitchen next {last + 1} last {last}"
                self.assertEqual(ben.greeting, hello)
                self.assertEqual(ben.ask("more"), f"{last + 1} ben: more")
                self.assertEqual(ben.history(1, 200), list(range(139, last + 2)))
            self.crash()
        self.lawful("of an earlier server, and gone on with")

    def test_all_a_client_may_say(self):
        """All that a client may say, and what the server bounds."""
        self.begin(
            "--client-limit", 20, "--room-limit", 20, "--member-limit", 40, "--owed-limit", 300
        )
        self.loads("cases")
        self.crash()
        self.lawful("all cases")

    def test_ends_well(self):
        """A line on standard input ends the server. Each client gets a last line."""
        read, write = os.pipe()
        self.begin(stdin=read)
        os.close(read)
        client = self.start(self.load, "stays", self.address)
        wait_until("a client has joined", lambda: "joined" in client.said() or not client.runs())
        os.write(write, b"what\n/shutdown\n")
        os.close(write)
        with self.case("a client of a server that ends"):
            self.assertEqual(client.ends(), 0, client.said() + client.errors())
        with self.case("a server ends"):
            self.assertEqual((self.server.ends(), self.server.errors()), (0, ""))
        self.lawful("of a server that ended well")

    def test_fast(self):
        self.begin()
        clients = self.everyone("many clients", "--clients", 100, "--messages", 200, "--rooms", 10)
        with self.case("messages a second"):
            rate = re.search(r": (\d+) a second$", clients.said(), re.M)
            self.assertGreaterEqual(int(rate[1]) if rate else 0, LEAST_RATE)
        self.crash()
        self.lawful("of many clients")

    def test_crashes(self):
        """The server is killed and started again and again while a hundred clients talk."""
        self.begin()
        clients = self.many("--clients", 100, "--messages", 200, "--rooms", 10)
        for _ in range(KILLS):
            time.sleep(random.uniform(0, 0.2))
            self.crash()
            self.begin()
        self.all_end_well(f"killed {KILLS} times", clients)
        with self.case("connections were lost"):
            lost = re.search(r"^(\d+) connections were lost;", clients.said(), re.M)
            self.assertGreaterEqual(int(lost[1]) if lost else 0, LEAST_LOST)
        self.crash()
        self.lawful("of servers that were killed")

    def test_no_space(self):
        """The file can't grow: the server ends, and the next one goes on.

        A file has room ahead for the longest line, of four megabytes.
        """
        self.begin(wrapper=limited(12288))
        clients = self.many("--clients", 20, "--messages", 100, "--rooms", 2)
        with self.case("a file that can't grow"):
            self.assertEqual(self.server.ends(), 4, self.server.errors())
            self.assertRegex(self.server.errors(), f"^chat_server: {self.journal}: ")
        self.begin()
        self.all_end_well("a file that couldn't grow", clients)
        self.crash()
        self.lawful("of a file that could not grow")

    def test_flat(self):
        """The server's memory doesn't grow with the messages."""
        self.begin("--history-limit", 500)
        memory = (
            "--clients",
            4,
            "--messages",
            12500,
            "--rooms",
            2,
            "--pid",
            self.server.process.pid,
        )
        self.everyone("memory", *memory)
        self.crash()


if __name__ == "__main__":
    if sys.argv[1].endswith(".a") and not has("cargo"):
        left_out("the chat server", "cargo")
    main(ChatServer, Compaction)
