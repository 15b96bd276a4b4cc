"""What Python collects in a cycle: a switchboard together with what still calls it."""

import asyncio
import gc
import subprocess
import sys
import unittest
import warnings

from seryugo import Checker, SeryugoError, Stalled, Switchboard


class Client:
    """Refers to itself, and calls as it is collected."""

    def __init__(self, noted, call):
        self.me = self
        self.noted = noted
        self.call = call
        self.board = Switchboard(100)
        self.seat = self.board.seat()
        self.mailbox = self.seat.mailbox(str)
        self.seat.send(self.mailbox, "hello")
        self.checker = Checker()
        self.journal = self.board.take_journal()

    def __del__(self):
        try:
            self.call(self)
            self.noted.append("done")
        except SeryugoError as error:
            self.noted.append(str(error))


COLLECTED = "Python has collected the switchboard or the journal"

# What a client calls as it is collected, and what it notes.
LAST_CALLS = (
    (lambda client: client.seat.leave(), "done"),
    (lambda client: client.seat.send(client.mailbox, "bye"), COLLECTED),
    (lambda client: client.seat.recv(client.mailbox), COLLECTED),
    (lambda client: client.seat.recv(client.mailbox, timeout=1), COLLECTED),
    (lambda client: client.seat.mailbox(str), COLLECTED),
    (lambda client: client.board.seat(), COLLECTED),
    (lambda client: len(client.mailbox), COLLECTED),
    (lambda client: client.board.take_journal(), COLLECTED),
    (lambda client: client.board.compact(), COLLECTED),
    (lambda client: client.journal.text(), COLLECTED),
    (lambda client: list(client.journal), COLLECTED),
    (lambda client: client.checker.feed(client.journal), COLLECTED),
)


class Collecting(unittest.TestCase):
    def setUp(self):
        gc.collect()
        caught = warnings.catch_warnings()
        caught.__enter__()
        self.addCleanup(caught.__exit__, None, None, None)
        # A dropped seat warns, which is tested elsewhere.
        warnings.simplefilter("ignore", ResourceWarning)


class Cycles(Collecting):
    def test_a_last_call_fails(self):
        for number, (call, expected) in enumerate(LAST_CALLS):
            with self.subTest(number):
                noted = []
                Client(noted, call)
                gc.collect()
                self.assertEqual(noted, [expected])

    def test_an_error_that_is_kept(self):
        def work():
            board = Switchboard(1)
            seat = board.seat()
            kept = None
            try:
                while True:
                    seat.mailbox(int)
            except SeryugoError as error:
                # It refers to this frame, which refers to it.
                kept = error
            return str(kept)

        self.assertIn("full", work())
        self.assertGreater(gc.collect(), 0)

    def test_a_generator_that_is_suspended(self):
        ended = []

        def messages(seat, holder):
            with seat:
                try:
                    yield len(holder)
                finally:
                    ended.append(True)

        def begin():
            holder = {}
            holder["messages"] = messages(Switchboard().seat(), holder)
            next(holder["messages"])

        begin()
        gc.collect()
        self.assertEqual(ended, [True])

    def test_a_call_that_is_awaited(self):
        withdrawn = []

        async def main():
            holder = {}
            board = Switchboard()
            seat, other = board.seat(), board.seat()

            async def client():
                try:
                    await seat.recv_async(holder["mailbox"])
                finally:
                    withdrawn.append(other.number)

            holder["mailbox"] = seat.mailbox(str)
            holder["client"] = client()
            holder["client"].send(None)

        asyncio.run(main())
        gc.collect()
        self.assertEqual(withdrawn, [1])


class InTheMidstOfACall(Collecting):
    """Python may collect while this very thread has the switchboard's lock."""

    def setUp(self):
        super().setUp()
        self.board = Switchboard(100)
        self.seat = self.board.seat()
        self.addCleanup(self.seat.leave)
        self.mailbox = self.seat.mailbox(str)

    def collect(self):
        """Collect as in the midst of a call."""
        with self.board._room.lock:
            gc.collect()

    def test_a_seat_leaves_after_the_call(self):
        def letters(seat):
            with seat:
                while True:
                    yield seat.recv_poll(self.mailbox)

        def begin():
            holder = {}
            holder["letters"] = letters(self.board.seat())
            holder["me"] = holder
            next(holder["letters"])

        begin()
        self.collect()
        self.seat.send(self.mailbox, "hello")
        self.assertEqual(self.seat.recv(self.mailbox), "hello")
        with self.assertRaises(Stalled):
            self.seat.recv(self.mailbox)

    def test_another_call_is_refused(self):
        noted = []

        class Caller:
            def __init__(self, call):
                self.me = self
                self.call = call

            def __del__(self):
                try:
                    noted.append(self.call())
                except SeryugoError as error:
                    noted.append("in the midst" in str(error))

        seat, mailbox = self.seat, self.mailbox
        last_calls = (
            lambda: seat.recv_poll(mailbox),
            lambda: seat.recv(mailbox, timeout=1),
            lambda: seat.send(mailbox, "hello"),
            lambda: seat.mailbox(int),
            lambda: self.board.seat(),
            lambda: len(mailbox),
            lambda: self.board.take_journal(),
        )
        for call in last_calls:
            Caller(call)
            self.collect()
        self.assertEqual(noted, [True] * len(last_calls))
        # Out of a call it is made.
        Caller(lambda: seat.send(mailbox, "bye"))
        gc.collect()
        self.assertEqual((seat.recv(mailbox), len(mailbox)), ("bye", 0))

    def test_an_awaited_call_is_withdrawn_after_the_call(self):
        other = self.board.seat()
        self.addCleanup(other.leave)

        async def main():
            holder = {}

            async def client():
                await holder["seat"].recv_async(self.mailbox)

            holder["seat"] = other
            holder["client"] = client()
            holder["client"].send(None)

        asyncio.run(main())
        self.collect()
        self.seat.send(self.mailbox, "hello")
        self.assertEqual(self.seat.recv(self.mailbox, timeout=1), "hello")
        other.send(self.mailbox, "again")
        self.assertEqual(other.recv(self.mailbox, timeout=1), "again")

    def test_calls_on_a_journal_and_a_checker_while_python_collects(self):
        """Python collects often, in the midst of these calls too. None of them waits for itself."""
        program = """if True:
            import gc
            from seryugo import Checker, SeryugoError, Switchboard

            class Caller:
                def __init__(self, call):
                    self.me = self
                    self.call = call

                def __del__(self):
                    try:
                        self.call()
                        noted.add("done")
                    except SeryugoError as error:
                        noted.add(str(error))

            noted = set()
            board = Switchboard(100)
            with board.seat() as seat:
                seat.send(seat.mailbox(str), "hello")
            journal, checker = board.take_journal(), Checker()
            checker.feed(journal)
            rest = board.take_journal()
            calls = (
                journal.text,
                lambda: journal.sealed_text(None),
                lambda: list(journal),
                lambda: checker.feed(rest),
            )
            for call in calls:
                for threshold in range(1, 40):
                    gc.set_threshold(threshold)
                    for _ in range(20):
                        Caller(call)
                        call()
            gc.collect()
            print(*sorted(noted), sep="\\n")
            """
        # Without -X dev: its allocations would come in between.
        ended = subprocess.run(
            [sys.executable, "-c", program], stdout=subprocess.PIPE, timeout=60, check=True
        )
        said = b"Python collects a cycle in the midst of another call\ndone\n"
        self.assertEqual(ended.stdout, said)


if __name__ == "__main__":
    unittest.main()
