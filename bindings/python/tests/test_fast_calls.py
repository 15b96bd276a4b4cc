"""Calls that go by the extension: which do, and that they are what the methods in Python do."""

import gc
import inspect
import os
import pickle
import random
import resource
import subprocess
import sys
import threading
import tracemalloc
import unittest

import seryugo
from seryugo import HAS_EXTENSION, Seat, Switchboard

from . import LIMIT
from .test_threads import Waiting, Worker

CALLS = (
    "send",
    "multicast",
    "put",
    "recv",
    "recv_poll",
    "get",
    "get_poll",
    "take",
    "take_poll",
    "swap",
)


class Text(str):
    """A message that isn't just a `str`."""


class InPython(Seat):
    """A seat that never calls by the extension."""


for name in CALLS:
    setattr(InPython, name, inspect.unwrap(getattr(Seat, name)))


def methods_run(call, has_run=None):
    """Make a call, and return the names of the seat's methods that ran in Python.

    As the first one runs, this sets the event `has_run`.
    """
    names = []

    def note(frame, event, argument):
        if event == "call" and frame.f_code.co_filename == inspect.getfile(Seat):
            names.append(frame.f_code.co_name)
            if has_run is not None:
                has_run.set()

    sys.setprofile(note)
    try:
        call()
    finally:
        sys.setprofile(None)
    return names


@unittest.skipUnless(HAS_EXTENSION, "left out: there is no extension")
class ByWhich(unittest.TestCase):
    """Which calls go by the extension, and which are left to the methods."""

    def setUp(self):
        self.board = Switchboard(1_000)
        self.seat = self.board.seat()
        self.addCleanup(self.seat.leave)

    def goes_by_extension(self, call):
        self.assertEqual(methods_run(call), [])

    def goes_by_method(self, name, call, error=None):
        def made():
            if error is None:
                call()
            else:
                self.assertRaises(error, call)

        self.assertEqual(methods_run(made)[0], name)

    def test_each_type_of_message(self):
        seat = self.seat
        messages = {bytes: (b"", b"a" * 500), str: ("", "a", "ä" * 500), int: (0, 2**63 - 1)}
        for of, each in messages.items():
            mailbox = seat.mailbox(of)
            for message in each:
                self.goes_by_extension(lambda: seat.send(mailbox, message))
                self.goes_by_extension(lambda: seat.recv(mailbox))

    def test_each_call(self):
        seat = self.seat
        mailbox, channel, variable = seat.mailbox(int), seat.channel(int), seat.mvar(int)
        port = seat.port(channel)
        calls = (
            lambda: seat.send(mailbox, 1),
            lambda: seat.send(mailbox, 2),
            lambda: seat.recv(mailbox),
            lambda: seat.recv_poll(mailbox),
            lambda: seat.recv_poll(mailbox),
            lambda: seat.multicast(channel, 3),
            lambda: seat.recv(port),
            lambda: seat.take_poll(variable),
            lambda: seat.put(variable, 4),
            lambda: seat.put(variable, 4),
            lambda: seat.get(variable),
            lambda: seat.get_poll(variable),
            lambda: seat.swap(variable, 5),
            lambda: seat.take(variable),
        )
        before = self.board.entries
        for call in calls:
            self.goes_by_extension(call)
        self.assertEqual(self.board.entries, before + len(calls))

    def test_time_limits(self):
        seat = self.seat
        variable = seat.mvar(int, 1)
        for limit in (None, 0, 5, 0.0, 2.5, float("inf")):
            self.goes_by_extension(lambda: seat.get(variable, limit))
            self.goes_by_extension(lambda: seat.swap(variable, 1, timeout=limit))
        for limit in (-1, -0.5, float("nan")):
            self.goes_by_method("get", lambda: seat.get(variable, limit), ValueError)
        self.goes_by_method("get", lambda: seat.get(variable, timeout=10**400), OverflowError)

    def test_what_is_not_plain(self):
        seat, other = self.seat, Switchboard(10)
        letters, numbers = seat.mailbox(str), seat.mailbox(int)
        for message in (Text("a"), "\ud800", b"a", None):
            error = None if type(message) is Text else (TypeError, UnicodeEncodeError)
            self.goes_by_method("send", lambda: seat.send(letters, message), error)
        for message in (True, 2**63, -(2**63) - 1):
            self.goes_by_method("send", lambda: seat.send(numbers, message))
        self.goes_by_method("send", lambda: seat.send(mailbox=numbers, message=1))
        self.goes_by_method("recv", lambda: seat.recv(source=numbers))
        self.goes_by_method("recv", lambda: seat.recv(seat), TypeError)
        self.goes_by_method("send", lambda: Seat.send(numbers, numbers, 1), AttributeError)
        with other.seat() as elsewhere:
            mailbox = elsewhere.mailbox(int)
        self.goes_by_method("recv", lambda: seat.recv(mailbox), seryugo.NoSuch)

    def test_a_number_of_arguments(self):
        mailbox = self.seat.mailbox(int)
        wrong = (
            lambda: self.seat.send(mailbox),
            lambda: self.seat.send(mailbox, 1, 2),
            lambda: self.seat.recv(),
            lambda: self.seat.recv(mailbox, None, None),
            lambda: self.seat.recv(mailbox, limit=1),
            lambda: self.seat.recv(mailbox, None, timeout=None),
            lambda: self.seat.recv_poll(mailbox, 1),
            lambda: Seat.recv(),
        )
        for call in wrong:
            self.assertRaises(TypeError, call)

    def test_refusals(self):
        seat = self.seat
        mailbox, variable = seat.mailbox(int), seat.ivar(int)
        self.goes_by_method("recv", lambda: seat.recv(mailbox), seryugo.Stalled)
        self.goes_by_method("send", lambda: seat.send(variable, 1), seryugo.WrongKind)
        with self.board.seat() as left:
            pass
        self.goes_by_method("send", lambda: left.send(mailbox, 1), seryugo.Gone)

    def test_a_closed_port_has_one_entry_for_a_call(self):
        port = self.seat.port(self.seat.channel(int))
        self.seat.close_port(port)
        before = self.board.entries
        for call in (self.seat.recv, self.seat.recv_poll):
            self.assertRaises(seryugo.Closed, call, port)
        self.assertEqual(self.board.entries, before + 2)

    def test_while_the_lock_is_held(self):
        mailbox, has_run, names = self.seat.mailbox(int), threading.Event(), []

        def send():
            names.extend(methods_run(lambda: self.seat.send(mailbox, 1), has_run))

        thread = threading.Thread(target=send, daemon=True)
        with self.board._room.lock:
            thread.start()
            self.assertTrue(has_run.wait(LIMIT))
        thread.join(LIMIT)
        self.assertEqual((names[0], self.board.owed(mailbox)), ("send", 1))

    def test_a_seat_that_was_dropped_leaves_first(self):
        mailbox, dropped = self.seat.mailbox(int), self.board.seat()
        self.seat.send(mailbox, 1)
        dropped._has_left = True
        # As after a Ctrl-C while it left.
        self.board._room._dropped.append((dropped.number, True))
        self.goes_by_method("recv", lambda: self.seat.recv(mailbox))
        with self.assertRaises(seryugo.Gone):
            dropped.send(mailbox, 1)

    def test_a_journal_that_was_not_handed_over_comes_first(self):
        handed, is_broken = [], [True]

        def sink(journal):
            if is_broken[0]:
                raise OSError("full")
            handed.append(len(journal))

        board = Switchboard(3, when_full=sink)
        with board.seat() as seat:
            mailbox = seat.mailbox(int)
            self.goes_by_extension(lambda: seat.send(mailbox, 1))
            self.goes_by_extension(lambda: seat.send(mailbox, 2))
            self.goes_by_method("send", lambda: seat.send(mailbox, 3), OSError)
            self.goes_by_method("send", lambda: seat.send(mailbox, 3), OSError)
            is_broken.clear()
            is_broken.append(False)
            self.goes_by_method("send", lambda: seat.send(mailbox, 3))
            self.assertEqual(handed, [3])
            self.goes_by_extension(lambda: seat.send(mailbox, 4))

    def test_what_help_shows(self):
        for name in CALLS:
            method, made = getattr(InPython, name), getattr(Seat, name)
            self.assertEqual(inspect.signature(made), inspect.signature(method))
            self.assertEqual((made.__name__, made.__doc__), (name, method.__doc__))
            self.assertTrue(inspect.isroutine(made))
            self.assertIs(pickle.loads(pickle.dumps(made)), made)


@unittest.skipUnless(HAS_EXTENSION, "left out: there is no extension")
class TheSame(unittest.TestCase):
    """The same calls by the extension and by the methods leave the same journal."""

    def journal_of(self, kind, calls):
        """Make calls by a seat of this class, and return the journal's text, and what they did."""
        board = Switchboard(100_000)
        seat = kind(board._room, *board._room.seat())
        with seat:
            told = [self.told(call, seat) for call in calls(seat)]
        return board.take_journal().text(), told

    def told(self, call, seat):
        try:
            return call(seat)
        except (seryugo.SeryugoError, TypeError, ValueError) as error:
            return type(error), str(error)

    def is_the_same(self, calls):
        text, told = self.journal_of(Seat, calls)
        self.assertEqual((text, told), self.journal_of(InPython, calls))
        return told

    def test_numbers(self):
        powers = [sign * 2**power for power in range(72) for sign in (1, -1)]
        edges = {power + by for power in powers for by in (-1, 0, 1)}
        chance = random.Random(1)
        numbers = sorted(edges) + [chance.getrandbits(64) - 2**63 for _ in range(200)] + [True]

        def calls(seat):
            mailbox = seat.mailbox(int)
            for number in numbers:
                yield lambda seat, number=number: seat.send(mailbox, number)
                yield lambda seat: seat.recv(mailbox)

        told = self.is_the_same(calls)
        self.assertEqual(told[1::2], numbers)

    def test_texts_and_bytes(self):
        lengths = (0, 1, 2, 77, 78, 79, 80, 500, 5_000)
        letters = ("a", "\0", "\xe4", "\u20ac", "\U0001f600")
        texts = [letter * length for length in lengths for letter in letters]

        def calls(seat):
            mailbox, parcels = seat.mailbox(str), seat.mvar(bytes, b"")
            for text in texts:
                yield lambda seat, text=text: seat.send(mailbox, text)
                yield lambda seat: seat.recv_poll(mailbox)
                yield lambda seat, text=text: seat.swap(parcels, text.encode())
                yield lambda seat: seat.get(parcels)

        told = self.is_the_same(calls)
        self.assertEqual(told[1::4], texts)
        self.assertEqual(told[3::4], [text.encode() for text in texts])

    def test_refusals(self):
        def calls(seat):
            mailbox, variable = seat.mailbox(int), seat.ivar(str)
            port = seat.port(seat.channel(bytes))
            yield lambda seat: seat.close_port(port)
            for on in (mailbox, variable, port, None, 5, seat):
                yield lambda seat, on=on: seat.send(on, 1)
                yield lambda seat, on=on: seat.put(on, "a")
                yield lambda seat, on=on: seat.put(on, "b")
                yield lambda seat, on=on: seat.multicast(on, b"a")
                for name in ("recv", "recv_poll", "get", "get_poll", "take", "take_poll"):
                    yield lambda seat, on=on, name=name: getattr(seat, name)(on)
                yield lambda seat, on=on: seat.swap(on, "a")
            yield lambda seat: seat.recv(mailbox)

        told = self.is_the_same(calls)
        kinds = {each[0] for each in told if isinstance(each, tuple)}
        wanted = {seryugo.Closed, seryugo.WrongKind, seryugo.Stalled, TypeError}
        self.assertEqual(kinds, wanted)

    def test_bytes_that_are_no_text(self):
        """A switchboard that was restored may give an object another type."""
        for kind in (Seat, InPython):
            board = Switchboard(10)
            with board.seat() as seat:
                seat.send(seat.mailbox(bytes), b"\xff")
            again = Switchboard.restore([board.take_journal().text()])
            seat = kind(again._room, *again._room.seat())
            with seat, self.assertRaisesRegex(seryugo.Unreadable, "can't decode byte 0xff"):
                seat.recv(again.mailbox(0, str))


class Memory(unittest.TestCase):
    """Nothing is kept that a call has done with."""

    def setUp(self):
        self.board = Switchboard(1_000, when_full=seryugo.drop_entries)
        self.seat = self.board.seat()
        self.addCleanup(self.seat.leave)

    def calls(self):
        """Return calls that are answered, refused, or fail in some other way."""
        seat = self.seat
        letters, numbers = seat.mailbox(str), seat.mailbox(int)
        message, number, parcels = "\xe4" * 99, 2**40, seat.mvar(bytes, b"b" * 99)
        port = seat.port(seat.channel(int))
        seat.close_port(port)

        def refused(error, call, *arguments):
            with self.assertRaises(error):
                call(*arguments)

        def made():
            seat.send(letters, message)
            seat.recv(letters)
            seat.send(numbers, number)
            seat.recv(numbers, timeout=1)
            seat.send(numbers, 2**70)
            seat.recv_poll(numbers)
            seat.recv_poll(numbers)
            seat.swap(parcels, seat.get(parcels))
            seat.put(parcels, b"full")
            refused(seryugo.Stalled, seat.recv, numbers)
            refused(seryugo.Closed, seat.recv, port)
            refused(seryugo.WrongKind, seat.send, parcels, b"")
            refused(UnicodeEncodeError, seat.send, letters, "\ud800")

        return made, (seat, letters, numbers, parcels, port, message, number)

    def test_references(self):
        made, named = self.calls()
        made()
        gc.collect()
        before = [sys.getrefcount(each) for each in named]
        for _ in range(100):
            made()
        gc.collect()
        self.assertEqual([sys.getrefcount(each) for each in named], before)

    def test_memory_of_python(self):
        made, _ = self.calls()
        tracemalloc.start()
        self.addCleanup(tracemalloc.stop)
        for _ in range(50):
            made()
        gc.collect()
        before, _ = tracemalloc.get_traced_memory()
        for _ in range(200):
            made()
        gc.collect()
        after, _ = tracemalloc.get_traced_memory()
        # Each call would keep 100 bytes at least.
        self.assertLess(after - before, 10_000)

    def test_memory_of_the_library(self):
        """400 messages of a quarter megabyte are freed."""
        mailbox = self.seat.mailbox(bytes)
        before = resource.getrusage(resource.RUSAGE_SELF).ru_maxrss
        for number in range(400):
            self.seat.send(mailbox, bytes([number % 256]) * 2**18)
            self.seat.recv(mailbox)
            self.board.cut()
        self.assertLess(resource.getrusage(resource.RUSAGE_SELF).ru_maxrss - before, 50_000)


class Many(Waiting):
    """Many threads on one switchboard, between which the interpreter changes often."""

    def setUp(self):
        before = sys.getswitchinterval()
        sys.setswitchinterval(5e-4)
        self.addCleanup(sys.setswitchinterval, before)

    def test_eight_threads(self):
        """Each sends 20,000 messages to the next one. All come, in order."""
        count, each = 8, 20_000
        entries = []
        board = Switchboard(50_000, when_full=lambda journal: entries.append(len(journal)))
        seats = [board.seat() for _ in range(count)]
        boxes = [seats[0].mailbox(int) for _ in seats]

        def pass_on(place):
            def run(seat):
                received = []
                for number in range(each):
                    seat.send(boxes[(place + 1) % count], number)
                    if number % 3:
                        received.append(seat.recv(boxes[place]))
                while len(received) < each:
                    received.append(seat.recv(boxes[place]))
                return received

            return run

        workers = [Worker(seat, pass_on(place)) for place, seat in enumerate(seats)]
        for worker in workers:
            worker.join(LIMIT)
            self.assertEqual(self.value_of(worker), list(range(each)))
        board.keep()
        self.assertEqual(sum(entries), count + 2 * count * each)
        self.assertEqual([board.owed(box) for box in boxes], [0] * count)

    def test_one_seat_of_many_threads(self):
        """A seat is for one thread at a time. Calls that don't block take turns all the same."""
        board = Switchboard(100_000)
        with board.seat() as seat:
            mailbox = seat.mailbox(str)
            errors = []

            def send():
                try:
                    for _ in range(500):
                        seat.send(mailbox, "a")
                        seat.recv(mailbox)
                except BaseException as error:
                    errors.append(error)

            threads = [threading.Thread(target=send) for _ in range(4)]
            for thread in threads:
                thread.start()
            for thread in threads:
                thread.join(LIMIT)
            self.assertEqual((errors, board.sent(mailbox), board.got(mailbox)), ([], 2_000, 2_000))

    @unittest.skipUnless(HAS_EXTENSION, "left out: there is no extension")
    def test_ctrl_c_as_a_thread_is_woken(self):
        """The call has sent the message. The thread that waits for it is woken all the same."""

        class Hasty(Seat):
            def _ring(self, seat):
                raise KeyboardInterrupt

        board = Switchboard(100)
        other = board.seat()
        with Hasty(board._room, *board._room.seat()) as hasty:
            mailbox = hasty.mailbox(int)
            worker = Worker(other, lambda seat: seat.recv(mailbox))
            self.parked(board, 1)
            with self.assertRaises(KeyboardInterrupt):
                hasty.send(mailbox, 8)
            self.assertEqual(self.value_of(worker), 8)


class Choosing(unittest.TestCase):
    """Which of both is in use."""

    def imported(self, program, **variables):
        path = os.pathsep.join(filter(None, sys.path))
        return subprocess.run(
            [sys.executable, "-c", program],
            env={**os.environ, "PYTHONPATH": path, **variables},
            stdout=subprocess.PIPE,
            stderr=subprocess.PIPE,
            universal_newlines=True,
        )

    def test_it_is_turned_off(self):
        program = "import seryugo; print(seryugo.HAS_EXTENSION)"
        self.assertEqual(self.imported(program, SERYUGO_PURE_PYTHON="1").stdout, "False\n")

    def test_one_of_another_version(self):
        program = (
            "import sys, types\n"
            "other = types.ModuleType('seryugo._fast')\n"
            "other.VERSION, other.MESSAGE_SIZE, other.__file__ = '0.0.1', 1, 'there.so'\n"
            "sys.modules['seryugo._fast'] = other\n"
            "import seryugo\n"
        )
        ended = self.imported(program, SERYUGO_PURE_PYTHON="")
        self.assertEqual((ended.returncode, ended.stdout), (1, ""))
        self.assertIn("the extension there.so was built for the version 0.0.1", ended.stderr)
