"""Threads that wait for each other: who is woken, who stalls, time limits and Ctrl-C."""

import os
import random
import signal
import subprocess
import sys
import threading
import time
import unittest

import seryugo
from seryugo import Switchboard, _calls, check

from . import LIMIT


class Worker(threading.Thread):
    """A thread whose seat leaves in the end. It keeps what its function returns or raises."""

    def __init__(self, seat, function):
        super().__init__(daemon=True)
        self.seat, self.function = seat, function
        self.value = self.error = None
        self.start()

    def run(self):
        try:
            with self.seat:
                self.value = self.function(self.seat)
        except Exception as error:
            self.error = error


class Waiting(unittest.TestCase):
    def join(self, *workers):
        for worker in workers:
            worker.join(LIMIT)
            self.assertFalse(worker.is_alive(), "a thread sleeps on")

    def parked(self, board, count):
        """Wait until this many seats are parked."""
        end = time.monotonic() + LIMIT
        while len(board._room._parked) < count:
            self.assertLess(time.monotonic(), end)
            time.sleep(0.001)

    def value_of(self, worker):
        self.join(worker)
        self.assertIsNone(worker.error)
        return worker.value

    def woken(self, made, wait, wake):
        """One thread waits at the object that `made` makes, and another wakes it."""
        board = Switchboard(100)
        main, other = board.seat(), board.seat()
        on = made(main)
        worker = Worker(other, lambda seat: wait(seat, on))
        self.parked(board, 1)
        wake(main, on)
        with main:
            return self.value_of(worker)


class Threads(Waiting):
    def test_each_call_is_woken(self):
        def send(seat, on):
            seat.send(on, "a")

        def put(seat, on):
            seat.put(on, "a")

        cases = (
            (lambda seat: seat.mailbox(str), lambda seat, on: seat.recv(on), send),
            (lambda seat: seat.ivar(str), lambda seat, on: seat.get(on), put),
            (lambda seat: seat.mvar(str), lambda seat, on: seat.get(on), put),
            (lambda seat: seat.mvar(str), lambda seat, on: seat.take(on), put),
            (lambda seat: seat.mvar(str), lambda seat, on: seat.swap(on, "b"), put),
        )
        for made, wait, wake in cases:
            self.assertEqual(self.woken(made, wait, wake), "a")

    def test_multicast_wakes_all(self):
        board = Switchboard(1_000)
        main = board.seat()
        channel = main.channel(int)
        seats = [board.seat() for _ in range(10)]
        ports = [main.port(channel) for _ in seats]
        workers = [
            Worker(seat, lambda seat, port=port: seat.recv(port))
            for seat, port in zip(seats, ports)
        ]
        self.parked(board, 10)
        with main:
            main.multicast(channel, 7)
            self.assertEqual([self.value_of(worker) for worker in workers], [7] * 10)

    def test_a_port_that_closes(self):
        board = Switchboard(100)
        main, other = board.seat(), board.seat()
        port = main.port(main.channel(int))
        worker = Worker(other, lambda seat: seat.recv(port))
        self.parked(board, 1)
        with main:
            main.close_port(port)
            self.join(worker)
        self.assertIsInstance(worker.error, seryugo.Closed)

    def test_all_stall(self):
        board = Switchboard(100)
        seats = [board.seat() for _ in range(5)]
        mailbox = seats[0].mailbox(int)
        workers = [Worker(seat, lambda seat: seat.recv(mailbox)) for seat in seats]
        self.join(*workers)
        self.assertEqual([type(worker.error) for worker in workers], [seryugo.Stalled] * 5)

    def test_stalls_when_the_last_leaves(self):
        board = Switchboard(100)
        main, other = board.seat(), board.seat()
        variable = main.ivar(int)
        worker = Worker(other, lambda seat: seat.get(variable))
        self.parked(board, 1)
        main.leave()
        self.join(worker)
        self.assertIsInstance(worker.error, seryugo.Stalled)

    def test_a_full_journal_wakes_all(self):
        board = Switchboard(4)
        main, other = board.seat(), board.seat()
        mailbox, elsewhere = main.mailbox(int), main.mailbox(int)
        worker = Worker(other, lambda seat: seat.recv(mailbox))
        self.parked(board, 1)
        with main:
            main.send(elsewhere, 1)
            main.send(elsewhere, 2)
            self.join(worker)
        self.assertIsInstance(worker.error, seryugo.JournalFull)

    def test_no_memory_once_it_was_woken(self):
        """The library may leave the seat parked then. The package frees it, and loses nothing."""
        board = Switchboard(100)
        main, other = board.seat(), board.seat()
        mailbox = main.mailbox(int)

        def recv(room, seat, name, is_again, message):
            if is_again.value:
                return seryugo.NoMemory.code
            return _calls.recv(room, seat, name, is_again, message)

        def receive(seat):
            with self.assertRaises(seryugo.NoMemory):
                seat._obtain(mailbox, recv, (seat._seat, mailbox._name), None)
            return seat.recv(mailbox)

        worker = Worker(other, receive)
        self.parked(board, 1)
        with main:
            main.send(mailbox, 9)
            self.assertEqual(self.value_of(worker), 9)

    def test_a_seat_of_two_threads(self):
        board = Switchboard(100)
        main, other = board.seat(), board.seat()
        mailbox = main.mailbox(int)
        worker = Worker(other, lambda seat: seat.recv(mailbox))
        self.parked(board, 1)
        with main:
            with self.assertRaises(seryugo.Gone):
                other.recv_poll(mailbox)
            main.send(mailbox, 1)
            self.assertEqual(self.value_of(worker), 1)

    def test_a_hundred_threads(self):
        """A token goes round."""
        board = Switchboard(100_000)
        seats = [board.seat() for _ in range(100)]
        boxes = [seats[0].mailbox(int) for _ in seats]

        def pass_on(place):
            def run(seat):
                for _ in range(20):
                    token = seat.recv(boxes[place])
                    if place + 1 < len(boxes) or token < 2_000:
                        seat.send(boxes[(place + 1) % len(boxes)], token + 1)

            return run

        seats[0].send(boxes[0], 1)
        workers = [Worker(seat, pass_on(place)) for place, seat in enumerate(seats)]
        for worker in workers:
            self.value_of(worker)
        self.assertEqual(check(board.take_journal()), 100 + 2 * 2_000)

    def test_each_message_once(self):
        board = Switchboard(100_000)
        senders, receivers = [board.seat() for _ in range(4)], [board.seat() for _ in range(4)]
        mailbox = senders[0].mailbox(int)

        def receive(seat):
            received = []
            try:
                while True:
                    received.append(seat.recv(mailbox))
            except seryugo.Stalled:
                return received

        def send(first):
            return lambda seat: [seat.send(mailbox, first + number) for number in range(500)]

        workers = [Worker(seat, receive) for seat in receivers]
        others = [Worker(seat, send(1_000 * place)) for place, seat in enumerate(senders)]
        self.join(*others)
        received = [self.value_of(worker) for worker in workers]
        wanted = {1_000 * place + number for place in range(4) for number in range(500)}
        self.assertEqual(sum(map(len, received)), 2_000)
        self.assertEqual(set().union(*received), wanted)
        check(board.take_journal())


class TimeLimits(Waiting):
    def test_times_out(self):
        board = Switchboard(100)
        main, idle = board.seat(), board.seat()
        with main, idle:
            mailbox, empty = main.mailbox(int), main.mvar(int)
            calls = (
                lambda limit: main.recv(mailbox, timeout=limit),
                lambda limit: main.get(empty, timeout=limit),
                lambda limit: main.take(empty, timeout=limit),
                lambda limit: main.swap(empty, 1, timeout=limit),
            )
            for call in calls:
                for limit in (0, 0.01):
                    before = time.monotonic()
                    with self.assertRaises(TimeoutError):
                        call(limit)
                    self.assertGreaterEqual(time.monotonic() - before, limit)
            # Nothing was done, and the seat is free.
            self.assertEqual(board.entries, 2)
            main.send(mailbox, 5)
            self.assertEqual(main.recv(mailbox, timeout=0), 5)

    def test_bad_limits(self):
        with Switchboard(10).seat() as seat:
            mailbox = seat.mailbox(int)
            seat.send(mailbox, 1)
            for limit in (-1, -0.001, float("nan")):
                with self.assertRaises(ValueError):
                    seat.recv(mailbox, timeout=limit)
            self.assertEqual(seat.recv(mailbox, timeout=float("inf")), 1)

    def test_stalls_before_the_limit(self):
        with Switchboard(10).seat() as seat:
            with self.assertRaises(seryugo.Stalled):
                seat.recv(seat.mailbox(int), timeout=LIMIT)

    def test_a_limit_that_is_far(self):
        self.assertEqual(
            self.woken(
                lambda seat: seat.mailbox(int),
                lambda seat, on: seat.recv(on, timeout=float("inf")),
                lambda seat, on: seat.send(on, 3),
            ),
            3,
        )

    def test_no_message_is_lost(self):
        """Messages come as the time limits end. Each is received by one thread, or is left."""
        board = Switchboard(1_000_000)
        sender, keeper = board.seat(), board.seat()
        receivers = [board.seat() for _ in range(6)]
        mailbox = sender.mailbox(int)
        is_over = threading.Event()

        def receive(seat):
            received, chance = [], random.Random(seat.number)
            while not is_over.is_set():
                try:
                    limit = chance.choice((0, 0.0001, 0.0003, 0.001))
                    received.append(seat.recv(mailbox, timeout=limit))
                except TimeoutError:
                    pass
            return received

        workers = [Worker(seat, receive) for seat in receivers]
        for number in range(1_000):
            sender.send(mailbox, number)
            if number % 5 == 0:
                time.sleep(0.0003)
        time.sleep(0.01)
        is_over.set()
        received = [number for worker in workers for number in self.value_of(worker)]
        with sender, keeper:
            while (left := keeper.recv_poll(mailbox)) is not None:
                received.append(left)
        self.assertEqual(sorted(received), list(range(1_000)))
        check(board.take_journal())

    def test_one_that_gives_up_hands_on(self):
        """Of two that wait, one gives up as a message comes. The other receives it."""
        for _ in range(50):
            board = Switchboard(1_000)
            main, first, second = board.seat(), board.seat(), board.seat()
            mailbox = main.mailbox(int)
            hasty = Worker(first, lambda seat: seat.recv(mailbox, timeout=0.002))
            patient = Worker(second, lambda seat: seat.recv(mailbox, timeout=LIMIT))
            with main:
                time.sleep(0.002)
                main.send(mailbox, 1)
                self.join(hasty)
                if hasty.value is None:
                    self.assertIsInstance(hasty.error, TimeoutError)
                    self.assertEqual(self.value_of(patient), 1)
                else:
                    main.send(mailbox, 2)
                    self.assertEqual(self.value_of(patient), 2)


class Interrupted(Waiting):
    """Only the main thread gets Ctrl-C, and these tests run on it."""

    def setUp(self):
        before = signal.signal(signal.SIGINT, signal.default_int_handler)
        self.addCleanup(signal.signal, signal.SIGINT, before)

    def interrupt(self):
        signal.pthread_kill(threading.main_thread().ident, signal.SIGINT)

    def interrupt_once_parked(self, board):
        """Interrupt the main thread when its seat is parked, and not before."""

        def interrupt():
            self.parked(board, 1)
            self.interrupt()

        thread = threading.Thread(target=interrupt, daemon=True)
        thread.start()
        return thread

    def test_a_blocked_call_ends(self):
        for limit in (None, LIMIT):
            board = Switchboard(100)
            main, idle = board.seat(), board.seat()
            with main, idle:
                mailbox = main.mailbox(int)
                interrupter = self.interrupt_once_parked(board)
                before = time.monotonic()
                with self.assertRaises(KeyboardInterrupt):
                    main.recv(mailbox, timeout=limit)
                self.assertLess(time.monotonic() - before, LIMIT / 2)
                interrupter.join()
                # The call was withdrawn, and the seat is free.
                self.assertEqual(board.entries, 1)
                main.send(mailbox, 5)
                self.assertEqual(main.recv(mailbox), 5)

    def test_raised_in_the_thread(self):
        with Switchboard(100).seat() as seat:
            mailbox = seat.mailbox(int)
            with self.assertRaises(KeyboardInterrupt):
                signal.raise_signal(signal.SIGINT)
                seat.recv(mailbox)
            seat.send(mailbox, 1)
            self.assertEqual(seat.recv(mailbox), 1)

    def test_the_message_goes_to_another(self):
        board = Switchboard(100)
        main, other, idle = board.seat(), board.seat(), board.seat()
        mailbox = main.mailbox(int)
        with main, idle:
            interrupter = self.interrupt_once_parked(board)
            with self.assertRaises(KeyboardInterrupt):
                main.recv(mailbox)
            interrupter.join()
            worker = Worker(other, lambda seat: seat.recv(mailbox))
            self.parked(board, 1)
            idle.send(mailbox, 4)
            self.assertEqual(self.value_of(worker), 4)

    def test_at_any_moment(self):
        """Ctrl-C comes hundreds of times in the midst of calls. No thread sleeps on."""
        board = Switchboard(1_000_000)
        main = board.seat()
        seats = [board.seat() for _ in range(4)]
        there, back = main.mailbox(int), main.mailbox(int)
        is_over = threading.Event()
        armed = []
        # A question and its answer are four entries of the journal, which isn't to become full.
        questions = iter(range(200_000))

        def interrupt(number, frame):
            if armed:
                armed.clear()
                raise KeyboardInterrupt

        def answer(seat):
            answered = 0
            while True:
                number = seat.recv(there)
                if number < 0:
                    return answered
                seat.send(back, number)
                answered += 1

        def disturb():
            chance = random.Random(5)
            while not is_over.wait(chance.random() * 0.002):
                self.interrupt()

        def ask():
            while time.monotonic() < end and next(questions, None) is not None:
                main.send(there, 1)
                main.recv(back)

        signal.signal(signal.SIGINT, interrupt)
        workers = [Worker(seat, answer) for seat in seats]
        disturber = threading.Thread(target=disturb, daemon=True)
        disturber.start()
        interrupted = 0
        end = time.monotonic() + 1.5
        while time.monotonic() < end:
            try:
                armed.append(True)
                ask()
                armed.clear()
            except KeyboardInterrupt:
                interrupted += 1
        is_over.set()
        disturber.join()
        with main:
            for _ in seats:
                main.send(there, -1)
            answered = sum(self.value_of(worker) for worker in workers)
        self.assertGreater(interrupted, 20)
        self.assertEqual(answered, board.sent(there) - len(seats))
        self.assertEqual(board.sent(back), answered)
        self.assertEqual(board.got(back) + board.owed(back), answered)
        check(board.take_journal())

    def test_a_program_ends(self):
        program = (
            "from seryugo import Switchboard\n"
            "board = Switchboard()\n"
            "seat, idle = board.seat(), board.seat()\n"
            "with seat, idle:\n"
            "    mailbox = seat.mailbox(str)\n"
            "    print('waits', flush=True)\n"
            "    seat.recv(mailbox)\n"
        )
        with subprocess.Popen(
            [sys.executable, "-c", program],
            env={**os.environ, "PYTHONPATH": os.pathsep.join(sys.path)},
            stdout=subprocess.PIPE,
            stderr=subprocess.PIPE,
            text=True,
        ) as child:
            self.assertEqual(child.stdout.readline(), "waits\n")
            time.sleep(0.1)
            child.send_signal(signal.SIGINT)
            _, errors = child.communicate(timeout=LIMIT)
        self.assertTrue(errors.strip().endswith("KeyboardInterrupt"), errors)
        self.assertNotIn("ResourceWarning", errors)

    def test_a_program_ends_while_threads_wait(self):
        program = (
            "import threading\n"
            "from seryugo import Switchboard\n"
            "board = Switchboard()\n"
            "seats = [board.seat() for _ in range(5)]\n"
            "mailbox = seats[0].mailbox(str)\n"
            "for seat in seats[1:]:\n"
            "    threading.Thread(target=seat.recv, args=(mailbox,), daemon=True).start()\n"
            "print('ends')\n"
        )
        ended = subprocess.run(
            [sys.executable, "-c", program],
            env={**os.environ, "PYTHONPATH": os.pathsep.join(sys.path)},
            capture_output=True,
            text=True,
            timeout=LIMIT,
        )
        self.assertEqual((ended.returncode, ended.stdout), (0, "ends\n"), ended.stderr)
