"""Switchboards that are kept on the disk, with waits for it that a test holds up.

A test waits a little for what must not come.
"""

import asyncio
import threading
import time
from unittest import mock

import seryugo
from seryugo import FileLost, _library

from . import LIMIT
from .test_opened import InFolder

# In seconds: what returns too early has this long to do so.
A_WHILE = 0.03


class Disk:
    """In place of the library's wait for the disk: one that a test holds up."""

    def __init__(self):
        self.free = threading.Event()
        self.free.set()
        self.waits = threading.Event()
        self.fails = False

    def wait(self, file, position):
        self.waits.set()
        assert self.free.wait(LIMIT)
        return FileLost.code if self.fails else WAIT(file, position)

    def hold(self):
        self.waits.clear()
        self.free.clear()

    def free_later(self):
        time.sleep(A_WHILE)
        self.free.set()


WAIT = _library.file_wait


class OnDisk(InFolder):
    def setUp(self):
        super().setUp()
        self.disk = Disk()
        patch = mock.patch.object(_library, "file_wait", self.disk.wait)
        patch.start()
        self.addCleanup(patch.stop)
        # Before the switchboard is closed.
        self.board = seryugo.open(self.path, keep="disk", sync_every=None)
        self.addCleanup(self.closed, self.board)
        self.addCleanup(self.disk.free.set)
        self.ann, self.ben = self.board.seat(), self.board.seat()
        self.addCleanup(self.ann.leave)
        self.addCleanup(self.ben.leave)
        self.letters = self.ann.mailbox_again(0, str)

    def begun(self, call, *arguments, **named):
        """Make a call in another thread. Return what joins it, and returns what it returned.

        That is also whether the disk was free then.
        """
        answers = []

        def run():
            try:
                answer = call(*arguments, **named)
            except Exception as error:
                answer = error
            answers.append((answer, self.disk.free.is_set()))

        thread = threading.Thread(target=run)
        thread.start()

        def ended():
            thread.join(LIMIT)
            return answers.pop()

        return ended

    def test_calls_and_readers_return_what_is_on_the_disk(self):
        self.disk.hold()
        sent = self.begun(self.ann.send, self.letters, "Dear Ben")
        self.assertTrue(self.disk.waits.wait(LIMIT))
        owed = self.begun(self.board.owed, self.letters)
        entries = self.begun(lambda: self.board.entries)
        short = self.begun(lambda: len(self.board.compact()))
        self.disk.free_later()
        self.assertEqual(sent(), (None, True))
        self.assertEqual(owed(), (1, True))
        self.assertEqual(entries(), (2, True))
        self.assertEqual(short(), (2, True))

    def test_calls_with_a_time_limit_wait_for_the_disk(self):
        others = self.ann.mailbox_again(1, str)
        self.disk.hold()
        sent = self.begun(self.ann.send, self.letters, "Dear Ben")
        self.assertTrue(self.disk.waits.wait(LIMIT))
        received = self.begun(self.ben.recv, self.letters, timeout=0)
        self.disk.free_later()
        self.assertEqual(sent(), (None, True))
        self.assertEqual(received(), ("Dear Ben", True))
        with self.board.seat():
            self.disk.hold()
            late = self.begun(self.ben.recv, others, timeout=0)
            self.disk.free_later()
            error, was_free = late()
        self.assertIsInstance(error, TimeoutError)
        self.assertTrue(was_free)

    def test_an_awaited_call_waits_for_the_disk_and_the_loop_goes_on(self):
        self.ann.send(self.letters, "Dear Ben")

        async def receive():
            self.disk.hold()
            received = asyncio.ensure_future(self.ben.recv_async(self.letters))
            while not self.disk.waits.is_set():
                self.assertFalse(received.done())
                await asyncio.sleep(0.001)
            await asyncio.sleep(A_WHILE)
            self.assertFalse(received.done())
            self.disk.free.set()
            return await received

        self.assertEqual(asyncio.run(receive()), "Dear Ben")

    def test_an_awaited_call_that_is_cancelled_loses_no_message(self):
        last = self.ann.mvar_again(1, str)
        self.ann.put(last, "five")
        for letter in ("one", "two", "three", "four"):
            self.ann.send(self.letters, letter)

        async def cancel(call, source):
            self.disk.hold()
            received = asyncio.ensure_future(call(source))
            while not self.disk.waits.is_set():
                self.assertFalse(received.done())
                await asyncio.sleep(0.001)
            received.cancel()
            with self.assertRaises(asyncio.CancelledError):
                await received
            self.disk.free.set()

        async def receive():
            await cancel(self.ben.recv_async, self.letters)
            await cancel(self.ben.recv_async, self.letters)
            one = await self.ben.recv_async(self.letters)
            await cancel(self.ben.recv_async, self.letters)
            two = self.ben.recv(self.letters)
            await cancel(self.ben.recv_async, self.letters)
            three = self.ben.recv_poll(self.letters)
            await cancel(self.ben.take_async, last)
            return one, two, three, self.ben.recv(self.letters), self.ben.take_poll(last)

        self.assertEqual(asyncio.run(receive()), ("one", "two", "three", "four", "five"))

    def test_a_lost_file_fails_all_who_wait(self):
        others = self.ann.mailbox_again(1, str)
        waits = self.begun(self.ben.recv, others)
        self.disk.hold()
        self.disk.fails = True
        sent = self.begun(self.ann.send, self.letters, "Dear Ben")
        self.assertTrue(self.disk.waits.wait(LIMIT))
        owed = self.begun(self.board.owed, self.letters)
        with mock.patch.object(_library, "file_state", lambda file: FileLost.code):
            with mock.patch.object(_library, "file_reserve", lambda *given: FileLost.code):
                self.disk.free_later()
                for ended in (sent, owed, waits):
                    self.assertIsInstance(ended()[0], FileLost)


class Levels(InFolder):
    def test_calls_at_the_other_level_wait_for_nothing(self):
        def wait(file, position):
            raise AssertionError("a call waits for the disk")

        with mock.patch.object(_library, "file_wait", wait):
            with seryugo.open(self.path) as board, board.seat() as seat:
                letters = seat.mailbox_again(0, str)
                seat.send(letters, "Dear Ben")
                self.assertEqual(seat.recv(letters), "Dear Ben")
                self.assertEqual(board.owed(letters), 0)

    def test_many_threads_and_a_close(self):
        with seryugo.open(self.path, keep="disk") as board:
            seats = [board.seat() for _ in range(4)]
            letters = seats[0].mailbox_again(0, int)

            def send(seat):
                with seat:
                    for number in range(25):
                        seat.send(letters, number)

            threads = [threading.Thread(target=send, args=(seat,)) for seat in seats]
            for thread in threads:
                thread.start()
            for thread in threads:
                thread.join(LIMIT)
        with seryugo.open(self.path, keep="disk") as board:
            self.assertEqual(board.owed(board.mailbox(0, int)), 100)

    def test_there_is_no_other_level(self):
        with self.assertRaisesRegex(ValueError, "'paper'"):
            seryugo.open(self.path, keep="paper")
