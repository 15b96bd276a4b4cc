"""Each call on one thread: what it returns, and why it fails."""

import gc
import threading
import time
import unittest
import warnings
from unittest import mock

import seryugo
from seryugo import Channel, IVar, Mailbox, MVar, Port, Switchboard, errors

from . import LIMIT


class Calls(unittest.TestCase):
    def setUp(self):
        self.board = Switchboard(1_000)
        self.seat = self.board.seat()
        self.addCleanup(self.seat.leave)

    def test_mailbox(self):
        mailbox = self.seat.mailbox(str)
        self.assertIsInstance(mailbox, Mailbox)
        self.assertIsNone(self.seat.recv_poll(mailbox))
        self.seat.send(mailbox, "one")
        self.seat.send(mailbox, "")
        readers = (self.board.sent, self.board.owed, self.board.kept)
        self.assertEqual([reader(mailbox) for reader in readers], [2, 2, 2])
        self.assertEqual(self.seat.recv(mailbox), "one")
        self.assertEqual(self.seat.recv_poll(mailbox), "")
        self.assertEqual((self.board.got(mailbox), self.board.owed(mailbox)), (2, 0))

    def test_channel(self):
        channel = self.seat.channel(bytes)
        self.assertIsInstance(channel, Channel)
        self.seat.multicast(channel, b"missed")
        port = self.seat.port(channel)
        self.assertIsInstance(port, Port)
        self.seat.multicast(channel, b"first")
        copy = self.seat.copy_port(port)
        self.seat.multicast(channel, b"second")
        self.assertEqual([self.seat.recv(port), self.seat.recv(port)], [b"first", b"second"])
        self.assertEqual([self.seat.recv(copy), self.seat.recv_poll(copy)], [b"first", b"second"])
        self.assertEqual(self.board.sent(channel), 3)

    def test_closed_port(self):
        port = self.seat.port(self.seat.channel(int))
        self.assertTrue(self.board.is_open(port))
        self.assertTrue(self.seat.close_port(port))
        self.assertFalse(self.seat.close_port(port))
        self.assertFalse(self.board.is_open(port))
        for call in (self.seat.recv, self.seat.recv_poll, self.seat.copy_port):
            with self.assertRaises(seryugo.Closed):
                call(port)

    def test_ivar(self):
        variable = self.seat.ivar(int)
        self.assertIsInstance(variable, IVar)
        self.assertIsNone(self.seat.get_poll(variable))
        self.assertTrue(self.seat.put(variable, 0))
        self.assertFalse(self.seat.put(variable, 1))
        self.assertEqual([self.seat.get(variable), self.seat.get_poll(variable)], [0, 0])
        with self.assertRaises(seryugo.WrongKind):
            self.seat.take(variable)

    def test_mvar(self):
        variable = self.seat.mvar(str)
        self.assertIsInstance(variable, MVar)
        self.assertIsNone(self.board.held(variable))
        self.assertTrue(self.seat.put(variable, "a"))
        self.assertFalse(self.seat.put(variable, "b"))
        self.assertEqual(self.board.held(variable), "a")
        self.assertEqual(self.seat.swap(variable, "c"), "a")
        self.assertEqual([self.seat.get(variable), self.seat.take(variable)], ["c", "c"])
        self.assertIsNone(self.seat.take_poll(variable))
        full = self.seat.mvar(int, 0)
        self.assertEqual(self.seat.take_poll(full), 0)

    def test_stalled_alone(self):
        empty, mailbox = self.seat.mvar(int), self.seat.mailbox(int)
        calls = (
            lambda: self.seat.recv(mailbox),
            lambda: self.seat.get(empty),
            lambda: self.seat.take(empty),
            lambda: self.seat.swap(empty, 1),
        )
        for call in calls:
            with self.assertRaises(seryugo.Stalled):
                call()
        # The seat is free.
        self.seat.send(mailbox, 1)
        self.assertEqual(self.seat.recv(mailbox), 1)

    def test_wrong_kind(self):
        mailbox, channel = self.seat.mailbox(int), self.seat.channel(int)
        port = self.seat.port(channel)
        calls = (
            lambda: self.seat.send(port, 1),
            lambda: self.seat.multicast(mailbox, 1),
            lambda: self.seat.recv(channel),
            lambda: self.seat.recv_poll(channel),
            lambda: self.seat.put(mailbox, 1),
            lambda: self.seat.port(mailbox),
            lambda: self.seat.close_port(mailbox),
        )
        for call in calls:
            # The error names the object.
            with self.assertRaisesRegex(seryugo.WrongKind, "<(Mailbox|Channel|Port) [012] of int>"):
                call()
        self.assertEqual(self.board.entries, 3)

    def test_other_switchboard(self):
        other = Switchboard(10)
        with other.seat() as seat:
            mailbox = seat.mailbox(int)
            for call in (self.seat.recv, self.seat.recv_poll, self.seat.port, self.board.owed):
                with self.assertRaises(seryugo.NoSuch):
                    call(mailbox)
            with self.assertRaises(seryugo.NoSuch):
                self.seat.send(mailbox, 1)

    def test_no_object(self):
        for call in (self.seat.recv, self.seat.get_poll, self.board.sent):
            with self.assertRaises(TypeError):
                call(0)

    def test_no_such_reader(self):
        variable = self.seat.mvar(int)
        with self.assertRaises(seryugo.NoSuch):
            self.board.owed(variable)
        with self.assertRaises(seryugo.NoSuch):
            self.board.held(self.seat.mailbox(int))

    def test_gone(self):
        mailbox = self.seat.mailbox(int)
        with self.board.seat() as left:
            left.send(mailbox, 1)
        left.leave()
        for call in (left.recv, left.recv_poll):
            with self.assertRaises(seryugo.Gone):
                call(mailbox)
        with self.assertRaises(seryugo.Gone):
            left.mailbox(int)

    def test_with_leaves_after_an_error(self):
        with self.assertRaises(ZeroDivisionError):
            with self.board.seat() as seat:
                1 / 0
        with self.assertRaises(seryugo.Gone):
            seat.mailbox(int)

    def test_dropped_seat_leaves(self):
        mailbox = self.seat.mailbox(int)
        dropped = self.board.seat()
        with warnings.catch_warnings(record=True) as told:
            warnings.simplefilter("always")
            del dropped
            gc.collect()
        self.assertEqual([each.category for each in told], [ResourceWarning])
        with self.assertRaises(seryugo.Stalled):
            self.seat.recv(mailbox)

    def test_dropped_where_a_warning_is_an_error(self):
        mailbox = self.seat.mailbox(int)
        dropped = self.board.seat()
        unraised = []
        with warnings.catch_warnings(), mock.patch("sys.unraisablehook", unraised.append):
            warnings.simplefilter("error", ResourceWarning)
            del dropped
            gc.collect()
        self.assertEqual([each.exc_type for each in unraised], [ResourceWarning])
        with self.assertRaises(seryugo.Stalled):
            self.seat.recv(mailbox)

    def test_dropped_while_a_short_journal_is_kept(self):
        mailbox = self.seat.mailbox(int)
        held = [self.board.seat()]
        ended = []

        def receive():
            try:
                self.seat.recv(mailbox)
            except seryugo.Stalled:
                ended.append(True)

        thread = threading.Thread(target=receive, daemon=True)
        thread.start()
        while not self.board._room._parked:
            time.sleep(0.001)
        with warnings.catch_warnings():
            warnings.simplefilter("ignore")
            self.board.compact_with(lambda journal: held.clear())
        thread.join(LIMIT)
        self.assertEqual(ended, [True])

    def test_dropped_while_the_lock_is_held(self):
        mailbox = self.seat.mailbox(int)
        dropped = self.board.seat()
        with warnings.catch_warnings():
            warnings.simplefilter("ignore")
            with self.board._room.lock:
                del dropped
                gc.collect()
        self.board.sent(mailbox)
        with self.assertRaises(seryugo.Stalled):
            self.seat.recv(mailbox)

    def test_full_journal(self):
        board = Switchboard(3)
        with board.seat() as seat:
            mailbox = seat.mailbox(int)
            seat.send(mailbox, 1)
            seat.send(mailbox, 2)
            self.assertTrue(board.is_full)
            calls = (
                lambda: seat.send(mailbox, 3),
                lambda: seat.recv(mailbox),
                lambda: seat.recv_poll(mailbox),
                lambda: seat.mailbox(int),
            )
            for call in calls:
                with self.assertRaises(seryugo.JournalFull):
                    call()
            board.cut()
            self.assertFalse(board.is_full)
            self.assertEqual([seat.recv(mailbox), seat.recv(mailbox)], [1, 2])
            self.assertEqual((board.entries, board.cut_at, board.limit), (5, 3, 3))

    def test_limits(self):
        for limit in (0, -1, 2**32 + 1, 2**64 + 1):
            with self.assertRaises(seryugo.OutOfBounds):
                Switchboard(limit)
            with self.assertRaises(ValueError):
                Switchboard(limit)
        with self.assertRaises(TypeError):
            Switchboard(1.5)
        self.assertEqual(Switchboard(2**32).limit, 2**32)

    def test_reserve(self):
        self.board.reserve(0)
        self.board.reserve(100)
        for entries in (-1, 2**64, 2**64 - 1):
            with self.assertRaises(MemoryError):
                self.board.reserve(entries)

    def test_errors(self):
        for kind in (seryugo.Busy, seryugo.NoMemory, seryugo.Gone):
            error = errors.of_code(kind.code)
            self.assertIsInstance(error, kind)
            self.assertEqual(str(error), kind.words)
        self.assertIsInstance(errors.of_code(99), seryugo.SeryugoError)

    def test_repr(self):
        self.assertEqual(repr(self.seat.mailbox(str)), "<Mailbox 0 of str>")
        self.assertEqual(repr(self.seat), "<Seat 0>")
