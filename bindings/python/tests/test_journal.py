"""Journals that are taken, read and checked."""

import threading
import unittest

import seryugo
from seryugo import (
    Call,
    CallKind,
    Checker,
    Entry,
    Maker,
    MakerKind,
    Reply,
    ReplyKind,
    Switchboard,
    check,
)


def by_seat(number, call, reply):
    return Entry(Maker(MakerKind.SEAT, number), call, reply)


class Journals(unittest.TestCase):
    def setUp(self):
        self.board = Switchboard(1_000)
        self.seat = self.board.seat()
        self.addCleanup(self.seat.leave)

    def test_entries(self):
        mailbox = self.seat.mailbox(str)
        self.seat.send(mailbox, "hello")
        self.seat.recv(mailbox)
        self.seat.recv_poll(mailbox)
        variable = self.seat.mvar(int, 5)
        self.seat.put(variable, 6)
        self.seat.swap(variable, 7)
        port = self.seat.port(self.seat.channel(bytes))
        self.seat.close_port(port)
        with self.assertRaises(seryugo.Closed):
            self.seat.recv(port)
        wanted = [
            by_seat(0, Call(CallKind.NEW_MAILBOX), Reply(ReplyKind.MADE, made=0)),
            by_seat(0, Call(CallKind.SEND, 0, "hello"), Reply(ReplyKind.DONE)),
            by_seat(0, Call(CallKind.RECV, 0), Reply(ReplyKind.GOT, message="hello")),
            by_seat(0, Call(CallKind.RECV_POLL, 0), Reply(ReplyKind.NOTHING)),
            by_seat(0, Call(CallKind.MVAR_INIT, message=5), Reply(ReplyKind.MADE, made=1)),
            by_seat(0, Call(CallKind.PUT, 1, 6), Reply(ReplyKind.PUT)),
            by_seat(0, Call(CallKind.SWAP, 1, 7), Reply(ReplyKind.GOT, message=5)),
            by_seat(0, Call(CallKind.NEW_CHANNEL), Reply(ReplyKind.MADE, made=2)),
            by_seat(0, Call(CallKind.NEW_PORT, 2), Reply(ReplyKind.MADE, made=3)),
            by_seat(0, Call(CallKind.CLOSE_PORT, 3), Reply(ReplyKind.DONE)),
            by_seat(0, Call(CallKind.RECV, 3), Reply(ReplyKind.CLOSED)),
        ]
        entries = [self.board.entry(position) for position in range(self.board.entries)]
        self.assertEqual(entries, wanted)
        journal = self.board.take_journal()
        self.assertEqual(len(journal), len(wanted))
        self.assertEqual(list(journal), wanted)
        # It may be read again.
        self.assertEqual(list(journal), wanted)
        self.assertEqual(check(journal), len(wanted))

    def test_no_such_entry(self):
        self.seat.mailbox(int)
        self.board.cut()
        for position in (0, 1, -1, 2**64):
            with self.assertRaises(seryugo.NoSuch):
                self.board.entry(position)

    def test_pieces(self):
        mailbox = self.seat.mailbox(bytes)
        self.seat.send(mailbox, b"a" * 100)
        first = self.board.take_journal()
        self.seat.recv(mailbox)
        second = self.board.take_journal()
        empty = self.board.take_journal()
        self.assertEqual((len(first), len(second), len(empty)), (2, 1, 0))
        self.assertEqual(check(), 0)
        self.assertEqual(check(empty), 0)
        self.assertEqual(check(first, second, empty), 3)
        checker = Checker()
        self.assertEqual([checker.feed(first), checker.feed(second)], [2, 3])

    def test_open_cuts(self):
        mailbox = self.seat.mailbox(int)
        self.seat.send(mailbox, 5)
        first = self.board.take_journal_open()
        self.seat.send(mailbox, 6)
        self.assertEqual((len(first), check(first), self.board.cut_at), (2, 2, 2))
        self.board.cut_open()
        self.assertEqual((self.board.cut_at, len(self.board.take_journal_open())), (3, 0))
        self.assertEqual([self.seat.recv(mailbox), self.seat.recv(mailbox)], [5, 6])

    def test_unlawful(self):
        mailbox = self.seat.mailbox(int)
        first = self.board.take_journal()
        self.seat.send(mailbox, 5)
        second = self.board.take_journal()
        checker = Checker()
        for _ in range(2):
            with self.assertRaises(seryugo.Unlawful) as told:
                checker.feed(second)
            self.assertEqual(told.exception.position, 0)
        with self.assertRaises(seryugo.Unlawful) as told:
            check(first, first)
        self.assertEqual(told.exception.position, 1)

    def test_outlives_the_switchboard(self):
        board = Switchboard(10)
        with board.seat() as seat:
            mailbox = seat.mailbox(str)
            seat.send(mailbox, "x" * 1_000)
        journal = board.take_journal()
        del board, seat, mailbox
        self.assertEqual([entry.call.message for entry in journal], [None, "x" * 1_000])

    def test_read_by_threads(self):
        mailbox = self.seat.mailbox(int)
        for number in range(200):
            self.seat.send(mailbox, number)
        journal = self.board.take_journal()
        wanted = list(journal)
        read = []
        threads = [threading.Thread(target=lambda: read.append(list(journal))) for _ in range(8)]
        for thread in threads:
            thread.start()
        for thread in threads:
            thread.join()
        self.assertEqual(read, [wanted] * 8)
