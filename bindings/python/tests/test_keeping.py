"""Full journals that a switchboard cuts by itself."""

import threading
import unittest
import weakref
from unittest import mock

from seryugo import JournalFull, Switchboard, TooLong, _library, drop_entries


class Sink:
    """Keeps texts, and fails each time that it is to."""

    def __init__(self):
        self.text = b""
        self.failures = 0

    def __call__(self, journal):
        if self.failures:
            self.failures -= 1
            raise OSError("the disk is full")
        self.text += journal.text()

    def entries(self):
        return Switchboard.restore([self.text]).entries


class Keeping(unittest.TestCase):
    def setUp(self):
        self.sink = Sink()

    def test_a_full_journal_refuses_calls(self):
        board = Switchboard(1)
        with board.seat() as seat:
            mailbox = seat.mailbox(int)
            with self.assertRaises(JournalFull):
                seat.send(mailbox, 5)
        board.keep()
        self.assertEqual(board.cut_at, 0)

    def test_entries_are_dropped(self):
        board = Switchboard(3, when_full=drop_entries)
        with board.seat() as seat:
            mailbox = seat.mailbox(int)
            for number in range(100):
                seat.send(mailbox, number)
            for number in range(100):
                self.assertEqual(seat.recv(mailbox), number)
        self.assertEqual(board.entries, 201)
        self.assertGreater(board.cut_at, 197)

    def test_calls_of_each_kind_find_it_full(self):
        board = Switchboard(1, when_full=self.sink)
        with board.seat() as seat:
            mailbox, variable = seat.mailbox(str), seat.mvar(int, 1)
            port = seat.port(seat.channel(bytes))
            self.assertEqual(seat.swap(variable, 2), 1)
            self.assertEqual(seat.take_poll(variable), 2)
            self.assertIsNone(seat.recv_poll(mailbox))
            self.assertTrue(seat.close_port(port))
        board.keep()
        self.assertEqual(self.sink.entries(), board.entries)

    def test_a_blocked_call_finds_it_full(self):
        board = Switchboard(2, when_full=self.sink)
        with board.seat() as ann, board.seat() as ben:
            mailbox = ann.mailbox(int)
            got = []
            thread = threading.Thread(target=lambda: got.extend(ben.recv(mailbox) for _ in range(50)))
            thread.start()
            for number in range(50):
                ann.send(mailbox, number)
            thread.join()
        self.assertEqual(got, list(range(50)))
        board.keep()
        self.assertEqual(self.sink.entries(), 101)

    def test_a_sink_that_fails_refuses_calls_and_loses_nothing(self):
        board = Switchboard(2, when_full=self.sink)
        with board.seat() as seat:
            mailbox = seat.mailbox(int)
            seat.send(mailbox, 5)
            self.sink.failures = 3
            for _ in range(3):
                with self.assertRaises(OSError):
                    seat.send(mailbox, 6)
            self.assertEqual(board.owed(mailbox), 1)
            seat.send(mailbox, 6)
            self.assertEqual([seat.recv(mailbox), seat.recv(mailbox)], [5, 6])
        board.keep()
        self.assertEqual(self.sink.entries(), 5)

    def test_calls_without_an_entry_hand_nothing_over(self):
        board = Switchboard(1, when_full=self.sink)
        with board.seat() as seat:
            variable = seat.mvar(int, 5)
            self.sink.failures = 3
            with self.assertRaises(OSError):
                seat.put(variable, 6)
            self.assertEqual(board.held(variable), 5)
        self.assertEqual(self.sink.failures, 2)

    def test_what_is_kept_goes_before_what_is_taken(self):
        board = Switchboard(1, when_full=self.sink)
        with board.seat() as seat:
            mailbox = seat.mailbox(int)
            self.sink.failures = 2
            with self.assertRaises(OSError):
                seat.send(mailbox, 5)
            with self.assertRaises(OSError):
                board.take_journal()
            seat.send(mailbox, 5)
        journal = board.take_journal()
        self.assertEqual((journal.start, len(journal)), (1, 1))
        self.assertEqual(self.sink.entries(), 1)

    def test_ctrl_c_as_entries_are_taken_loses_none(self):
        board = Switchboard(1, when_full=self.sink)
        take = _library.take_journal_open

        def interrupted(*arguments):
            take(*arguments)
            raise KeyboardInterrupt

        with board.seat() as seat:
            mailbox = seat.mailbox(int)
            with mock.patch.object(_library, "take_journal_open", interrupted):
                with self.assertRaises(KeyboardInterrupt):
                    seat.send(mailbox, 5)
            seat.send(mailbox, 6)
        board.keep()
        self.assertEqual(self.sink.entries(), 2)

    def test_no_empty_journal_is_handed_over(self):
        lengths = []
        board = Switchboard(3, when_full=lambda journal: lengths.append(len(journal)))
        board.keep()
        with board.seat() as seat:
            seat.mailbox(int)
        board.keep()
        board.keep()
        self.assertEqual(lengths, [1])

    def test_a_switchboard_that_is_dropped_is_freed_at_once(self):
        board = Switchboard(3, when_full=drop_entries)
        room = weakref.ref(board._room)
        del board
        self.assertIsNone(room())

    def test_a_text_is_gone_on_from(self):
        board = Switchboard(3, when_full=self.sink)
        with board.seat() as seat:
            mailbox = seat.mailbox(str)
            for number in range(10):
                seat.send(mailbox, str(number))
        board.keep()
        board = Switchboard.restore([self.sink.text], 3, when_full=self.sink)
        with board.seat() as seat:
            mailbox = board.mailbox(0, str)
            self.assertEqual([seat.recv(mailbox) for _ in range(10)], list("0123456789"))
        board.keep()
        self.assertEqual(self.sink.entries(), 21)

    def test_a_cut_drops_entries_that_the_sink_refuses(self):
        board = Switchboard(2, when_full=self.sink)
        self.sink.failures = 3
        with board.seat() as seat:
            mailbox = seat.mailbox(bytes)
            seat.send(mailbox, b"x")
            for _ in range(3):
                with self.assertRaises(OSError):
                    seat.send(mailbox, b"x")
            board.cut()
            seat.send(mailbox, b"x")
            self.assertEqual(board.owed(mailbox), 2)
        self.assertEqual(self.sink.text, b"")


class LongMessages(unittest.TestCase):
    """A text has room for a message of 1,398,000 bytes of any kind."""

    most = 1_398_000

    def test_one_that_no_sink_could_write_is_refused_as_it_is_sent(self):
        sink = Sink()
        board = Switchboard(2, when_full=sink)
        with board.seat() as seat:
            mailbox = seat.mailbox(bytes)
            for _ in range(3):
                with self.assertRaisesRegex(TooLong, "1,398,000"):
                    seat.send(mailbox, b"\n" * (self.most + 1))
            with self.assertRaises(TooLong):
                seat.mvar(bytes, bytes(self.most + 1))
            self.assertEqual(board.entries, 1)
            seat.send(mailbox, b"\n" * self.most)
        board.keep()
        board = Switchboard.restore([sink.text])
        with board.seat() as seat:
            self.assertEqual(seat.recv(board.mailbox(0, bytes)), b"\n" * self.most)

    def test_both_messages_of_a_swap_count(self):
        lengths = []
        board = Switchboard(2, when_full=lambda journal: lengths.append(len(journal)))
        with board.seat() as seat:
            variable = seat.mvar(bytes, bytes(self.most))
            for message in (b"x", bytes(self.most)):
                with self.assertRaises(TooLong):
                    seat.swap(variable, message)
            self.assertEqual((board.entries, len(board.held(variable))), (1, self.most))
            self.assertEqual(len(seat.swap(variable, b"")), self.most)
            self.assertEqual(seat.swap(variable, bytes(self.most)), b"")
        board.keep()
        self.assertEqual(sum(lengths), 3)

    def test_a_swap_that_waits_is_refused(self):
        board = Switchboard(2, when_full=lambda journal: None)
        with board.seat() as seat, board.seat() as other:
            variable = seat.mvar(bytes)
            refusals = []

            def swap():
                with self.assertRaises(TooLong) as told:
                    other.swap(variable, b"x")
                refusals.append(told.exception)

            thread = threading.Thread(target=swap)
            thread.start()
            seat.put(variable, bytes(self.most))
            thread.join()
            self.assertEqual(len(refusals), 1)
            self.assertEqual(len(seat.take(variable)), self.most)

    def test_entries_that_are_dropped_may_have_more(self):
        board = Switchboard(2, when_full=drop_entries)
        with board.seat() as seat:
            mailbox, variable = seat.mailbox(bytes), seat.mvar(bytes, bytes(self.most))
            seat.send(mailbox, bytes(self.most + 1))
            self.assertEqual(len(seat.swap(variable, bytes(self.most))), self.most)
            self.assertEqual(board.entries, 4)


if __name__ == "__main__":
    unittest.main()
