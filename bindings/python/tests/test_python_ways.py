"""What a user of Python expects of any object: loops, lengths, `with`, pickles and copies."""

import copy
import errno
import pickle
import threading
import unittest

import seryugo
from seryugo import (
    Checker,
    Closed,
    Fault,
    FileBusy,
    FileFailed,
    FileLost,
    NoSuch,
    Switchboard,
    Unlawful,
    Unreadable,
)


class Ways(unittest.TestCase):
    def setUp(self):
        self.board = Switchboard(1_000)
        self.ann, self.ben = self.board.seat(), self.board.seat()
        self.addCleanup(self.ann.leave)
        self.addCleanup(self.ben.leave)

    def test_a_loop_ends_once_no_other_seat_can_send(self):
        mailbox = self.ben.mailbox(int)

        def send():
            with self.ann:
                for number in range(100):
                    self.ann.send(mailbox, number)

        thread = threading.Thread(target=send)
        thread.start()
        self.assertEqual(list(self.ben.iter(mailbox)), list(range(100)))
        thread.join()

    def test_a_loop_ends_once_the_port_is_closed(self):
        channel = self.ben.channel(str)
        port = self.ben.port(channel)
        self.ann.multicast(channel, "one")
        messages = self.ben.iter(port)
        self.assertEqual(next(messages), "one")
        self.ann.close_port(port)
        self.assertEqual(list(messages), [])

    def test_a_loop_keeps_its_time_limit(self):
        with self.assertRaises(TimeoutError):
            next(self.ben.iter(self.ben.mailbox(int), timeout=0.001))

    def test_the_length_of_what_is_received_from(self):
        mailbox, channel = self.ben.mailbox(int), self.ben.channel(int)
        port = self.ben.port(channel)
        self.assertEqual((len(mailbox), len(port)), (0, 0))
        self.assertTrue(mailbox and port)
        self.ann.send(mailbox, 1)
        self.ann.multicast(channel, 1)
        self.ann.multicast(channel, 2)
        self.assertEqual((len(mailbox), len(port)), (1, 2))
        self.ben.recv(port)
        self.assertEqual(len(port), 1)

    def test_a_switchboard_hands_the_rest_over_at_the_end(self):
        taken = []
        with Switchboard(100, when_full=lambda journal: taken.append(len(journal))) as board:
            with board.seat() as seat:
                mailbox = seat.mailbox(int)
                seat.send(mailbox, 5)
            self.assertEqual(taken, [])
        self.assertEqual(taken, [2])
        with Switchboard(100) as board:
            self.assertEqual(board.entries, 0)

    def test_entries_are_pickled(self):
        mailbox = self.ann.mailbox(str)
        self.ann.send(mailbox, "hello")
        entries = list(self.board.take_journal())
        self.assertEqual(pickle.loads(pickle.dumps(entries)), entries)

    def test_what_belongs_to_a_process_says_so(self):
        mailbox = self.ann.mailbox(str)
        belongs = [self.board, self.ann, mailbox, self.board.take_journal(), Checker()]
        for one in belongs:
            for way in (pickle.dumps, copy.copy, copy.deepcopy):
                with self.assertRaisesRegex(TypeError, "belongs to this process"):
                    way(one)

    def test_errors_are_pickled(self):
        unreadable = Unreadable("utf-8", b"\xff", 0, 1, "invalid start byte")
        failed = FileFailed("open the file", errno.EACCES, "letters.journal")
        lost = FileLost("the file was cut by others", 0, "letters.journal")
        for error in (
            Closed(),
            Unlawful(3),
            Fault(7),
            Fault(1, "why"),
            unreadable,
            FileBusy("why"),
            failed,
            lost,
            FileLost(),
        ):
            for again in pickle.loads(pickle.dumps(error)), copy.copy(error):
                self.assertEqual(
                    (type(again), str(again), vars(again)), (type(error), str(error), vars(error))
                )

    def test_a_closed_port_has_no_length(self):
        port = self.ben.port(self.ben.channel(str))
        self.ben.close_port(port)
        for count in len, self.board.owed:
            with self.assertRaisesRegex(NoSuch, "nothing is owed to a closed port: <Port 1 of"):
                count(port)

    def test_an_old_name_still_works(self):
        with self.assertWarnsRegex(DeprecationWarning, "ValidPrefix"):
            self.assertIs(seryugo.Kept, seryugo.ValidPrefix)
        with self.assertRaisesRegex(AttributeError, "no attribute 'Unknown'"):
            _ = seryugo.Unknown
