"""Short journals of a switchboard that is in use."""

import os
import threading
import unittest
from unittest import mock

import seryugo
from seryugo import Call, CallKind, NoMemory, Switchboard, _library, compacted

from .test_opened import InFolder


class Sink:
    """Keeps texts, and fails while it is to."""

    def __init__(self):
        self.text = b""
        self.fails = False

    def __call__(self, journal):
        if self.fails:
            raise OSError("the disk is full")
        self.text += journal.text()


class Compacting(unittest.TestCase):
    def setUp(self):
        self.board = Switchboard(1_000)
        self.seat = self.board.seat()
        self.addCleanup(self.seat.leave)
        self.mailbox = self.seat.mailbox(str)

    def passes(self, first, last):
        """Sends messages, and receives all but the last one."""
        for number in range(first, last):
            self.seat.send(self.mailbox, str(number))
            self.seat.recv(self.mailbox)
        self.seat.send(self.mailbox, str(last))

    def test_the_journal_stays(self):
        self.passes(0, 100)
        short = self.board.compact()
        self.assertEqual((short.start, len(short)), (0, 2))
        kinds = [entry.call.kind for entry in short]
        self.assertEqual(kinds, [CallKind.NEW_MAILBOX, CallKind.SEND])
        self.assertEqual(list(short)[1].call, Call(CallKind.SEND, 0, "100"))
        self.assertEqual((self.board.cut_at, self.board.entries), (0, 202))
        self.assertEqual(self.board.take_journal().start, 0)

    def test_it_is_what_the_text_is_made_short_to(self):
        self.passes(0, 50)
        port = self.seat.port(self.seat.channel(int))
        self.seat.mvar(bytes, b"x")
        self.seat.close_port(port)
        short = self.board.compact()
        self.assertEqual(compacted([self.board.take_journal().text()]).text(), short.text())

    def test_later_journals_follow_it(self):
        self.passes(0, 10)
        text = self.board.compact_and_cut().text()
        self.assertEqual((self.board.cut_at, self.board.entries), (22, 22))
        for count in range(1, 4):
            self.assertEqual(self.seat.recv(self.mailbox), str(10 * count))
            self.passes(10 * count + 1, 10 * count + 10)
            journal = self.board.take_journal()
            self.assertEqual(journal.start, 2 + 20 * (count - 1))
            text += journal.text()
        board = Switchboard.restore([text])
        self.assertEqual(board.entries, 62)
        with board.seat() as seat:
            self.assertEqual(seat.recv(board.mailbox(0, str)), "40")
        self.assertEqual(self.board.compact_and_cut().text(), compacted([text]).text())

    def test_positions_go_on(self):
        self.passes(0, 1)
        self.board.compact_and_cut()
        self.seat.recv(self.mailbox)
        self.assertEqual(self.board.entry(4).call.kind, CallKind.RECV)
        self.assertEqual((self.board.cut_at, self.board.entries), (4, 5))

    def test_of_an_empty_switchboard(self):
        board = Switchboard(10)
        text = board.compact_and_cut().text()
        with board.seat() as seat:
            seat.mailbox(int)
        journal = board.take_journal()
        self.assertEqual((text, journal.start), (b"journal 2\nend 0\n", 0))

    def test_of_one_that_was_restored(self):
        self.passes(0, 10)
        board = Switchboard.restore([self.board.take_journal().text()])
        with board.seat() as seat:
            mailbox = board.mailbox(0, str)
            self.assertEqual(seat.recv(mailbox), "10")
            text = board.compact_and_cut().text()
            seat.send(mailbox, "x")
        text += board.take_journal().text()
        self.assertEqual(Switchboard.restore([text]).entries, 2)

    def test_a_refused_one_changes_nothing(self):
        self.passes(0, 10)
        refused = mock.Mock(return_value=NoMemory.code)
        for call in "compact", "compact_and_cut":
            with mock.patch.object(_library, call, refused), self.assertRaises(NoMemory):
                getattr(self.board, call)()
        self.assertEqual((self.board.cut_at, self.board.take_journal().start), (0, 0))
        self.seat.recv(self.mailbox)
        self.assertEqual(self.board.take_journal().start, 22)

    def test_a_sink_gets_what_follows(self):
        sink = Sink()
        board = Switchboard(3, when_full=sink)
        with board.seat() as seat:
            mailbox = seat.mailbox(int)
            for number in range(20):
                seat.send(mailbox, number)
            sink.text = board.compact_and_cut().text()
            for number in range(20):
                self.assertEqual(seat.recv(mailbox), number)
        board.keep()
        self.assertEqual(Switchboard.restore([sink.text]).entries, 41)

    def test_it_stands_for_what_no_sink_took(self):
        sink = Sink()
        board = Switchboard(3, when_full=sink)
        with board.seat() as seat:
            mailbox = seat.mailbox(int)
            seat.send(mailbox, 1)
            seat.send(mailbox, 2)
            sink.fails = True
            with self.assertRaises(OSError):
                seat.send(mailbox, 3)
            text = board.compact_and_cut().text()
            seat.recv(mailbox)
            sink.fails = False
            sink.text = text
            board.keep()
        self.assertEqual(Switchboard.restore([sink.text]).entries, 4)

    def test_ctrl_c_as_the_journal_is_cut_leaves_positions_right(self):
        sink = Sink()
        board = Switchboard(3, when_full=sink)
        compact_and_cut = _library.compact_and_cut

        def interrupted(*arguments):
            compact_and_cut(*arguments)
            raise KeyboardInterrupt

        with board.seat() as seat:
            mailbox = seat.mailbox(int)
            seat.send(mailbox, 1)
            seat.send(mailbox, 2)
            sink.fails = True
            with self.assertRaises(OSError):
                seat.send(mailbox, 3)
            with mock.patch.object(_library, "compact_and_cut", interrupted):
                with self.assertRaises(KeyboardInterrupt):
                    board.compact_and_cut()
            sink.fails = False
            seat.recv(mailbox)
            board.keep()
            # What the short journal stands for isn't handed over, and what follows it is.
            self.assertEqual(sink.text, b"journal 2\nfrom 3\nseat 0 recv 0: =%01\nend 4\n")
            sink.text = board.compact_and_cut().text()
            seat.recv(mailbox)
        board.keep()
        self.assertEqual(Switchboard.restore([sink.text]).entries, 3)

    def test_nothing_is_cut_if_the_short_journal_is_not_kept(self):
        self.passes(0, 10)

        def fails(journal):
            self.assertEqual(journal.start, 0)
            raise OSError("the disk is full")

        with self.assertRaises(OSError):
            self.board.compact_with(fails)
        self.assertEqual((self.board.cut_at, self.board.take_journal().start), (0, 0))

    def test_a_sink_follows_each_short_journal_while_threads_call(self):
        kept = {"text": b"", "sum": None}

        def sink(journal):
            text, kept["sum"] = journal.sealed_text(kept["sum"])
            kept["text"] += text

        def begin(journal):
            kept["text"], kept["sum"] = journal.sealed_text(None)
            return len(journal)

        board = Switchboard(3, when_full=sink)
        ann, ben = board.seat(), board.seat()
        mailbox = ann.mailbox(int)

        def send():
            with ann:
                for number in range(1_000):
                    ann.send(mailbox, number)

        def receive():
            with ben:
                for number in range(990):
                    self.assertEqual(ben.recv(mailbox), number)

        threads = [threading.Thread(target=call) for call in (send, receive)]
        for thread in threads:
            thread.start()
        while any(thread.is_alive() for thread in threads):
            self.assertGreaterEqual(board.compact_with(begin), 1)
        for thread in threads:
            thread.join()
        board.keep()
        restored = Switchboard.restore([kept["text"]])
        self.assertEqual(restored.owed(restored.mailbox(0, int)), 10)

    def test_ctrl_c_as_the_journal_is_cut_behind_what_is_kept(self):
        cut_open = _library.cut_open

        def interrupted(*arguments):
            cut_open(*arguments)
            raise KeyboardInterrupt

        before = mock.Mock(side_effect=KeyboardInterrupt)
        for is_cut, call in (False, before), (True, interrupted):
            board = Switchboard(10)
            with board.seat() as seat:
                mailbox = seat.mailbox(int)
                for number in range(3):
                    seat.send(mailbox, number)
                    seat.recv(mailbox)
                with mock.patch.object(_library, "cut_open", call):
                    with self.assertRaises(KeyboardInterrupt):
                        board.compact_with(lambda journal: journal.text())
                seat.send(mailbox, 5)
            journal = board.take_journal()
            self.assertEqual((journal.start, len(journal)), (1, 1) if is_cut else (0, 8))

    def test_ctrl_c_before_the_cut_of_compact_with_changes_nothing_later(self):
        sink = Sink()
        board = Switchboard(5, sink)
        with board.seat() as seat:
            mailbox = seat.mailbox(int)
            for number in range(12):
                seat.send(mailbox, number)
            with mock.patch.object(_library, "cut_open", side_effect=KeyboardInterrupt):
                with self.assertRaises(KeyboardInterrupt):
                    board.compact_with(lambda journal: None)
            for number in range(12):
                seat.send(mailbox, number)
        board.keep()
        self.assertEqual(Switchboard.restore([sink.text]).entries, 25)

    def test_ctrl_c_before_the_journal_is_cut_changes_nothing(self):
        self.passes(0, 10)
        with mock.patch.object(_library, "compact_and_cut", side_effect=KeyboardInterrupt):
            with self.assertRaises(KeyboardInterrupt):
                self.board.compact_and_cut()
        self.assertEqual(self.board.take_journal().start, 0)
        self.seat.recv(self.mailbox)
        self.assertEqual(self.board.take_journal().start, 22)

    def test_threads_call_meanwhile(self):
        board = Switchboard(100_000)
        ann, ben = board.seat(), board.seat()
        mailbox = ann.mailbox(int)
        got = []

        def send():
            with ann:
                for number in range(2_000):
                    ann.send(mailbox, number)

        def receive():
            with ben:
                got.extend(ben.recv(mailbox) for _ in range(2_000))

        threads = [threading.Thread(target=call) for call in (send, receive)]
        for thread in threads:
            thread.start()
        texts = []
        # Once at the least, also if the threads are quick.
        while not texts or any(thread.is_alive() for thread in threads):
            short = board.compact_and_cut()
            text = short.text() + board.take_journal().text()
            restored = Switchboard.restore([text])
            texts.append((text, restored.owed(restored.mailbox(0, int))))
        for thread in threads:
            thread.join()
        self.assertEqual(got, list(range(2_000)))
        for text, owed in texts:
            self.assertEqual(len(compacted([text])), 1 + owed)


class StaysShort(InFolder):
    def test_while_it_is_open(self):
        """Each short file is another one. Only a hang would take so many rounds."""
        board = self.opened(_library.FileOptions(0, 0, 4_096, 3_000))
        files, file, last = 0, os.stat(self.path).st_ino, 0
        with board.seat() as seat:
            letters = seat.mailbox_again(0, int)
            while files < 3 and last < 1_000_000:
                last += 1
                seat.send(letters, last)
                self.assertTrue(last == 1 or seat.recv(letters) == last - 1)
                now = os.stat(self.path).st_ino
                files, file = files + (now != file), now
        self.assertEqual((files, len(letters)), (3, 1))
        board.close()
        with seryugo.open(self.path) as board, board.seat() as seat:
            self.assertLess(board.recovered.entries, last)
            self.assertEqual(seat.recv(seat.mailbox_again(0, int)), last)


if __name__ == "__main__":
    unittest.main()
