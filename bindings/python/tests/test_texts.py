"""Journals as text, and switchboards that go on from them."""

import io
import unittest

import seryugo
from seryugo import Switchboard


class Texts(unittest.TestCase):
    def setUp(self):
        self.board = Switchboard(1_000)
        self.seat = self.board.seat()
        self.addCleanup(self.seat.leave)

    def history(self):
        """Two pieces, after which a message waits in mailbox 0 and variable 1 holds 5."""
        mailbox = self.seat.mailbox(str)
        self.seat.send(mailbox, "hello")
        self.seat.send(mailbox, "a b")
        first = self.board.take_journal()
        self.assertEqual(self.seat.recv(mailbox), "hello")
        self.seat.mvar(int, 5)
        second = self.board.take_journal()
        self.assertEqual((first.start, second.start), (0, 3))
        return first.text(), second.text()

    def test_text(self):
        first, second = self.history()
        self.assertEqual(
            first,
            b"journal 2\n"
            b"seat 0 mailbox: made 0\n"
            b"seat 0 send 0 =hello: done\n"
            b"seat 0 send 0 =a%20b: done\n"
            b"end 3\n",
        )
        self.assertEqual(
            second,
            b"journal 2\n"
            b"from 3\n"
            b"seat 0 recv 0: =hello\n"
            b"seat 0 mvar =%05: made 1\n"
            b"end 5\n",
        )

    def test_restore(self):
        text = b"".join(self.history())
        for parts in ([text], io.BytesIO(text), [bytes([byte]) for byte in text]):
            board = Switchboard.restore(parts, 10)
            self.assertEqual((board.entries, board.cut_at, board.limit), (5, 5, 10))
            mailbox, variable = board.mailbox(0, str), board.mvar(1, int)
            with board.seat() as seat:
                self.assertEqual(seat.recv(mailbox), "a b")
                self.assertEqual(seat.swap(variable, 6), 5)
            third = board.take_journal()
            self.assertEqual([entry.reply.message for entry in third], ["a b", 5])
            # The history goes on after what was read.
            again = Switchboard.restore([text, third.text()])
            self.assertEqual(again.held(again.mvar(1, int)), 6)

    def test_names(self):
        board = Switchboard.restore(self.history())
        for find in (board.channel, board.port, board.ivar, board.mvar):
            with self.assertRaises(seryugo.WrongKind):
                find(0, str)
        for number in (2, -1, 2**64):
            with self.assertRaises(seryugo.NoSuch):
                board.mailbox(number, str)
        board.mailbox(0, str)
        with self.assertRaises(TypeError):
            board.mailbox(0, int)
        channel = self.seat.channel(int)
        variable, port = self.seat.ivar(bytes), self.seat.port(channel)
        self.assertEqual(self.board.channel(channel.number, int).number, channel.number)
        self.assertEqual(self.board.ivar(variable.number, bytes).number, variable.number)
        self.assertEqual(self.board.port(port.number, int).number, port.number)

    def test_torn(self):
        text = b"".join(self.history())[:-6]
        for torn in (text, b""):
            with self.assertRaises(seryugo.Torn):
                Switchboard.restore([torn])
        board = Switchboard.restore([text[:-4]], is_torn_fine=True)
        self.assertEqual(board.entries, 4)

    def test_text_open(self):
        text = b"journal 2\nseat 0 mailbox: made 0\n"
        with self.assertRaises(seryugo.TextOpen):
            Switchboard.restore([text])
        # A byte 0 ends the text.
        board = Switchboard.restore([text + b"\0\0", b"\0\0"], is_torn_fine=True)
        self.assertEqual(board.restored_from, seryugo.ValidPrefix(1, len(text), b"end 1\n", None))

    def test_nothing_follows_a_byte_0(self):
        open_text = b"journal 2\nseat 0 mailbox: made 0\n"
        for text, line in (open_text, 3), (open_text + b"end 1\n", 4), (open_text[:-2], 2):
            for parts in [text + b"\0what\n"], [text + b"\0", b"\0", b"\0what\n"]:
                for read in Switchboard.restore, seryugo.compacted:
                    with self.assertRaisesRegex(seryugo.Fault, "other bytes follow it") as refused:
                        read(parts, is_torn_fine=True)
                    self.assertEqual(refused.exception.line, line)

    def test_no_journal(self):
        for other in (b'{"precious": 1}', b"journals", b"journal 10", b"\x7fELF"):
            with self.assertRaisesRegex(seryugo.Fault, "not a journal"):
                Switchboard.restore([other], is_torn_fine=True)

    def test_compacted(self):
        text = self.history()
        short = seryugo.compacted(text)
        self.assertEqual((short.start, len(short)), (0, 4))
        self.assertEqual(
            short.text(),
            b"journal 2\n"
            b"seat 0 mailbox: made 0\n"
            b"seat 0 mvar: made 1\n"
            b"seat 0 send 0 =a%20b: done\n"
            b"seat 0 put 1 =%05: done\n"
            b"end 4\n",
        )
        self.assertEqual([entry.call.message for entry in short], [None, None, b"a b", b"\x05"])
        board = Switchboard.restore([short.text()])
        with board.seat() as seat:
            self.assertEqual(seat.number, 1)
            self.assertEqual(seat.recv(board.mailbox(0, str)), "a b")
            self.assertEqual(seat.take(board.mvar(1, int)), 5)
        # The short journal of a short one is the same.
        self.assertEqual(seryugo.compacted([short.text()]).text(), short.text())

    def test_not_compacted(self):
        first, second = self.history()
        with self.assertRaises(seryugo.Torn):
            seryugo.compacted([first, second[:-6]])
        self.assertEqual(len(seryugo.compacted([first[:-6]], is_torn_fine=True)), 3)
        with self.assertRaises(seryugo.Unlawful):
            seryugo.compacted([second.replace(b"from 3\n", b"")])
        with self.assertRaises(TypeError):
            seryugo.compacted("text")

    def test_a_fault_has_its_line_and_the_words_of_cml_check(self):
        first, _ = self.history()
        head = b"journal 2\nseat 0 mailbox: made 0\n"
        faults = (
            (b"journal 1\nend 0\n", 1, "another type of messages"),
            (b"journal 3\nend 0 x\n", 1, "another type of messages"),
            (b"journal 5\n", 1, "another version"),
            (b"hello\n", 1, "no header"),
            (b"journal 2 x\n", 1, "no header"),
            (b"journal 2\nfrom 5\n", 2, "begins after a cut"),
            (head + b"what\n", 3, "too few words"),
            (head + b"seat 0 sand 0 =a: done\n", 3, "unknown word"),
            (head + b"seat 0 send 0 =a done\n", 3, "no colon"),
            (head + b"seat 0 send 0 =a: 5\n", 3, "bad message"),
            (head + b"end 2\n", 3, "wrong end"),
            (first + b"journal 2\nwhat\n", 7, "gap"),
        )
        for text, line, words in faults:
            for parts in [text], [bytes([byte]) for byte in text]:
                for read in Switchboard.restore, seryugo.compacted:
                    with self.subTest(text), self.assertRaises(seryugo.Fault) as refused:
                        read(parts)
                    self.assertEqual(refused.exception.line, line)
                    said = f"the journal's text has a fault on line {line}: {words}"
                    self.assertEqual(str(refused.exception), said)

    def test_unlawful(self):
        first, second = self.history()
        with self.assertRaises(seryugo.Unlawful) as told:
            Switchboard.restore([first, second.replace(b"=hello", b"=hallo")])
        self.assertEqual(told.exception.position, 3)

    def test_too_long(self):
        mailbox = self.seat.mailbox(str)
        self.seat.send(mailbox, "\n" * 1_398_300)
        journal = self.board.take_journal()
        with self.assertRaises(seryugo.TooLong):
            journal.text()

    def test_bad_arguments(self):
        text = self.history()
        for limit in (0, 2**32 + 1, 2**64 + 1):
            with self.assertRaises(seryugo.OutOfBounds):
                Switchboard.restore(text, limit)
        for parts in ("text", b"text", [bytearray(b"x")]):
            with self.assertRaises(TypeError):
                Switchboard.restore(parts)
