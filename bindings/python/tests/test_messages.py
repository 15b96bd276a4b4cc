"""Messages of each type."""

import unittest

import seryugo
from seryugo import Switchboard


class Messages(unittest.TestCase):
    def setUp(self):
        self.board = Switchboard(10_000)
        self.seat = self.board.seat()
        self.addCleanup(self.seat.leave)

    def goes_through(self, of, message):
        mailbox = self.seat.mailbox(of)
        self.seat.send(mailbox, message)
        received = self.seat.recv(mailbox)
        self.assertEqual(received, message)
        self.assertIs(type(received), of)

    def test_bytes(self):
        for length in (0, 1, 13, 14, 15, 31, 32, 100, 4096):
            self.goes_through(bytes, bytes(i * 7 % 256 for i in range(length)))
        self.goes_through(bytes, b"\0a\0")

    def test_str(self):
        for message in ("", "hello", "a\0b", "äöü €", "\U0001f600" * 10):
            self.goes_through(str, message)

    def test_int(self):
        edges = (0, 1, -1, 127, 128, -128, -129, 255, 256, 2**63, 2**64, -(2**64), 10**5000)
        for message in edges:
            self.goes_through(int, message)

    def test_a_megabyte(self):
        message = bytes(range(256)) * 4096
        self.goes_through(bytes, message)
        self.goes_through(str, "0123456789abcdef" * 65_536)
        variable = self.seat.mvar(bytes, message)
        self.assertEqual(self.seat.swap(variable, message[1:]), message)
        self.assertEqual(self.seat.take(variable), message[1:])

    def test_wrong_types(self):
        wrong = {
            bytes: ("a", 1, bytearray(b"a"), None),
            str: (b"a", 1, None),
            int: ("1", 1.0, b"1", None),
        }
        for of, messages in wrong.items():
            mailbox, channel = self.seat.mailbox(of), self.seat.channel(of)
            variable = self.seat.mvar(of)
            before = self.board.entries
            for message in messages:
                calls = (
                    lambda: self.seat.send(mailbox, message),
                    lambda: self.seat.multicast(channel, message),
                    lambda: self.seat.put(variable, message),
                    lambda: self.seat.swap(variable, message),
                )
                for call in calls:
                    with self.assertRaises(TypeError):
                        call()
            self.assertEqual(self.board.entries, before)

    def test_wrong_type_of_an_object(self):
        for of in (float, bool, list, None, "str"):
            with self.assertRaises(TypeError):
                self.seat.mailbox(of)
        self.assertEqual(self.board.entries, 0)

    def test_a_subclass_that_tells_another_length(self):
        class Bytes(bytes):
            def __len__(self):
                return 400

        class Str(str):
            def encode(self, *arguments):
                return Bytes(b"other")

        class Int(int):
            def bit_length(self):
                return 4_000

            def to_bytes(self, *arguments, **names):
                return Bytes(b"other")

        for of, message in (bytes, Bytes(b"abc")), (str, Str("abc")), (int, Int(5)):
            mailbox = self.seat.mailbox(of)
            variable = self.seat.mvar(of, message)
            self.seat.send(mailbox, message)
            for received in self.seat.recv(mailbox), self.seat.swap(variable, message):
                self.assertEqual((type(received), received == message), (of, True))
        text = Bytes(b"journal 2\nseat 0 mailbox: made 0\nend 1\n")
        self.assertEqual(Switchboard.restore([text]).entries, 1)

    def test_a_lone_surrogate(self):
        mailbox = self.seat.mailbox(str)
        with self.assertRaises(UnicodeEncodeError):
            self.seat.send(mailbox, "\ud800")
        self.assertEqual(self.board.sent(mailbox), 0)

    def test_bytes_that_are_no_str(self):
        board = Switchboard.restore(
            [
                b"journal 2\n",
                b"seat 0 mailbox: made 0\n",
                b"seat 0 send 0 =%FF: done\n",
                b"seat 0 mvar =%FE: made 1\n",
                b"end 3\n",
            ]
        )
        mailbox, variable = board.mailbox(0, str), board.mvar(1, str)
        with board.seat() as seat:
            for read, message in (
                (lambda: board.held(variable), b"\xfe"),
                (lambda: seat.get_poll(variable), b"\xfe"),
                (lambda: seat.recv(mailbox), b"\xff"),
            ):
                with self.assertRaisesRegex(seryugo.Unreadable, "can't decode byte") as refused:
                    read()
                self.assertEqual(refused.exception.object, message)
            self.assertEqual(len(mailbox), 0)
            seat.send(mailbox, "hello")
        messages = [entry.reply.message for entry in board.take_journal()]
        self.assertEqual(messages, [b"\xfe", b"\xff", None])

    def test_the_type_goes_on(self):
        channel = self.seat.channel(int)
        port = self.seat.port(channel)
        copy = self.seat.copy_port(port)
        self.assertEqual((channel.type, port.type, copy.type), (int, int, int))
        with self.assertRaises(seryugo.Stalled):
            self.seat.recv(port)
