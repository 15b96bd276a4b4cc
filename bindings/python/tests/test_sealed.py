"""Journals with sums: each damage is seen, and torn ones are gone on from."""

import unittest

from seryugo import Fault, Switchboard, TooLong, Torn, Unlawful, ValidPrefix


def pieces():
    """Journals of one switchboard, of which one has no entry."""
    board = Switchboard(1_000)
    with board.seat() as ann, board.seat() as ben:
        mailbox, channel = ann.mailbox(str), ann.channel(str)
        port = ben.port(channel)
        yield board.take_journal()
        yield board.take_journal()
        for number in range(4):
            ann.send(mailbox, f"letter {number}")
            ann.multicast(channel, "\u00fc" * number)
            ben.recv(port)
        yield board.take_journal()
        ben.recv(mailbox)
        ben.mvar(int, 5)
        yield board.take_journal()


def texts():
    """The text of each, with its sum."""
    after = None
    for journal in pieces():
        text, after = journal.sealed_text(after)
        yield text, after


class Sealed(unittest.TestCase):
    def setUp(self):
        made = list(texts())
        self.texts = [text for text, _ in made]
        self.sums = [last for _, last in made]
        self.text = b"".join(self.texts)

    def test_a_text_is_read_back(self):
        board = Switchboard.restore([self.text])
        self.assertEqual(board.entries, 17)
        self.assertEqual(board.restored_from, ValidPrefix(17, len(self.text), b"", self.sums[-1]))
        self.assertTrue(self.text.endswith(f"end 17 {self.sums[-1].hex()}\n".encode()))
        self.assertTrue(self.text.startswith(b"journal 4\n"))
        plain = [journal.text() for journal in pieces()]
        self.assertIsNone(Switchboard.restore(plain).restored_from.sum)
        self.assertIsNone(Switchboard().restored_from)
        for mixed in ([*self.texts[:1], *plain[1:]], [*plain[:1], *self.texts[1:]]):
            with self.assertRaises(Fault):
                Switchboard.restore(mixed)

    def test_each_changed_byte_is_seen(self):
        for at in range(len(self.text) - 1):
            changed = bytearray(self.text)
            changed[at] ^= 1 << at % 7
            with self.subTest(at=at), self.assertRaises((Fault, Unlawful)):
                Switchboard.restore([bytes(changed)])
        with self.assertRaises(Torn):
            Switchboard.restore([self.text[:-1]])

    def test_a_piece_that_is_left_out_doubled_or_exchanged_is_seen(self):
        count = len(self.texts)
        wrong = [[*range(at), *range(at + 1, count)] for at in range(count - 1)]
        wrong += [[*range(at + 1), *range(at, count)] for at in range(count)]
        wrong += [[1, 0, 2, 3], [0, 2, 1, 3], [0, 1, 3, 2]]
        for order in wrong:
            with self.subTest(order=order), self.assertRaises(Fault):
                Switchboard.restore(self.texts[at] for at in order)
        # Only the sum that somebody kept says that the last piece is left out.
        shorter = Switchboard.restore(self.texts[:-1])
        self.assertNotEqual(shorter.restored_from.sum, self.sums[-1])

    def test_a_text_may_end_anywhere(self):
        text = b"".join(self.texts[:3])
        for end in range(len(text) + 1):
            size = 1 + end % 90
            torn = [text[at : min(end, at + size)] for at in range(0, end, size)]
            board = Switchboard.restore(torn, is_torn_fine=True)
            kept = board.restored_from
            mended = text[: kept.bytes] + kept.ending
            self.assertEqual((kept.sum is None, kept.entries), (kept.bytes == 0, board.entries))
            with board.seat() as seat:
                seat.mailbox(int)
            piece, last = board.take_journal().sealed_text(kept.sum)
            again = Switchboard.restore([mended, piece])
            self.assertEqual((again.entries, again.restored_from.sum), (kept.entries + 1, last))

    def test_a_plain_text_may_end_anywhere(self):
        text = b"".join(journal.text() for journal in pieces())
        for end in range(len(text) + 1):
            board = Switchboard.restore([text[:end]], is_torn_fine=True)
            self.assertIsNone(board.restored_from.sum)
            mended = text[: board.restored_from.bytes] + board.restored_from.ending
            with board.seat() as seat:
                seat.mailbox(int)
            again = Switchboard.restore([mended, board.take_journal().text()])
            self.assertEqual(again.entries, board.restored_from.entries + 1)

    def test_sums_are_32_bytes(self):
        journal = next(pieces())
        for wrong, error in ((b"", ValueError), (b"x" * 33, ValueError), ("x" * 32, TypeError)):
            with self.assertRaises(error):
                journal.sealed_text(wrong)

    def test_a_message_may_be_too_long(self):
        board = Switchboard(10)
        with board.seat() as seat:
            seat.send(seat.mailbox(bytes), bytes(2_000_000))
        with self.assertRaises(TooLong):
            board.take_journal().sealed_text(None)


if __name__ == "__main__":
    unittest.main()
