"""Switchboards whose journal is kept in a file: what survives, what is refused, and what fails."""

import errno
import json
import os
import resource
import shutil
import signal
import subprocess
import sys
import tempfile
import threading
import time
import unittest
from pathlib import Path
from unittest import mock

import seryugo
from seryugo import BoardClosed, FileBusy, FileFull, FileLost, NoSuch, WrongKind, _library

from . import LIMIT

# Grows the file page by page.
BY_PAGES = _library.FileOptions(0, 0, 4096)


def text_of(path):
    """The text of a journal's file: it ends before a byte 0, at a line end."""
    text = Path(path).read_bytes().partition(b"\0")[0]
    return text[: text.rfind(b"\n") + 1]


def run(program, *words, within=()):
    """Run a program in Python to its end, within this command, and return what it did."""
    path = os.pathsep.join([str(Path(seryugo.__file__).parent.parent), *sys.path])
    return subprocess.run(
        [*within, sys.executable, "-X", "dev", "-c", program, *words],
        env={**os.environ, "PYTHONPATH": path},
        stdout=subprocess.PIPE,
        stderr=subprocess.PIPE,
        universal_newlines=True,
        timeout=LIMIT,
    )


class InFolder(unittest.TestCase):
    def setUp(self):
        folder = tempfile.TemporaryDirectory()
        self.addCleanup(folder.cleanup)
        self.folder = Path(folder.name)
        self.path = str(self.folder / "letters.journal")

    def opened(self, options=BY_PAGES, limit=65_536):
        board = seryugo.Switchboard._open(self.path, limit, options)
        self.addCleanup(self.closed, board)
        return board

    def closed(self, board):
        try:
            board.close()
        except FileLost:
            pass

    def waiting(self, board, call):
        """Start a thread in a call that waits. Return what waits for its end, for its result."""
        ended = []

        def wait():
            try:
                ended.append(call())
            except seryugo.SeryugoError as error:
                ended.append(type(error))

        thread = threading.Thread(target=wait)
        thread.start()
        while thread.is_alive() and not board._room._parked:
            time.sleep(0.001)

        def end():
            thread.join(LIMIT)
            return ended[0]

        end.thread = thread
        return end


class Opened(InFolder):
    def test_a_program_goes_on(self):
        for count in range(3):
            with seryugo.open(self.path) as board, board.seat() as seat:
                self.assertEqual(board.recovered.is_new, count == 0)
                self.assertEqual(board.recovered.entries, board.entries)
                letters = seat.mailbox_again(0, str)
                self.assertEqual(len(letters), count)
                seat.send(letters, f"letter {count}")
        with seryugo.open(self.path) as board, board.seat() as seat:
            letters = board.mailbox(0, str)
            self.assertEqual(list(seat.iter(letters)), [f"letter {count}" for count in range(3)])
        self.assertEqual(text_of(self.path), Path(self.path).read_bytes())
        self.assertEqual(seryugo.Switchboard.restore([text_of(self.path) + b"end 7\n"]).entries, 7)

    def test_the_example(self):
        example = Path(__file__).parent.parent / "examples" / "durable.py"
        page = (Path(__file__).parent.parent / "README.md").read_text()
        self.assertIn(f"```python\n{example.read_text()}```\n", page)
        for entries in 3, 5:
            ended = run(f"import os; os.chdir({str(self.folder)!r})\n{example.read_text()}")
            self.assertEqual((ended.stdout, ended.stderr), ("Dear Ben\n", ""))
            self.assertEqual(text_of(self.path).count(b"\n"), entries + 1)

    def put_piece(self, is_sealed):
        """Write a file with sums, or without, as older versions wrote. Return its text."""
        board = seryugo.Switchboard()
        with board.seat() as seat:
            seat.send(seat.mailbox(str), "hello")
        journal = board.take_journal()
        text = journal.sealed_text(None)[0] if is_sealed else journal.text()
        Path(self.path).write_bytes(text)
        return text

    def test_pieces_become_short(self):
        for is_sealed in False, True:
            text = self.put_piece(is_sealed)
            with seryugo.open(self.path) as board, board.seat() as seat:
                found = board.recovered
                self.assertEqual((found.entries, found.kept), (2, len(text)))
                self.assertEqual((found.is_shortened, found.not_shortened), (True, None))
                self.assertEqual(seat.recv(seat.mailbox_again(0, str)), "hello")
            self.assertTrue(text_of(self.path).startswith(b"journal 2\nseat 0 mailbox: made 0\n"))
            self.assertEqual(text_of(self.path).count(b"\n"), 4)
            with seryugo.open(self.path) as board:
                self.assertFalse(board.recovered.is_shortened)
                self.assertEqual(board.entries, 3)
            self.assertEqual(os.listdir(self.folder), ["letters.journal"])

    def test_a_long_file_becomes_short(self):
        lengths = []
        for count in range(9):
            with seryugo.open(self.path, short_from=1_000) as board, board.seat() as seat:
                letters = seat.mailbox_again(0, int)
                self.assertEqual(len(letters), count)
                lengths.append((board.recovered.is_shortened, board.recovered.kept))
                seat.send(letters, 0)
                for number in range(10):
                    seat.send(letters, number)
                    seat.recv(letters)
        self.assertEqual([kept >= 1_000 for _, kept in lengths], [was for was, _ in lengths])
        self.assertGreater(sum(was for was, _ in lengths), 1)
        self.assertRaises(ValueError, seryugo.open, self.path, short_from=-1)
        self.assertRaises(TypeError, seryugo.open, self.path, short_from=1.5)
        with seryugo.open(self.path, short_from=2**70) as board:
            self.assertFalse(board.recovered.is_shortened)

    def test_pieces_are_gone_on_with(self):
        """Of a text with sums, or without, if another file keeps it from being exchanged."""
        precious = self.folder / "letters.journal.new"
        precious.write_bytes(b"precious")
        for is_sealed in False, True:
            text = self.put_piece(is_sealed)
            for entries in 2, 3:
                with seryugo.open(self.path) as board, board.seat() as seat:
                    self.assertEqual(board.recovered.entries, entries)
                    self.assertIn("in the way", board.recovered.not_shortened)
                    seat.mailbox_again(entries - 1, int)
            self.assertTrue(text_of(self.path).startswith(text))
            board = seryugo.Switchboard.restore([text_of(self.path)], is_torn_fine=True)
            self.assertEqual((board.entries, board.restored_from.sum is None), (4, not is_sealed))
        self.assertEqual(precious.read_bytes(), b"precious")

    def test_each_call_is_kept_as_it_returns(self):
        board = self.opened()
        seat, other = board.seat(), board.seat()
        self.addCleanup(seat.leave)
        self.addCleanup(other.leave)
        mailbox, variable = seat.mailbox(str), seat.mvar(int, 5)
        channel = seat.channel(bytes)
        port = seat.port(channel)
        for call, count in (
            (lambda: seat.send(mailbox, "\u00fc\n "), 1),
            (lambda: seat.recv(mailbox), 1),
            (lambda: seat.recv_poll(mailbox), 1),
            (lambda: seat.multicast(channel, bytes(range(256))), 1),
            (lambda: seat.recv(port), 1),
            (lambda: seat.swap(variable, -70_000), 1),
            (lambda: seat.put(variable, 3), 1),
            (lambda: seat.take(variable), 1),
            (lambda: seat.copy_port(port), 1),
            (lambda: seat.close_port(port), 1),
            (lambda: self.assertRaises(TimeoutError, seat.get, seat.ivar(int), timeout=0), 1),
            (lambda: seat.ivar_again(6, int), 1),
            (lambda: seat.ivar_again(6, int), 0),
        ):
            before = text_of(self.path)
            call()
            lines = text_of(self.path)[len(before) :].count(b"\n")
            self.assertEqual((lines, text_of(self.path).count(b"\n")), (count, board.entries + 1))

    def test_messages_of_each_type(self):
        """Also those that the program itself turns into bytes."""
        sent = {str: "a b\n\0\u20ac", bytes: b"\0\xff" * 500, int: -(2**70)}
        own = {"to": ["Ben", None], "count": 2}
        with seryugo.open(self.path) as board, board.seat() as seat:
            for number, (of, message) in enumerate(sent.items()):
                seat.send(seat.mailbox_again(number, of), message)
            seat.put(seat.mvar_again(3, bytes), json.dumps(own).encode())
        with seryugo.open(os.fsencode(self.path)) as board, board.seat() as seat:
            for number, (of, message) in enumerate(sent.items()):
                self.assertEqual(seat.recv(seat.mailbox_again(number, of)), message)
            self.assertEqual(json.loads(seat.take(board.mvar(3, bytes))), own)

    def test_the_limit_fails_no_call(self):
        board = self.opened(limit=1)
        with board.seat() as seat:
            letters = seat.mailbox(int)
            for number in range(40):
                seat.send(letters, number)
        board.close()
        board = self.opened(limit=3)
        with board.seat() as seat:
            letters = board.mailbox(0, int)
            self.assertEqual([seat.recv(letters) for _ in range(40)], list(range(40)))
        self.assertEqual((board.entries, board.limit), (81, 3))

    def test_what_a_kill_left_is_cut_off(self):
        self.opened().close()
        for torn, is_saved in (b"seat 0 mail", False), (b"\0" + b"y" * 4_300_000, True):
            with open(self.path, "ab") as file:
                file.write(torn)
            board = self.opened()
            found = board.recovered
            self.assertEqual((found.kept, found.cut_off, found.lines), (10, len(torn), 1))
            self.assertEqual(found.saved is not None, is_saved)
            if is_saved:
                self.assertEqual(Path(found.saved).read_bytes(), torn)
            board.close()
            self.assertEqual(Path(self.path).read_bytes(), b"journal 2\n")

    def test_only_the_file_cuts_its_journal(self):
        board = self.opened()
        with board.seat() as seat:
            seat.send(seat.mailbox(str), "hello")
        before = text_of(self.path)
        for call in (
            board.keep,
            board.cut,
            board.cut_open,
            board.take_journal,
            board.take_journal_open,
            board.compact_and_cut,
            lambda: board.compact_with(self.fail),
        ):
            self.assertRaises(seryugo.KeptInFile, call)
        self.assertEqual(len(board.compact()), 2)
        self.assertEqual(text_of(self.path), before)

    def test_words_that_are_no_options(self):
        for seconds in (0, -1, float("nan"), float("inf")):
            with self.assertRaises(ValueError):
                seryugo.open(self.path, sync_every=seconds)
        with self.assertRaises(ValueError):
            seryugo.open(self.path + "\0x")
        with self.assertRaises(TypeError):
            seryugo.open(self.path, when_full=seryugo.drop_entries)
        for limit in (0, 2**32 + 1):
            with self.assertRaises(seryugo.OutOfBounds):
                seryugo.open(self.path, limit)
        self.assertEqual(os.listdir(self.folder), [])
        seryugo.open(Path(self.path), 5, sync_every=None).close()

    def interrupted(self, name, is_made):
        """Have one call of the library end by Ctrl-C, before it is made or as it returned."""
        call, calls = getattr(_library, name), []

        def interrupted(*arguments):
            calls.append(arguments)
            code = call(*arguments) if is_made or len(calls) > 1 else None
            if len(calls) == 1:
                raise KeyboardInterrupt
            return code

        return mock.patch.object(_library, name, interrupted)

    def test_ctrl_c_loses_nothing(self):
        board = self.opened(limit=2)
        with board.seat() as seat:
            letters = seat.mailbox(int)
            for number, is_made in enumerate([False, True] * 3):
                with self.interrupted("file_note", is_made), self.assertRaises(KeyboardInterrupt):
                    seat.send(letters, number)
                self.assertEqual(text_of(self.path).count(b"\n"), number + 3)
        board.close()
        with seryugo.open(self.path) as board, board.seat() as seat:
            letters = board.mailbox(0, int)
            self.assertEqual([seat.recv(letters) for _ in range(6)], list(range(6)))

    def test_ctrl_c_leaves_no_file_open(self):
        for is_made in False, True:
            board = self.opened()
            with self.interrupted("file_sync", is_made):
                self.assertRaises(KeyboardInterrupt, board.close)
                self.assertRaises(BoardClosed, board.seat)
                board.close()
        with self.interrupted("file_close", True):
            self.assertRaises(KeyboardInterrupt, self.opened().close)
        with self.interrupted("file_open", False):
            self.assertRaises(KeyboardInterrupt, seryugo.open, self.path)
        with self.interrupted("file_open", True), self.assertWarns(ResourceWarning):
            self.assertRaises(KeyboardInterrupt, seryugo.open, self.path)
        self.opened()

    def test_signals_at_random_moments(self):
        class Signalled(Exception):
            pass

        def handler(number, frame):
            raise Signalled

        board, returned = self.opened(limit=2), []
        before = signal.signal(signal.SIGALRM, handler)
        self.addCleanup(signal.signal, signal.SIGALRM, before)
        with board.seat() as seat:
            letters = seat.mailbox(int)
            for number in range(300):
                try:
                    signal.setitimer(signal.ITIMER_REAL, 1e-6 * (number % 50) + 1e-6)
                    seat.send(letters, number)
                    returned.append(number)
                    signal.setitimer(signal.ITIMER_REAL, 0)
                except Signalled:
                    pass
        board.close()
        with seryugo.open(self.path) as board, board.seat() as seat:
            letters = board.mailbox(0, int)
            kept = [seat.recv(letters) for _ in range(len(letters))]
        self.assertEqual(sorted(set(kept)), kept)
        self.assertLessEqual(set(returned), set(kept))


class Again(InFolder):
    def boards(self):
        yield seryugo.Switchboard()
        yield self.opened()

    def test_each_kind(self):
        for board in self.boards():
            with board.seat() as seat:
                calls = seat.mailbox_again, seat.channel_again, seat.ivar_again, seat.mvar_again
                finds = board.mailbox, board.channel, board.ivar, board.mvar
                for number, (call, find) in enumerate(zip(calls, finds)):
                    self.assertRaises(NoSuch, call, number + 1, int)
                    for _ in range(2):
                        made = call(number, int)
                        self.assertEqual(repr(made), repr(find(number, int)))
                        self.assertEqual(board.entries, number + 1)
                    self.assertRaises(TypeError, call, number, str)
                    self.assertRaises(WrongKind, calls[number - 1], number, int)
                for wrong in -1, 2**64, 6:
                    self.assertRaises(NoSuch, seat.mailbox_again, wrong, int)
                self.assertEqual(board.entries, 4)

    def test_threads_get_one_object(self):
        for board in self.boards():
            barrier, got = threading.Barrier(8), []

            def find():
                with board.seat() as seat:
                    for number in range(20):
                        barrier.wait(LIMIT)
                        seat.send(seat.mailbox_again(number, int), number)
                        got.append(number)

            threads = [threading.Thread(target=find) for _ in range(8)]
            for thread in threads:
                thread.start()
            for thread in threads:
                thread.join()
            self.assertEqual((len(got), board.entries), (160, 180))
            for number in range(20):
                self.assertEqual(len(board.mailbox(number, int)), 8)


class Refused(InFolder):
    def refused(self, bytes_there, error, words=""):
        Path(self.path).write_bytes(bytes_there)
        with self.assertRaisesRegex(error, words) as told:
            seryugo.open(self.path)
        self.assertEqual(Path(self.path).read_bytes(), bytes_there)
        self.assertEqual(os.listdir(self.folder), ["letters.journal"])
        return told.exception

    def test_what_is_no_such_journal(self):
        for other in b'{"precious": 1}', Path(sys.executable).read_bytes()[:5000], bytes(4096):
            self.refused(other, seryugo.NoJournal, "letters.journal: ")
        self.refused(b"journal 5\nx\n", seryugo.OtherVersion, "letters.journal: ")
        self.refused(b"journal 1\nend 0\n", seryugo.OtherMessages, "numbers")
        self.refused(b"journal 2\nfrom 3\nend 3\n", seryugo.BeginsLater, "before the cut")

    def test_a_journal_that_was_changed(self):
        good = b"journal 2\nseat 0 mailbox: made 0\nseat 0 send 0 =a: done\n"
        error = self.refused(good + b"what\n", seryugo.Fault, "on line 4: .*letters.journal")
        self.assertEqual(error.line, 4)
        error = self.refused(good + b"seat 0 recv 0: =b\n", seryugo.Unlawful)
        self.assertEqual(error.position, 2)

    def test_sums_show_each_changed_byte(self):
        for run in range(3):
            with seryugo.open(self.path, sealed=True) as board, board.seat() as seat:
                self.assertEqual(board.recovered.entries, run + (run > 0))
                seat.send(seat.mailbox_again(0, str), "hello")
        text = text_of(self.path)
        self.assertEqual((text[:10], text.count(b"\nend ")), (b"journal 4\n", 3))
        for place in range(10, len(text), 7):
            changed = bytearray(text)
            changed[place] ^= 1 if text[place] != 10 else 32
            Path(self.path).write_bytes(changed)
            with self.assertRaises((seryugo.Fault, seryugo.Unlawful)):
                seryugo.open(self.path, sealed=True)
            self.assertEqual(Path(self.path).read_bytes(), changed)

    def test_a_file_that_is_open(self):
        board = self.opened()
        with self.assertRaisesRegex(FileBusy, "letters.journal: "):
            seryugo.open(self.path)
        ended = run("import seryugo, sys; seryugo.open(sys.argv[1])", self.path)
        self.assertIn("seryugo.errors.FileBusy: ", ended.stderr)
        board.close()
        self.assertEqual(Path(self.path).read_bytes(), b"journal 2\n")

    def test_the_system_refuses(self):
        with self.assertRaises(OSError) as told:
            seryugo.open(str(self.folder / "no folder" / "x"))
        self.assertIs(type(told.exception), seryugo.FileFailed)
        self.assertEqual(told.exception.errno, errno.ENOENT)
        self.assertIs(type(told.exception.__cause__), FileNotFoundError)
        self.assertIn("no folder", str(told.exception))
        self.assertRaises(seryugo.NoJournal, seryugo.open, self.folder)

    def test_a_message_that_is_too_long(self):
        board = self.opened()
        with board.seat() as seat, board.seat() as other:
            letters, variable = seat.mailbox(bytes), seat.mvar(bytes, bytes(200_000))
            end = self.waiting(board, lambda: other.recv(letters))
            self.assertRaises(seryugo.TooLong, seat.send, letters, bytes(1_398_001))
            self.assertRaises(seryugo.TooLong, seat.swap, variable, bytes(1_198_001))
            self.assertEqual(len(seat.swap(variable, bytes(171_000))), 200_000)
            seat.send(letters, b"\n" * 1_398_000)
            self.assertEqual(end(), b"\n" * 1_398_000)

    def test_a_full_disk(self):
        """The call isn't made, nobody else's call fails, and later it is made."""
        limits = resource.getrlimit(resource.RLIMIT_FSIZE)
        self.addCleanup(resource.setrlimit, resource.RLIMIT_FSIZE, limits)
        board = self.opened()
        with board.seat() as seat, board.seat() as other:
            letters, parcels = seat.mailbox(str), seat.mailbox(bytes)
            end = self.waiting(board, lambda: other.recv(letters))
            resource.setrlimit(resource.RLIMIT_FSIZE, (9_000_000, limits[1]))
            with self.assertRaises(FileFull) as told:
                for count in range(100):
                    seat.send(parcels, bytes(100_000))
            self.assertEqual((told.exception.errno, len(parcels)), (errno.EFBIG, count))
            self.assertEqual(told.exception.__cause__.errno, errno.EFBIG)
            # Once it has taken the second of these, its call was made again after the first.
            for _ in range(2):
                board._room.recover()
                while end.thread.is_alive() and not other._bell.locked():
                    time.sleep(0.001)
            self.assertTrue(end.thread.is_alive())
            resource.setrlimit(resource.RLIMIT_FSIZE, limits)
            seat.send(letters, "Dear Ben")
            self.assertEqual(end(), "Dear Ben")

    def test_no_space_is_left(self):
        """On a small disk that nobody else sees."""
        mounts = 'mount -t tmpfs -o size=12m tmpfs "$1" && shift && exec "$@"'
        command = ["unshare", "-m", "sh", "-c", mounts, "sh", str(self.folder)]
        if os.getuid() != 0 or subprocess.run([*command, "true"]).returncode != 0:
            self.skipTest("only root can mount a small disk")
        program = """if True:
            import seryugo, sys
            board = seryugo.open(sys.argv[1])
            with board.seat() as seat:
                parcels = seat.mailbox(bytes)
                while True:
                    seat.send(parcels, bytes(100_000))
            """
        ended = run(program, self.path, within=command)
        self.assertIn("OSError: [Errno 28] No space left on device: ", ended.stderr)
        refused = "seryugo.errors.FileFull: [Errno 28] posix_fallocate: No space left on device: "
        self.assertIn(refused, ended.stderr)

    def test_a_close_that_fails_says_why(self):
        """The zeros at the file's end can't be cut off."""
        source = Path(__file__).parents[3] / "tests" / "c" / "faults.c"
        if not source.exists() or shutil.which("cc") is None:
            self.skipTest("there is nothing by which calls of the system fail")
        faults = str(self.folder / "faults.so")
        subprocess.run(["cc", "-shared", "-fPIC", source, "-ldl", "-o", faults], check=True)
        ended = run(
            "import seryugo, sys\n"
            "with seryugo.open(sys.argv[1]) as board, board.seat() as seat:\n"
            "    seat.mailbox(str)",
            self.path,
            within=["env", f"LD_PRELOAD={faults}", "FAULT=ftruncate:2:fail:all"],
        )
        self.assertIn("OSError: [Errno 5] Input/output error: ", ended.stderr)
        self.assertIn("seryugo.errors.FileLost: [Errno 5] ", ended.stderr)


if __name__ == "__main__":
    unittest.main()
