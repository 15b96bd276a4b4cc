"""How switchboards with a journal in a file end: by close, by kills, in forks, in lost files."""

import asyncio
import gc
import multiprocessing
import os
import random
import re
import signal
import subprocess
import sys
import threading
import time
import unittest
from pathlib import Path
from unittest import mock

import seryugo
from seryugo import BoardClosed, FileBusy, FileLost, Forked, _library

from . import LIMIT
from .test_opened import InFolder, run, text_of

# Writes lines by pwrite(2), so that another program may cut the file without a SIGBUS.
BY_WRITES = _library.FileOptions(0, 1, 0)


class Closing(InFolder):
    def test_after_close_each_call_fails(self):
        board = self.opened()
        seat, other = board.seat(), board.seat()
        letters, variable = seat.mailbox(str), seat.mvar(int)
        end = self.waiting(board, lambda: other.recv(letters))
        board.sync()
        board.close()
        self.assertIs(end(), BoardClosed)
        for call in (
            lambda: seat.send(letters, "late"),
            lambda: seat.recv(letters, timeout=0),
            lambda: seat.recv_poll(letters),
            lambda: seat.swap(variable, 5),
            lambda: seat.mailbox(str),
            lambda: seat.mailbox_again(0, str),
            lambda: asyncio.run(seat.recv_async(letters)),
            lambda: len(letters),
            lambda: board.held(variable),
            lambda: board.entries,
            board.seat,
            board.compact,
            board.sync,
        ):
            self.assertRaises(BoardClosed, call)
        seat.leave()
        other.leave()
        board.close()
        self.assertEqual(text_of(self.path).count(b"\n"), 3)

    def test_a_task_that_waits_as_it_is_closed(self):
        async def parked():
            task = asyncio.ensure_future(ben.recv_async(letters))
            while not board._room._parked:
                await asyncio.sleep(0)
            return task

        async def wait():
            task = await parked()
            ann.send(letters, "one")
            self.assertEqual(await task, "one")
            task = await parked()
            task.cancel()
            with self.assertRaises(asyncio.CancelledError):
                await task
            task = await parked()
            board.close()
            with self.assertRaises(BoardClosed):
                await task

        board = self.opened()
        ann, ben = board.seat(), board.seat()
        letters = ben.mailbox(str)
        asyncio.run(wait())

    def test_threads_close_and_sync_at_once(self):
        board, failed = self.opened(), []
        barrier = threading.Barrier(8)

        def work(calls):
            try:
                with board.seat() as seat:
                    barrier.wait(LIMIT)
                    for _ in range(20):
                        seat.send(seat.mailbox_again(0, str), "x")
                        board.sync()
                    calls()
            except BoardClosed:
                pass
            except BaseException as error:
                failed.append(error)

        threads = [threading.Thread(target=work, args=(board.close,)) for _ in range(8)]
        for thread in threads:
            thread.start()
        for thread in threads:
            thread.join()
        self.assertEqual(failed, [])
        board.close()

    def test_a_switchboard_that_is_dropped_is_closed(self):
        board = seryugo.open(self.path)
        seat = board.seat()
        seat.send(seat.mailbox(str), "hello")
        seat.leave()
        del board
        self.assertRaises(FileBusy, seryugo.open, self.path)
        with self.assertWarnsRegex(ResourceWarning, "letters.journal' was not closed"):
            del seat
            gc.collect()
        self.assertEqual(text_of(self.path), Path(self.path).read_bytes())
        self.assertEqual(self.opened().entries, 2)

    def test_the_end_of_a_program_closes_it(self):
        program = """if True:
            import seryugo, sys, threading
            board = seryugo.open(sys.argv[1])
            seat, other = board.seat(), board.seat()
            letters = seat.mailbox_again(0, str)
            threading.Thread(target=other.recv, args=(letters,), daemon=True).start()
            while not board._room._parked: pass
            seat.multicast(seat.channel(str), "hello")
        """
        ended = run(program, self.path)
        self.assertEqual((ended.returncode, ended.stdout), (0, ""))
        self.assertIn("letters.journal' was not closed", ended.stderr)
        self.assertNotIn("BoardClosed", ended.stderr)
        self.assertEqual(text_of(self.path), Path(self.path).read_bytes())
        self.assertEqual(self.opened().entries, 3)


class Lost(InFolder):
    def lost(self):
        """A switchboard whose file another program cuts, with a seat and a thread that waits."""
        board = self.opened(BY_WRITES)
        seat, other = board.seat(), board.seat()
        self.addCleanup(seat.leave)
        self.addCleanup(other.leave)
        letters = seat.mailbox(str)
        end = self.waiting(board, lambda: other.recv(letters))
        os.truncate(self.path, 5)
        return board, seat, letters, end

    def test_each_call_fails_and_who_waits_wakes(self):
        board, seat, letters, end = self.lost()
        with self.assertRaisesRegex(FileLost, "letters.journal: the file was cut by others"):
            board.sync()
        self.assertIs(end(), FileLost)
        self.assertRaises(FileLost, seat.send, letters, "late")
        self.assertRaises(FileLost, seat.recv_poll, letters)
        self.assertRaises(OSError, seat.mailbox, str)
        self.assertEqual(len(letters), 0)
        self.assertRaises(FileLost, board.close)
        board.close()
        self.assertRaises(BoardClosed, seat.send, letters, "late")

    def test_a_call_that_fails_wakes_who_waits(self):
        board, seat, letters, end = self.lost()
        self.assertEqual(_library.file_sync(board._file._at), FileLost.code)
        self.assertRaises(FileLost, seat.send, letters, "late")
        self.assertIs(end(), FileLost)

    def test_a_failure_that_nobody_can_catch_is_told(self):
        board = seryugo.Switchboard._open(self.path, 10, BY_WRITES)
        with board.seat() as seat:
            seat.mailbox(str)
        os.truncate(self.path, 5)
        with mock.patch.object(sys, "unraisablehook") as told:
            del board, seat
            gc.collect()
        self.assertIs(told.call_args[0][0].exc_type, FileLost)
        program = """if True:
            import os, seryugo, sys
            board = seryugo.Switchboard._open(
                sys.argv[1], 10, seryugo._library.FileOptions(0, 1, 0))
            board.seat().mailbox(str)
            os.truncate(sys.argv[1], 5)
        """
        os.remove(self.path)
        self.assertIn("FileLost: ", run(program, self.path).stderr)


class Forks(InFolder):
    def in_child(self, action):
        """Run this in a forked child, and return its exit status."""
        child = os.fork()
        if child == 0:
            status = 1
            try:
                # A child that waits for a lock is killed.
                signal.alarm(LIMIT)
                action()
                status = 0
            finally:
                os._exit(status)
        return os.waitpid(child, 0)[1]

    def test_a_child_fails_and_the_parent_goes_on(self):
        board = self.opened()
        seat = board.seat()
        letters = seat.mailbox(str)

        def call():
            for forked in (
                lambda: seat.send(letters, "from the child"),
                lambda: seat.recv(letters, timeout=1),
                lambda: seat.mailbox_again(0, str),
                lambda: len(letters),
                board.seat,
                board.sync,
            ):
                self.assertRaises(Forked, forked)
            seat.leave()
            board.close()
            board._room._end()
            gc.collect()

        def locked():
            with board._room.lock, board._file._lock:
                has_lock.set()
                may_end.wait()

        has_lock, may_end = threading.Event(), threading.Event()
        thread = threading.Thread(target=locked)
        thread.start()
        has_lock.wait()
        self.assertEqual(self.in_child(call), 0)
        may_end.set()
        thread.join()
        seat.send(letters, "from the parent")
        seat.leave()
        board.close()
        with seryugo.open(self.path) as board, board.seat() as seat:
            self.assertEqual(seat.recv(board.mailbox(0, str)), "from the parent")
            self.assertEqual(board.entries, 3)

    def test_a_child_may_have_a_file_of_its_own(self):
        board = self.opened()

        def call():
            with self.assertRaises(FileBusy):
                seryugo.open(self.path)
            with seryugo.open(self.path + ".child") as own, own.seat() as seat:
                seat.mailbox(str)

        self.assertEqual(self.in_child(call), 0)
        board.close()
        self.assertEqual(text_of(self.path + ".child").count(b"\n"), 2)

    def test_a_process_of_multiprocessing(self):
        with self.opened() as board, board.seat() as seat:
            letters = seat.mailbox(str)

            def call():
                self.assertRaises(Forked, seat.send, letters, "x")

            process = multiprocessing.get_context("fork").Process(target=call)
            process.start()
            process.join(LIMIT)
            self.assertEqual(process.exitcode, 0)


def work(path, name):
    """Make calls in four threads, and write each to standard output as soon as it returned."""
    # Lines are mapped, or written, and the file grows page by page.
    options = _library.FileOptions(20, int(name) // 2 % 2, 4096)
    board = seryugo.Switchboard._open(path, 1_000, options)
    seats = [board.seat() for _ in range(4)]

    def call(me, seat):
        mailboxes = [seat.mailbox_again(number, str) for number in range(4)]
        for at in range(10**9):
            message = f"{name}.{me}.{at}"
            seat.send(mailboxes[me], message + "\n." * (at % 50))
            os.write(1, f"sent {message}\n".encode())
            got = seat.recv_poll(mailboxes[(me + at) % 4])
            if got is not None:
                os.write(1, f"got {got.partition(chr(10))[0]}\n".encode())

    for number in range(4):
        seats[0].mailbox_again(number, str)
    threads = [threading.Thread(target=call, args=words) for words in enumerate(seats)]
    for thread in threads:
        thread.start()
    for thread in threads:
        thread.join()


class Kills(InFolder):
    """SERYUGO_KILLS says how many kills there are."""

    def killed(self, name, told, wanted):
        """Run `work` until it has told that many bytes, and kill it."""
        program = "import sys; from tests.test_killed import work; work(*sys.argv[1:])"
        path = os.pathsep.join([str(Path(__file__).parent.parent), *sys.path])
        with open(told, "ab") as out, open(self.folder / "errors", "wb") as errors:
            process = subprocess.Popen(
                [sys.executable, "-c", program, self.path, name],
                env={**os.environ, "PYTHONPATH": path},
                stdout=out,
                stderr=errors,
            )
        wanted += told.stat().st_size
        while told.stat().st_size < wanted and process.poll() is None:
            time.sleep(0.001)
        process.kill()
        self.assertEqual(process.wait(), -signal.SIGKILL, (self.folder / "errors").read_text())

    def journal(self):
        """What was sent, and what was received, by the file's lines."""
        text = text_of(self.path).decode()
        sent = re.findall(r"^seat \d+ send \d =([\d.]+)\S*: done$", text, re.MULTILINE)
        got = re.findall(r"^seat \d+ poll \d: =([\d.]+)\S*$", text, re.MULTILINE)
        return sent, got

    def calls(self, board):
        """Yield after each call, also after one that was woken, and after one that was awaited."""

        def send():
            while not board._room._parked:
                time.sleep(0.001)
            other.send(mailbox, "two")

        seat, other = board.seat(), board.seat()
        yield (mailbox := seat.mailbox_again(0, str))
        yield seat.send(mailbox, "one")
        yield seat.recv(mailbox)
        for recv in (seat.recv, lambda source: asyncio.run(seat.recv_async(source))):
            thread = threading.Thread(target=send)
            thread.start()
            yield recv(mailbox), thread.join()
        yield seat.recv_poll(mailbox)
        yield seat.multicast(seat.channel(bytes), bytes(300_000))
        yield (variable := seat.mvar(int, 5))
        yield seat.swap(variable, 6)
        yield self.assertRaises(TimeoutError, seat.recv, mailbox, timeout=0)

    def test_a_kill_just_as_a_call_returned(self):
        for count in range(1, 11):
            told, telling = os.pipe()
            child = os.fork()
            if child == 0:
                signal.alarm(LIMIT)
                board = seryugo.open(f"{self.path}.{count}")
                calls = self.calls(board)
                for _ in range(count):
                    next(calls)
                os.write(telling, str(board.entries).encode())
                os.kill(os.getpid(), signal.SIGKILL)
            os.close(telling)
            self.assertEqual(os.waitpid(child, 0)[1], signal.SIGKILL)
            with open(told, "rb") as file, seryugo.open(f"{self.path}.{count}") as board:
                self.assertEqual(board.recovered.entries, int(file.read()))
                self.assertGreaterEqual(board.entries, count)

    def test_nothing_that_returned_is_lost_or_doubled(self):
        chosen = random.Random()
        for name in range(int(os.environ.get("SERYUGO_KILLS", "4"))):
            if name % 10 == 0:
                # Else a long run would read longer and longer files.
                self.path, told = str(self.folder / f"{name}.journal"), self.folder / f"{name}.told"
                told.touch()
            # Each second one is killed while it opens the file, or soon after.
            wanted = chosen.choice([0, 1] if name % 2 else [500, 2_000, 5_000])
            self.killed(str(name), told, wanted)
            sent, got = self.journal()
            lines = [line.split() for line in told.read_text().split("\n")[:-1]]
            for what, found in ("sent", sent), ("got", got):
                returned = [words[1] for words in lines if words[0] == what]
                self.assertEqual(len(set(found)), len(found))
                self.assertEqual(len(set(returned)), len(returned))
                self.assertEqual(set(returned) - set(found), set())
            self.assertEqual(set(got) - set(sent), set())
            with seryugo.open(self.path) as board, board.seat() as seat:
                seat.mailbox_again(0, str)
                boxes = [seat.mailbox_again(number, str) for number in range(4)]
                self.assertEqual(sum(map(len, boxes)), len(sent) - len(got))


if __name__ == "__main__":
    unittest.main()
