"""What the tests of the programs in `examples/programs` share: a folder, programs that run and are stopped
at the end, and the count of cases.

Each `subTest` is a case. The last line is `N passed, M failed`.
"""

import os
import pathlib
import shutil
import signal
import subprocess
import sys
import tempfile
import time
import unittest

TOP = pathlib.Path(__file__).resolve().parents[2]

# The most seconds that a test waits for anything, as in `tests/lib/bounded.sh`: what takes longer hangs.
LIMIT = int(os.environ.get("SERYUGO_TEST_SECONDS", 1800))


class Counted(unittest.TestResult):
    """Counts the cases, and prints those that fail."""

    passed = 0
    failed = 0

    def fails(self, name, error):
        self.failed += 1
        print(f"failed: {name}: {str(error[1])[:2000]}", flush=True)

    def addSubTest(self, test, subtest, error):
        if error is None:
            self.passed += 1
        else:
            self.fails(subtest._message, error)

    def addError(self, test, error):
        self.fails(test, error)

    def addFailure(self, test, error):
        self.fails(test, error)

    def addSkip(self, test, reason):
        print(f"left out: {reason}", flush=True)


def left_out(what, needed):
    """Ends the test, which tries nothing for want of a program or a library."""
    print(f"left out: {what}: there is no {needed}")
    print("0 passed, 0 failed")
    sys.exit(0)


def has(*programs):
    return all(shutil.which(program) for program in programs)


def wait_until(what, condition):
    """Waits until the condition holds, and fails if it never does."""
    end = time.monotonic() + LIMIT
    while not condition():
        if time.monotonic() > end:
            raise AssertionError(f"{what}: not within {LIMIT} seconds")
        time.sleep(0.02)


class Program:
    """A program that runs, with its output and its errors in files."""

    def __init__(self, work, words, stdin=subprocess.DEVNULL, **how):
        self.out = tempfile.NamedTemporaryFile(dir=work, delete=False)
        self.err = tempfile.NamedTemporaryFile(dir=work, delete=False)
        words = [str(word) for word in words]
        self.process = subprocess.Popen(words, stdin=stdin, stdout=self.out, stderr=self.err, **how)

    def said(self):
        return pathlib.Path(self.out.name).read_text(errors="replace")

    def errors(self):
        return pathlib.Path(self.err.name).read_text(errors="replace")

    def runs(self):
        return self.process.poll() is None

    def ends(self):
        """Returns the status; a program that hangs is killed."""
        try:
            return self.process.wait(LIMIT)
        except subprocess.TimeoutExpired:
            self.kill()
            return None

    def signal(self, number):
        self.process.send_signal(number)

    def kill(self):
        """Ends the program as a crash does."""
        self.process.kill()
        self.process.wait()


class Cases(unittest.TestCase):
    """Tests in the order in which they are written, in one folder.

    `words` are the words of the command line.
    """

    words = []
    work = None
    running = []

    @classmethod
    def tearDownClass(cls):
        for program in cls.running:
            if program.runs():
                program.signal(signal.SIGCONT)
                program.kill()
        cls.running.clear()

    @classmethod
    def start(cls, *words, **how):
        """Starts a program, which is killed at the end if it still runs."""
        program = Program(cls.work, words, **how)
        cls.running.append(program)
        return program

    @classmethod
    def run_program(cls, *words, **how):
        """Runs a program to its end, and returns it with its `status`."""
        program = cls.start(*words, **how)
        program.status = program.ends()
        return program

    @classmethod
    def install_rooms(cls, archive):
        """Installs the library of rooms of this archive, and not that of scripts.

        Returns the folder.
        """
        prefix = cls.work / "installed"
        named = {
            **os.environ,
            "SERYUGO_ARCHIVE": str(archive),
            "SERYUGO_SCRIPT_ARCHIVE": "/nowhere",
        }
        done = cls.run_program("sh", TOP / "bindings/install.sh", prefix, env=named)
        if done.status != 0:
            raise AssertionError(done.said() + done.errors())
        return prefix

    def case(self, name):
        """A case with this name: `with self.case(..):`."""
        return self.subTest(name)

    def expect(self, name, program, status, out=None, err=None):
        """A case: how a program ended, and what it wrote.

        A text is all of it, True is some, and None says nothing of it.
        """
        with self.case(name):
            said, errors = program.said()[:300], program.errors()[:300]
            shown = f"status {program.status}, output {said}, errors {errors}"
            self.assertEqual(program.status, status, shown)
            for told, wanted in (program.said(), out), (program.errors(), err):
                if wanted is True:
                    self.assertTrue(told, shown)
                elif wanted is not None:
                    self.assertEqual(told.rstrip("\n"), wanted, shown)


def main(*classes):
    """Runs the tests of these classes with the words of the command line, and ends the program."""
    Cases.words = sys.argv[1:]
    os.environ["LC_ALL"] = "C"
    result = Counted()
    with tempfile.TemporaryDirectory() as work:
        Cases.work = pathlib.Path(work)
        for tests in classes:
            names = [name for name in vars(tests) if name.startswith("test_")]
            unittest.TestSuite(map(tests, names)).run(result)
    print(f"{result.passed} passed, {result.failed} failed")
    sys.exit(result.failed > 0 or result.passed == 0)
