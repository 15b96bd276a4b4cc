"""Which library the package takes: none, one of another version, or its own."""

import os
import shutil
import subprocess
import sys
import tempfile
import unittest
from pathlib import Path

import seryugo
from seryugo import _library, _version


def import_from(prefix):
    """Import the package in a new process, with the library in this folder."""
    path = os.pathsep.join([str(Path(seryugo.__file__).parent.parent), *sys.path])
    return subprocess.run(
        [sys.executable, "-c", "import seryugo; print(seryugo.__version__)"],
        env={**os.environ, "SERYUGO_PREFIX": str(prefix), "PYTHONPATH": path},
        stdout=subprocess.PIPE,
        stderr=subprocess.PIPE,
        universal_newlines=True,
    )


class Finding(unittest.TestCase):
    def test_no_library(self):
        ended = import_from("/nowhere")
        self.assertEqual(ended.returncode, 1)
        self.assertIn("ImportError: found no library seryugo", ended.stderr)

    def test_its_own(self):
        self.assertEqual(_version.in_words(_library.version()), seryugo.__version__)
        _version.compare(_library.version(), "here")

    def test_in_words(self):
        self.assertEqual(_version.in_words(0x000100), "0.1.0")
        self.assertEqual(_version.in_words(0x01FF03), "1.255.3")
        self.assertEqual(_version.in_words(0x12345678), "4660.86.120")


@unittest.skipUnless(shutil.which("cc"), "left out: there is no cc, which builds another library")
class Another(unittest.TestCase):
    """A library that is built here in place of the real one."""

    def imported(self, source):
        folder = tempfile.TemporaryDirectory()
        self.addCleanup(folder.cleanup)
        (Path(folder.name) / "lib").mkdir()
        library = Path(folder.name) / "lib" / "libseryugo.so"
        command = ["cc", "-shared", "-fPIC", "-x", "c", "-", "-o", str(library)]
        subprocess.run(command, input=source.encode(), check=True)
        ended = import_from(folder.name)
        self.assertEqual((ended.returncode, ended.stdout), (1, ""))
        return ended.stderr, library

    def test_another_version(self):
        words, library = self.imported("unsigned seryugo_version(void) { return 0x000201; }")
        self.assertIn(
            f"ImportError: the library {library} has the version 0.2.1, "
            f"and this package {seryugo.__version__}. Install both from one source",
            words,
        )

    def test_before_versions(self):
        words, library = self.imported("unsigned seryugo_other(void) { return 0; }")
        self.assertIn(f"ImportError: the library {library} lacks seryugo_version", words)

    def test_a_function_is_missing(self):
        major, minor, patch = map(int, seryugo.__version__.split("."))
        number = major << 16 | minor << 8 | patch
        words, library = self.imported(f"unsigned seryugo_version(void) {{ return {number}; }}")
        self.assertIn(f"ImportError: the library {library} lacks seryugo_", words)
        self.assertNotIn("seryugo_version", words)
