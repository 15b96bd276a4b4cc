"""The built program, and small makefiles on which it is tried."""

import os
import pathlib
import shutil
import subprocess
import sys
import time

FOLDER = pathlib.Path(__file__).resolve().parent
sys.path.insert(0, str(FOLDER.parents[2] / "tests/lib"))
from cases import TOP, Cases  # noqa: E402

GRAPH = FOLDER / "graph.awk"


def write_graph(to, **words):
    """Writes a made-up makefile of this number of goals, from a seed, of a kind."""
    named = [part for word, value in words.items() for part in ("-v", f"{word}={value}")]
    with open(to, "w") as makefile:
        subprocess.run(["awk", *named, "-f", GRAPH], stdout=makefile, cwd=to.parent, check=True)


class BuildSystem(Cases):
    """The program is built once for all classes of tests."""

    program = None
    is_built = False
    prefix = None
    """The folder of the installed library, if there is one."""

    @classmethod
    def setUpClass(cls):
        if BuildSystem.program is None:
            BuildSystem.find_program()

    @classmethod
    def find_program(cls):
        for word in "MAKEFLAGS", "MAKELEVEL":
            os.environ.pop(word, None)
        given = pathlib.Path(cls.words[0]).resolve()
        cls.is_built = given.suffix == ".a"
        if cls.is_built:
            cls.prefix = cls.install_rooms(given)
            cls.program = cls.build()
        else:
            cls.program = given
            cls.prefix = os.environ.get("SERYUGO_PREFIX")
        if not os.access(cls.program, os.X_OK):
            raise AssertionError(f"there is no program {cls.program}")

    @classmethod
    def cargo(cls, word):
        named = {
            **os.environ,
            "SERYUGO_PREFIX": str(cls.prefix),
            "CARGO_TARGET_DIR": str(cls.work / "target"),
        }
        words = ["cargo", word, "--release", "--quiet", "--offline"]
        folder = cls.work / "copy/examples/programs/build_system"
        ran = cls.run_program(*words, cwd=folder, env=named)
        if ran.status != 0:
            raise AssertionError(f"cargo {word}: {ran.said()}{ran.errors()}")

    @classmethod
    def build(cls):
        """Builds the program from a copy, so that nothing is left beside it, and runs its tests."""
        for part in "bindings/rust", "examples/programs/build_system":
            shutil.copytree(TOP / part, cls.work / "copy" / part)
        cls.cargo("build")
        cls.cargo("test")
        return shutil.copy(cls.work / "target/release/cml_make", cls.work / "cml_make")

    # ---- small makefiles ----

    def makefile(self, text):
        """Makes a new folder with this makefile."""
        self.folder = self.work / "case"
        shutil.rmtree(self.folder, ignore_errors=True)
        self.folder.mkdir()
        self.file("Makefile", text)

    def file(self, name, text):
        (self.folder / name).write_bytes(text.encode("latin-1"))

    def run_in(self, *words, env=None, **how):
        """Runs the program in that folder, with these variables too."""
        named = {**os.environ, **(env or {})}
        return self.run_program(self.program, *words, cwd=self.folder, env=named, **how)

    def old(self, day, *names):
        """Gives files a time long ago."""
        when = time.mktime((2001, 1, day, 0, 0, 0, 0, 0, -1))
        for name in names:
            os.utime(self.folder / name, (when, when))

    def holds(self, name, condition, *shown):
        with self.case(name):
            self.assertTrue(condition, shown)
