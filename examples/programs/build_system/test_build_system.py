"""The build system: `python3 test_build_system.py PROGRAM`, or with the archive of cml_c in the
program's place.

Of an archive it installs the library, builds the program, and runs its tests. Of a program the
folder of the installed library is SERYUGO_PREFIX. It tries small makefiles, faults and failures;
made-up graphs beside `make`: the same goals are made, in the order that the rules ask for, and the
same is printed; and the programs of examples/c.
"""

import filecmp
import os
import re
import shutil
import subprocess
import sys
import time

from building import BuildSystem, write_graph  # noqa: I001
from makefiles import Makefiles
from cases import TOP, has, left_out, main

C_PROGRAMS = "examples/programs/build_system/c_examples.mk"


def is_in_order(folder):
    """Whether the file `log` has each goal once, after its prerequisites that are there too."""
    made = (folder / "log").read_text().split("\n")[:-1]
    at = {goal: place for place, goal in enumerate(line.split()[0] for line in made)}
    rules = re.findall(r"^(g\d*):(.*)$", (folder / "Makefile").read_text(), re.M)
    needs = ((goal, need) for goal, all_needs in rules for need in all_needs.split())
    return len(at) == len(made) and all(
        at[need] <= at[goal] for goal, need in needs if goal in at and need in at
    )


class Graphs(BuildSystem):
    """Made-up graphs, beside make."""

    def graphs(self, **words):
        """Makes a new folder with two, `ours` and `theirs`.

        Both have this made-up makefile and its files.
        """
        self.makefile("")
        write_graph(self.folder / "Makefile", state="state", **words)
        for part in "ours", "theirs":
            (self.folder / part).mkdir()
            shutil.copy(self.folder / "Makefile", self.folder / part)
            subprocess.run(["sh", "../state"], cwd=self.folder / part, check=True)

    def made_by(self, part, *command):
        """Makes the goals in this folder: the status, what was made, and what was printed."""
        folder = self.folder / part
        (folder / "log").unlink(missing_ok=True)
        ran = self.run_program(*command, cwd=folder)
        (folder / "log").touch()
        self.assertTrue(is_in_order(folder), f"out of order by {command[0]}")
        printed = [
            sorted(text.replace("cml_make:", "make:").splitlines())
            for text in (ran.said(), ran.errors())
        ]
        made = sorted((folder / "log").read_text().splitlines())
        return ran.status, made, sorted(os.listdir(folder)), *printed

    def same_as_make(self):
        """Runs both, and compares what they made, in which order, and what they printed.

        Returns what was made and the errors.
        """
        ours = self.made_by("ours", self.program, "-j4")
        theirs = self.made_by("theirs", "make", "-rk", "-j4")
        self.assertEqual(ours, theirs)
        return ours[1], ours[4]

    def large_graph(self):
        self.graphs(goals=2000, seed=1, kind="log")
        self.assertEqual(len(self.same_as_make()[0]), 2000)
        self.assertEqual(len(self.same_as_make()[0]), 0)
        # Some sources are newer, some goals' files are gone, and one goal's commands fail.
        time.sleep(1)
        changed = re.sub(
            r"^\techo g1000 .*", "\tfalse", (self.folder / "Makefile").read_text(), flags=re.M
        )
        for part in "ours", "theirs":
            folder = self.folder / part
            for source in "s3", "s77", "s150":
                (folder / source).touch()
            for goal in "g900", "g1234", "g1000":
                (folder / goal).unlink()
            (folder / "Makefile").write_text(changed)
        made, told = self.same_as_make()
        self.assertNotIn(len(made), (0, 2000))
        self.assertTrue(any("g1000] Error 1" in line for line in told), told)

    def test_beside_make(self):
        if not has("make"):
            self.skipTest("made-up graphs: there is no make")
        with self.case("2,000 goals"):
            self.large_graph()
        for seed in range(1, 25):
            with self.case(f"60 goals of any kind, with seed {seed}"):
                self.graphs(goals=60, seed=seed, kind="any")
                self.same_as_make()

    def timed(self, *command):
        """The lesser time of two runs, in seconds."""
        times = []
        for _ in range(2):
            begun = time.monotonic()
            subprocess.run(command, cwd=self.folder, stdout=subprocess.DEVNULL, check=True)
            times.append(time.monotonic() - begun)
        return min(times)

    def test_time(self):
        """The bound is generous, since other programs may run beside this."""
        if not has("make"):
            self.skipTest("the time of 2,000 goals: there is no make")
        self.makefile("")
        write_graph(self.folder / "Makefile", goals=2000, seed=1)
        ours, theirs = self.timed(self.program, "-j4"), self.timed("make", "-j4")
        print(
            f"2,000 goals with empty commands: "
            f"cml_make {1000 * ours:.0f} ms, make {1000 * theirs:.0f} ms"
        )
        self.holds("the time of 2,000 goals", ours <= 2 * theirs + 2)


class CPrograms(BuildSystem):
    """The programs of examples/c."""

    def c_part(self, out, *command):
        """Makes the programs of examples/c by this command."""
        words = ["-f", C_PROGRAMS, f"PREFIX={self.prefix}", f"OUT={self.work / out}"]
        return self.run_program(*command, *words, cwd=TOP)

    def test_c_programs(self):
        if not self.prefix:
            self.skipTest("the programs of examples/c: SERYUGO_PREFIX names no installed library")
        if not has("cc"):
            self.skipTest("the programs of examples/c: there is no cc")
        ours = self.work / "ours.c"
        self.expect("the programs of examples/c", self.c_part("ours.c", self.program, "-j4"), 0)
        for name in "requests", "threads":
            self.expect(f"{name} runs", self.run_program(ours / name), 0)
        again = self.c_part("ours.c", self.program, "-j4")
        self.expect("no program is made again", again, 0, "cml_make: Nothing to be done for 'all'.")
        long_ago = time.mktime((2001, 1, 1, 0, 0, 0, 0, 0, -1))
        os.utime(ours / "requests.o", (long_ago, long_ago))
        again = self.c_part("ours.c", self.program, "-j4")
        self.holds("one program is made again", again.said().count("\n") == 2, again.said())
        if not has("make"):
            self.skipTest("the programs of examples/c by make: there is no make")
        self.expect(
            "the programs of examples/c by make", self.c_part("theirs.c", "make", "-rRk", "-j4"), 0
        )
        names = sorted(os.listdir(ours))
        _, *others = filecmp.cmpfiles(ours, self.work / "theirs.c", names, shallow=False)
        is_same = names == sorted(os.listdir(self.work / "theirs.c")) and others == [[], []]
        self.holds("the same programs", is_same, names, others)


if __name__ == "__main__":
    if sys.argv[1].endswith(".a") and not has("cargo"):
        left_out("the build system", "cargo")
    main(Makefiles, Graphs, CPrograms)
