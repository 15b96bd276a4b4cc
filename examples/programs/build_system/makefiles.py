"""The build system on small makefiles: faults, words, commands and failures."""

import os
import re
import subprocess

from building import BuildSystem, write_graph  # noqa: I001
from cases import LIMIT, TOP, has


def lines(*texts):
    return "\n".join(texts)


def errors(*texts):
    """What the program says on standard error in these lines."""
    return lines(*(f"cml_make: {text}" for text in texts))


class Makefiles(BuildSystem):
    def test_program(self):
        if not self.is_built:
            self.skipTest("the build: a program is named")
        self.holds("the program is built, and its tests pass", self.program)

    def test_makes_what_is_old(self):
        self.makefile(
            "all: dir/prog\n\ndir/prog: dir/a.o dir/b.o\n\tcat $^ > $@\n\n"
            "dir/a.o: a.c h\n\tcp $< $@\n\ndir/b.o: b.c\n\tcp $< $@\n"
        )
        (self.folder / "dir").mkdir()
        for name, text in ("a.c", "a\n"), ("b.c", "b\n"), ("h", "h\n"):
            self.file(name, text)
        link, copy_a, copy_b = "cat dir/a.o dir/b.o > dir/prog", "cp a.c dir/a.o", "cp b.c dir/b.o"
        made = self.run_in("-j1")
        self.holds("the program has its parts", (self.folder / "dir/prog").read_text() == "a\nb\n")
        all_lines = sorted(made.said().splitlines())
        self.holds(
            "all are made at first",
            (made.status, all_lines) == (0, [link, copy_a, copy_b]),
            made.said(),
            made.errors(),
        )
        self.expect(
            "nothing is made again",
            self.run_in("-j4"),
            0,
            "cml_make: Nothing to be done for 'all'.",
            "",
        )
        self.expect(
            "a file is up to date",
            self.run_in("dir/prog"),
            0,
            "cml_make: 'dir/prog' is up to date.",
            "",
        )
        self.old(1, "dir/a.o")
        self.expect(
            "one that is older than its prerequisite",
            self.run_in("-j1"),
            0,
            lines(copy_a, link),
            "",
        )
        self.old(1, "a.c", "h", "dir/a.o", "dir/b.o")
        self.old(2, "dir/prog")
        self.expect("times that are equal", self.run_in("dir/prog"), 0, lines(copy_b, link), "")
        (self.folder / "dir/b.o").unlink()
        self.expect("what would be made is printed", self.run_in("-n"), 0, lines(copy_b, link), "")
        self.holds("it was not made", not (self.folder / "dir/b.o").exists())
        self.expect(
            "a goal of the command line",
            self.run_in("-n", "dir/a.o"),
            0,
            "cml_make: 'dir/a.o' is up to date.",
            "",
        )

    def faulty(self, name, text, message):
        """A case: no command of this makefile runs."""
        self.makefile(text)
        self.expect(name, self.run_in("-j4"), 2, "", f"cml_make: {message}")

    def test_refuses_faults(self):
        circle = "*** circular dependency: "
        self.faulty("an empty file", "", "*** No targets.  Stop.")
        self.faulty("comments alone", "# a\n\n\t# b\n", "*** No targets.  Stop.")
        cycle = "all: first a\nfirst:\n\techo first\na: b\nb: c\nc: a\n"
        self.faulty("a cycle", cycle, f"{circle}a <- b <- c <- a.  Stop.")
        self.faulty("a goal that needs itself", "a: a\n\techo a\n", f"{circle}a <- a.  Stop.")
        include = "Makefile:3: *** the directive 'include' isn't in the subset.  Stop."
        self.faulty("an include", "a:\n\techo a\ninclude b\n", include)
        pattern = "Makefile:4: *** '%.o': a pattern with '%' isn't in the subset.  Stop."
        self.faulty("a pattern", "a: b\n\techo a\n\n%.o: %.c\n\techo b\n", pattern)
        no_value = "Makefile:3: *** the variable 'B' has no value here.  Stop."
        self.faulty("a variable without a value", "a:\n\techo a\n\techo $(B)\n", no_value)
        blanks = (
            "Makefile:2: *** missing separator: the line is neither a rule nor a variable.  Stop."
        )
        self.faulty("blanks for a tab", "a:\n        echo a\n", blanks)
        self.faulty(
            "a letter that is no UTF-8",
            "a:\n\techo \xff\n",
            "Makefile:2: *** the line isn't UTF-8.  Stop.",
        )
        itself = (
            "Makefile: *** the rule for the makefile 'Makefile' itself isn't in the subset.  Stop."
        )
        self.faulty("a rule for the makefile", "Makefile: a\n\techo a\n", itself)
        self.makefile("")
        write_graph(self.folder / "Makefile", goals=10000, seed=1)
        too_many = (
            "cml_make: *** the goals need 10001 objects, and there are threads for 10000.  Stop."
        )
        self.expect("too many goals", self.run_in("-j4"), 2, "", too_many)
        (self.folder / "Makefile").unlink()
        nothing = "cml_make: *** No targets specified and no makefile found.  Stop."
        self.expect("no makefile", self.run_in(), 2, "", nothing)
        not_there = "No such file or directory (os error 2).  Stop."
        not_there = f"cml_make: *** the makefile 'other' can't be read: {not_there}"
        self.expect("a makefile that is not there", self.run_in("-f", "other"), 2, "", not_there)

    def refused(self, *words):
        """A case: these words make nothing."""
        ran = self.run_in(*words)
        usage = re.search(r"^usage: cml_make", ran.errors(), re.M)
        self.holds(
            f"words {words}",
            (ran.status, ran.said()) == (2, "") and usage,
            ran.status,
            ran.said(),
            ran.errors(),
        )

    def test_reads_words(self):
        self.makefile("a:\n\t@echo $@ made\nb:\n\t@echo $@ of $(V)\nV = makefile\n")
        for words in "-j 0", "-j", "-j x", "-j -4", "-x", "-f", "-f a -f b", "SHELL=a":
            self.refused(*words.split())
        self.refused("")
        self.expect("help", self.run_in("--help"), 0, True, "")
        self.expect(
            "a variable of the command line", self.run_in("b", "V=word"), 0, "b of word", ""
        )
        self.expect("options in one word", self.run_in("-kj3", "a"), 0, "a made", "")
        with open(self.folder / "Makefile") as makefile:
            self.expect(
                "a makefile of the standard input",
                self.run_in("-f", "-", "b", stdin=makefile),
                0,
                "b of makefile",
                "",
            )
        no_rule = "cml_make: *** No rule to make target 'c'."
        self.expect("a goal without a rule", self.run_in("c"), 2, "", no_rule)

    def test_runs_commands(self):
        self.makefile("a: $(N)\n\t@echo last")
        self.expect("no line's end after the last line", self.run_in("N="), 0, "last", "")
        self.makefile("a:\r\n\t@echo x\r\n")
        self.expect("carriage returns", self.run_in(), 0, "x", "")
        self.makefile("a:\n\t@echo one \\\n\t  two; \\\n\techo $$((1 + 2)) $$HOME\n")
        self.expect(
            "a command of three lines",
            self.run_in(env={"HOME": "/here"}),
            0,
            lines("one two", "3 /here"),
            "",
        )
        self.makefile("a: b\n\techo a\nb:\n\t-exit 3\n\t@-nowhere-found\n\techo b\n")
        ran = self.run_in("-j1")
        ignored = errors(
            "[Makefile:4: b] Error 3 (ignored)", "[Makefile:5: b] Error 127 (ignored)"
        ).splitlines()
        are_told = (
            all(line in ran.errors().splitlines() for line in ignored)
            and "echo a" in ran.said().splitlines()
        )
        self.holds(
            "failures that are ignored",
            ran.status == 0 and are_told,
            ran.status,
            ran.said(),
            ran.errors(),
        )
        self.makefile('A = 1\na:\n\t@env | grep "^[A-C]=" | sort\n')
        environment = self.run_in("C=3", env={"A": "0", "B": "2"})
        self.expect("the environment of commands", environment, 0, lines("A=1", "B=2", "C=3"), "")
        self.makefile("a:\n\t@:\n\t\n")
        self.expect("commands that do nothing", self.run_in("a"), 0, "", "")

    def test_keeps_lines_together(self):
        megabyte = 'head -c 1000000 /dev/zero | tr "\\0" $@ | fold -w 1000'
        self.makefile(f"all: a b c d\na b c d:\n\t@{megabyte}; echo\n")
        ran = self.run_in("-j4")
        told = ran.said().split()
        blocks = [line for place, line in enumerate(told) if place == 0 or told[place - 1] != line]
        is_whole = (ran.status, sum(map(len, told)), len(blocks)) == (0, 4000000, 4)
        self.holds("a megabyte of each of four commands", is_whole, ran.status, ran.errors())
        self.makefile("all: a b\na b:\n\techo $@1; echo $@2 >&2; echo $@3\n")
        both = self.work / "both"
        with open(both, "w") as out:
            subprocess.run(
                [self.program, "-j2"],
                cwd=self.folder,
                stdout=out,
                stderr=out,
                timeout=LIMIT,
                check=False,
            )
        same = re.sub("[ab]", "x", both.read_text()).splitlines()
        wanted = ["echo x1; echo x2 >&2; echo x3", "x1", "x2", "x3"]
        self.holds("both streams in one file", same == wanted * 2, both.read_text())
        with open("/dev/full", "w") as full:
            ended = subprocess.run(
                [self.program, "-j2"],
                cwd=self.folder,
                stdout=full,
                stderr=subprocess.PIPE,
                text=True,
                timeout=LIMIT,
                check=False,
            )
        self.holds("a full disk", ended.returncode != 0)
        self.holds("a full disk is named", "write error" in ended.stderr, ended.stderr)

    def test_fails_in_part(self):
        self.makefile(
            "all: x y z\nx: bad\n\techo x\ny: nowhere\n\techo y\nz: good\n\t@echo z\n"
            "bad:\n\t@false\n\t@echo never\n"
            "good:\n\t@echo good\n"
        )
        ran = self.run_in("-j1")
        self.expect(
            "what needs a failed command is not made, and all else is",
            ran,
            2,
            lines("good", "z"),
            True,
        )
        told = errors(
            "*** No rule to make target 'nowhere', needed by 'y'.",
            "*** [Makefile:9: bad] Error 1",
            "Target 'all' not remade because of errors.",
        )
        self.holds(
            "its messages",
            sorted(ran.errors().splitlines()) == sorted(told.splitlines()),
            ran.errors(),
        )
        told = errors("*** [Makefile:9: bad] Error 1", "Target 'x' not remade because of errors.")
        self.expect(
            "goals that fail by their own commands or by others",
            self.run_in("-j4", "bad", "x"),
            2,
            "",
            told,
        )
        self.makefile(
            "all: a b c\na:\n\t@echo half > a; kill -9 $$$$\n"
            "b:\n\t@echo whole > b\nc: a\n\techo c\n"
        )
        killed = errors(
            "*** [Makefile:3: a] Killed",
            "*** Deleting file 'a'",
            "Target 'all' not remade because of errors.",
        )
        self.expect("a command that is killed", self.run_in("-j4"), 2, "", killed)
        is_left = not (self.folder / "a").exists() and (self.folder / "b").read_text() == "whole\n"
        self.holds("what a killed command leaves", is_left)
        self.makefile(f"a:\n\t@sleep {2 * LIMIT} & echo $$! > pid\n")
        ran = self.run_in("-j2")
        process = (self.folder / "pid").read_text().strip()
        self.holds(
            "a process that a command leaves behind", ran.status == 0 and process, ran.status
        )
        os.kill(int(process), 15)

    def test_takes_long_lines(self):
        self.makefile(
            "all:" + " b" * 500000 + "\n\t@echo all\n#" + "#a" * 500000 + "\nb:\n\t@echo b\n"
        )
        self.expect("lines of a megabyte", self.run_in("-j4"), 0, lines("b", "all"), "")
        self.makefile("all:\n\t@: " + " b" * 500000)
        too_long = (
            "cml_make: *** [Makefile:2: all] not started: Argument list too long (os error 7)"
        )
        self.expect("a command of a megabyte", self.run_in("-j4"), 2, "", too_long)

    def test_page_example(self):
        """The example of docs/BUILD_SYSTEM.md, with an error in one source at first."""
        if not has("cc"):
            self.skipTest("the page's example: there is no cc")
        page = (TOP / "docs/BUILD_SYSTEM.md").read_text()
        self.makefile("".join(re.findall(r"^```make\n(.*?)^```$", page, re.M | re.S)))
        self.file("list.h", "int list(void);\n")
        self.file("main.c", '#include "list.h"\nint main(void) { return list(); }\n')
        self.file("list.c", "an error\n")
        ran = self.run_in("-j4")
        own = [line for line in ran.errors().splitlines() if "cml_make:" in line]
        told = errors(
            "*** [Makefile:14: list.o] Error 1", "Target 'all' not remade because of errors."
        ).splitlines()
        made = [(self.folder / name).exists() for name in ("main.o", "prog")]
        self.holds(
            "the page's example with an error",
            (ran.status, own, made) == (2, told, [True, False]),
            ran.errors(),
        )
        self.file("list.c", '#include "list.h"\nint list(void) { return 0; }\n')
        commands = lines("cc -c list.c -o list.o", "cc main.o list.o -o prog")
        self.expect("the page's example", self.run_in("-j4"), 0, commands, "")
        self.holds("the page's program", self.run_program(self.folder / "prog").status == 0)
        self.expect(
            "the page's example again",
            self.run_in(),
            0,
            "cml_make: Nothing to be done for 'all'.",
            "",
        )

    def test_runs_so_many(self):
        """At most two of twenty commands run at once, and three of three do."""
        goals = " ".join(map(str, range(1, 21)))
        one_of_two = "if mkdir x 2> /dev/null; then at=x; else mkdir y && at=y || exit 1; fi"
        work = f"{one_of_two}; sleep 0.02; rmdir $$at; echo $@"
        self.makefile(f"G = {goals}\nall: $(G)\n$(G):\n\t@{work}\n")
        ran = self.run_in("-j2")
        self.holds(
            "two at once", (ran.status, ran.said().count("\n")) == (0, 20), ran.status, ran.errors()
        )
        are_there = "[ -e a ] && [ -e b ] && [ -e c ]"
        wait = "n=$$((n + 1)); [ $$n -lt 2000 ] || exit 1; sleep 0.01"
        self.makefile(f"all: a b c\na b c:\n\t@touch $@; n=0; until {are_there}; do {wait}; done\n")
        self.expect("three commands that wait for each other", self.run_in("-j3"), 0, "", "")
