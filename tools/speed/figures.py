"""Reads the figures of tools/speed.sh, and says which of them are for the same job.

A line has a setting, a build, a workload, a way and nanoseconds, with tabs between. A line
`machine` has a name and words. The figures of a key are those of all rounds.
"""

import statistics
from collections import namedtuple

# A way of the library with its figure, and those of other ways.
Row = namedtuple("Row", "workload way now others")

PEERS = ("by hand", "mpsc", "crossbeam", "tokio")
QUEUES = (
    "queue.SimpleQueue, journal",
    "queue.Queue, journal",
    "queue.SimpleQueue",
    "queue.Queue",
)

# What is written by hand with care. A workload has one of these.
BY_HAND = (
    "by hand",
    "by hand, wakes at need",
    "by hand, no lock",
    "by hand, as u64",
    "by hand, as Arc<str>",
)
# It has a journal too, and makes a call of the system for each message.
PLAIN = "by hand, wakes always"

# What `cml_bench` does of the same workloads: by which name and on what, and how many of its calls
# a message takes.
IN_RATTLE = {
    "pairs1": [("pairs1", "board", "a board, in Rattle", 2)],
    "pairs1_bytes64": [("pairs1_bytes64", "board", "a board, in Rattle", 2)],
    "cast8": [("cast8", "board", "a board, in Rattle", 9)],
    "cast8_bytes64": [("cast8_bytes64", "board", "a board, in Rattle", 9)],
    "pipe2": [("pipe2", "switchboard", "seats, in Rattle", 2)],
    "fanin4": [
        ("fanin4", "switchboard", "seats, in Rattle", 2),
        ("fanin4_lanes", "switchboard", "lanes, in Rattle", 2),
    ],
    "token8": [("token8", "switchboard", "seats, in Rattle", 1)],
    "token63": [("token63", "switchboard", "seats, in Rattle", 1)],
    "server32": [("server32", "switchboard", "seats, in Rattle", 1)],
    "server128": [("server128", "switchboard", "seats, in Rattle", 1)],
}

# The workloads with peers, in the order of the page.
COMPARED = ("one thread", "typed: a u64", "typed: a String of 32 bytes", *IN_RATTLE)


def is_of_bench(way):
    """Whether the way is what `cml_bench` did its workload on."""
    return way.startswith(("board", "switchboard"))


class Figures:
    """All figures, by setting, build, workload and way."""

    def __init__(self, lines):
        """Read the lines."""
        self.machine = {}
        self.all = {}
        for line in lines:
            words = line.rstrip("\n").split("\t")
            if words[0] == "machine":
                self.machine[words[1]] = words[2]
            else:
                self.all.setdefault(tuple(words[:4]), []).append(float(words[4]))

    def median(self, *key):
        """Return the median of the rounds, or nothing if it wasn't measured."""
        return statistics.median(self.all[key]) if key in self.all else None

    def settings(self):
        """Return the settings, in the order in which they were measured."""
        return list(dict.fromkeys(key[0] for key in self.all))

    def ways(self, setting):
        """Return each workload with its ways in the build of now."""
        found = {}
        for of, build, workload, way in self.all:
            if (of, build) == (setting, "now"):
                found.setdefault(workload, []).append(way)
        return found

    def other(self, setting, workload, way):
        """Return the figure of a way that isn't the library's."""
        names = BY_HAND if way == "by hand" else (way,)
        found = (self.median(setting, "now", workload, name) for name in names)
        return next((figure for figure in found if figure is not None), None)

    def row(self, setting, workload, way, others=()):
        """Return the row of a way of the library."""
        figures = [self.other(setting, workload, other) for other in others]
        return Row(workload, way, self.median(setting, "now", workload, way), figures)

    def rows(self, setting, others, is_wanted):
        """Return a row for each way of the library in the workloads that are wanted."""
        strange = {*others, *BY_HAND, PLAIN}
        return [
            self.row(setting, workload, way, others)
            for workload, ways in self.ways(setting).items()
            for way in ways
            if way not in strange and is_wanted(workload, way)
        ]

    def in_rattle(self, setting, workload):
        """Return the rows of `cml_bench` for a workload that has peers."""
        others = [self.other(setting, workload, peer) for peer in PEERS]
        found = []
        for name, ground, shown, calls in IN_RATTLE.get(workload, []):
            row = self.row(setting, name, ground)
            if row.now is not None and any(others):
                found.append(Row(workload, shown, row.now * calls, others))
        return found

    def compared(self, setting):
        """Return the rows with peers, in the order of the page."""
        found = []
        for name in COMPARED:
            found += self.rows(
                setting, PEERS, lambda workload, way: workload == name and not is_of_bench(way)
            )
            found += self.in_rattle(setting, name)
        return found
