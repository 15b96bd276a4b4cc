"""Writes SPEED.md, speed.svg and speed.tsv: `page.py FIGURES FOLDER`, with the figures of tools/speed.sh.

The words of the page are in page.md beside this file. Here is what fills its braces.
"""

import pathlib
import sys

import chart
from figures import PEERS, QUEUES, Figures, is_of_bench

FREE = "nothing beside it"
SETTINGS = (FREE, "one processor", "eight busy threads")


def number(figure):
    """Return a figure with three digits or more."""
    if figure < 10:
        return f"{figure:.2f}"
    return f"{figure:.1f}" if figure < 100 else f"{figure:,.0f}"


def beside(other, scale):
    """Return a figure of another way, or nothing if it wasn't measured."""
    return number(other / scale) if other else ""


def table(names, figures, rows):
    """Return a table. The columns of figures are at the right."""
    headings = [*names, *figures]
    lines = [headings, ["---"] * len(names) + ["---:"] * len(figures), *rows]
    return "\n".join("| " + " | ".join(cells) + " |" for cells in lines)


def compared(rows, unit, others=(), scale=1):
    """Return a table of ways of the library, with the ways beside them that were measured."""
    if not rows:
        return "Not measured."
    shown = [at for at in range(len(others)) if any(row.others[at] for row in rows)]
    cells = []
    last = None
    for row in rows:
        # The other ways are in the first row of a workload.
        is_first = row.workload != last
        by_others = [beside(is_first and row.others[at], scale) for at in shown]
        last = row.workload
        way = row.way.replace("_", ", ")
        cells.append([f"`{row.workload}`", way, number(row.now / scale), *by_others])
    return table(["Workload", "Way"], [unit, *(others[at] for at in shown)], cells)


def every(figures):
    """Return all figures, one a line, with the least and the most of the rounds, after a line of headings."""
    lines = [("setting", "workload", "way", "build", "median_ns", "least_ns", "most_ns")]
    for (setting, build, workload, way), found in figures.all.items():
        middle = figures.median(setting, build, workload, way)
        shown = [number(figure).replace(",", "") for figure in (middle, min(found), max(found))]
        lines.append((setting, workload, way.replace("_", ", "), build, *shown))
    return "".join("\t".join(line) + "\n" for line in lines)


def parts(figures):
    """Return what fills each pair of braces."""

    def rows(is_wanted, others=()):
        return figures.rows(FREE, others, is_wanted)

    found = {}
    for setting in SETTINGS:
        found[setting] = compared(figures.compared(setting), "ns", PEERS)
    in_c = rows(lambda workload, _: workload.startswith("in C"), PEERS)
    in_python = rows(lambda workload, _: workload.startswith("in Python"), QUEUES)
    scripts = rows(lambda workload, _: workload.startswith("a script"))
    journals = rows(lambda workload, _: workload.startswith("an entry"))
    counts = figures.rows("instructions", PEERS, lambda *_: True)
    found["instructions"] = compared(counts, "instructions", PEERS)
    found["machine"] = "\n".join(f"- {name}: {words}" for name, words in figures.machine.items())
    found["bench"] = compared(rows(lambda _, way: is_of_bench(way)), "ns")
    found["C"] = compared(in_c, "ns", PEERS)
    found["Python"] = compared(in_python, "µs", QUEUES, 1e3)
    found["scripts"] = compared(scripts, "ms", (), 1e6)
    found["journals"] = compared(journals, "ns")
    return found


def main():
    """Write the files."""
    source, folder = sys.argv[1], pathlib.Path(sys.argv[2])
    with open(source, encoding="utf-8") as lines:
        figures = Figures(lines)
    page = pathlib.Path(__file__).with_name("page.md").read_text(encoding="utf-8")
    for name, words in parts(figures).items():
        page = page.replace("{" + name + "}", words)
    folder.mkdir(parents=True, exist_ok=True)
    (folder / "SPEED.md").write_text(page, encoding="utf-8")
    (folder / "speed.tsv").write_text(every(figures), encoding="utf-8")
    picture = chart.draw(figures.compared(FREE), PEERS)
    (folder / "speed.svg").write_text(picture, encoding="utf-8")


if __name__ == "__main__":
    main()
