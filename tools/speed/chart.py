"""Draws the chart of tools/speed.sh: bars beside each other, where the program by hand is 1."""

from itertools import groupby
from xml.sax.saxutils import escape

# Where the bars begin and how long 1 is, in pixels. A bar ends at MOST, however long it would be.
LEFT = 190
UNIT = 110
MOST = 4
BAR = 13
STEP = 17
GAP = 30
WIDTH = LEFT + UNIT * MOST + 160

STYLE = """\
svg{font-family:system-ui,sans-serif;font-size:12px;background:#fff}
text{fill:#1c1e21}
.name{text-anchor:end}
.workload{font-weight:bold}
.figure,.note{fill:#5f6670}
.library{fill:#1f5fa8}
.hand{fill:#6b7280}
.peer{fill:#c79a3b}
.one{stroke:#c3c8cf;stroke-dasharray:3 3}
@media(prefers-color-scheme:dark){
svg{background:#16181c}
text{fill:#e6e8eb}
.figure,.note{fill:#9aa2ad}
.library{fill:#7fb2f0}
.hand{fill:#9aa2ad}
.peer{fill:#e0bd6e}
.one{stroke:#434a54}
}"""


def bar(name, kind, figure, by_hand, top):
    """Return the elements of one bar."""
    times = figure / by_hand
    length = min(times, MOST) * UNIT
    past = " →" if times > MOST else ""
    words = f"{figure:,.0f} ns, {times:.2f}{past}"
    middle = top + BAR - 2
    return [
        f"<text class='name' x='{LEFT - 8}' y='{middle}'>{escape(name)}</text>",
        f"<rect class='{kind}' x='{LEFT}' y='{top}' width='{length:.1f}' height='{BAR}'/>",
        f"<text class='figure' x='{LEFT + length + 6:.1f}' y='{middle}'>{words}</text>",
    ]


def bars_of(rows, peers):
    """Return the name, the kind and the figure of each bar of a workload."""
    bars = [(row.way, "library", row.now) for row in rows]
    for name, figure in zip(peers, rows[0].others):
        if figure:
            bars.append((name, "hand" if name == "by hand" else "peer", figure))
    return bars


def draw(rows, peers):
    """Return the chart of the workloads that have a program by hand."""
    rows = [row for row in rows if row.others[0]]
    elements = []
    top = 52
    for workload, group in groupby(rows, lambda row: row.workload):
        group = list(group)
        elements.append(f"<text class='workload' x='8' y='{top}'>{escape(workload)}</text>")
        top += 8
        for name, kind, figure in bars_of(group, peers):
            elements += bar(name, kind, figure, group[0].others[0], top)
            top += STEP
        top += GAP - 8
    one = LEFT + UNIT
    return "\n".join(
        [
            f"<svg xmlns='http://www.w3.org/2000/svg' viewBox='0 0 {WIDTH} {top}' role='img' "
            "aria-labelledby='title about'>",
            "<title id='title'>What a message costs</title>",
            "<desc id='about'>For each workload a bar for each way. The line is at the time of the "
            "program by hand, which keeps a journal too.</desc>",
            f"<style>{STYLE}</style>",
            "<text class='note' x='8' y='20'>Time a message takes, by hand = 1. "
            "Shorter is faster. The peers keep no journal.</text>",
            f"<path class='one' d='M{one} 34V{top - GAP}'/>",
            *elements,
            "</svg>",
            "",
        ]
    )
