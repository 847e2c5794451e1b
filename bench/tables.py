#!/usr/bin/env python3
"""Writes the tables of docs/BENCHMARKS.md and the plot beside it from the figures that bench/measure.py took: `bench/tables.py FIGURES`.
With `--check` it writes nothing, and fails if a table of the page is not that of the figures."""
import csv
import os
import re
import sys
from collections import defaultdict

HERE = os.path.dirname(os.path.abspath(__file__))
PAGE = os.path.join(HERE, "..", "docs", "BENCHMARKS.md")
PLOT = os.path.join(HERE, "..", "docs", "benchmarks.svg")
UNITS = {"ns": "ns", "instructions": "instructions", "bytes": "bytes"}
GROUPS = ("script", "call", "sync", "blocking", "memory")
# The other side of a group, where that is not the Rust crate.
OTHERS = {"blocking": "std"}


class Figures:
    """What was measured, by group, load, size, measure and side."""

    def __init__(self, name):
        self.table = defaultdict(dict)
        with open(name, encoding="ascii", newline="") as file:
            for row in csv.DictReader(file):
                self.table[row["group"], row["load"], int(row["size"]), row["measure"]][row["side"]] = float(row["figure"])

    def keys(self, group, measure):
        """The loads and sizes of a group that have this measure, in the order in which they were taken."""
        found = [key for key in self.table if key[0] == group and key[3] == measure]
        return list(dict.fromkeys(key[1] for key in found)), list(dict.fromkeys(key[2] for key in found))

    def pair(self, group, load, size, measure):
        """Ours and the other side's, if they were measured."""
        sides = self.table.get((group, load, size, measure), {})
        return sides.get("ours"), sides.get(OTHERS.get(group, "crate"))

    def ratio(self, group, load, size, measure):
        """Ours as a part of the other side's."""
        ours, other = self.pair(group, load, size, measure)
        return ours / other if ours and other else None


def plain(number):
    """A figure as the tables have it."""
    if number is None:
        return ""
    return f"{number:,.0f}" if number >= 100 else f"{number:.1f}"


def table(head, rows):
    """A table in Markdown."""
    return "\n".join("| " + " | ".join(row) + " |" for row in [head, ["---"] * len(head)] + rows)


def comparison(figures, group, measure):
    """Ours, the other side's and their ratio of each load, at each size."""
    loads, sizes = figures.keys(group, measure)
    head = ["load"]
    for size in sizes:
        head += [f"{size:,}: ours", OTHERS.get(group, "crate"), "ratio"]
    rows = []
    for load in loads:
        row = [load]
        for size in sizes:
            ours, other = figures.pair(group, load, size, measure)
            ratio = figures.ratio(group, load, size, measure)
            row += [plain(ours), plain(other), f"{ratio:.2f}" if ratio else ""]
        rows.append(row)
    return table(head, rows)


def lines(figures):
    """How many lines each script has."""
    loads, sizes = figures.keys("script", "lines")
    return table(["script"] + [f"about {size:,}" for size in sizes], [
        [load] + [f"{figures.table['script', load, size, 'lines'].get('both', 0):,.0f}" for size in sizes] for load in loads])


def bar(place, name, ratio, scale):
    """One bar of the plot."""
    left, top = 190, 40 + 18 * place
    colour = "#4a7fb5" if ratio <= 1 else "#c98a3d"
    return (f'<text x="{left - 8}" y="{top + 11}" text-anchor="end">{name}</text>'
            f'<rect x="{left}" y="{top}" width="{ratio * scale:.1f}" height="13" fill="{colour}"/>'
            f'<text x="{left + ratio * scale + 6:.1f}" y="{top + 11}">{ratio:.2f}</text>')


def plot(figures):
    """The ratios of instructions at the largest size that was counted, as a picture."""
    bars = []
    for group, name in (("script", "by script"), ("call", "by call"), ("sync", "shared")):
        loads, sizes = figures.keys(group, "instructions")
        for load in loads:
            ratio = figures.ratio(group, load, max(sizes), "instructions")
            if ratio:
                bars.append((f"{load}, {name}", ratio))
    scale = 420 / max([ratio for _, ratio in bars] + [1])
    height = 60 + 18 * len(bars)
    body = "".join(bar(place, name, ratio, scale) + "\n" for place, (name, ratio) in enumerate(bars))
    return (f'<svg xmlns="http://www.w3.org/2000/svg" width="680" height="{height}" font-family="sans-serif" font-size="11">\n'
            f'<rect width="680" height="{height}" fill="white"/>\n'
            '<text x="20" y="22" font-size="13">Instructions, as a part of what the Rust crate takes</text>\n'
            f'<line x1="{190 + scale:.1f}" x2="{190 + scale:.1f}" y1="32" y2="{height - 12}" stroke="#888" stroke-dasharray="3 3"/>\n'
            f'{body}</svg>\n')


def filled(text, tables):
    """The page with these tables between their marks."""
    def block(mark):
        return f"<!-- {mark[1]} -->\n\n{tables[mark[1]]}\n\n<!-- end of {mark[1]} -->"
    return re.sub(r"<!-- ([\w-]+) -->.*?<!-- end of \1 -->", block, text, flags=re.S)


def main():
    """Writes the tables and the plot, or checks the tables."""
    name = [word for word in sys.argv[1:] if word != "--check"][0]
    figures = Figures(name)
    tables = {f"{group}-{measure}": comparison(figures, group, measure)
              for group in GROUPS for measure in UNITS}
    tables["script-lines"] = lines(figures)
    with open(PAGE, encoding="utf-8") as file:
        text = file.read()
    page = filled(text, tables)
    if "--check" in sys.argv:
        sys.exit(0 if page == text else "docs/BENCHMARKS.md has other tables than the figures give")
    with open(PAGE, "w", encoding="utf-8") as file:
        file.write(page)
    with open(PLOT, "w", encoding="utf-8") as file:
        file.write(plot(figures))


if __name__ == "__main__":
    main()
