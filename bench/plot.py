#!/usr/bin/env python3
"""Draws the figures of docs/PERFORMANCE.md from the tables of bench/RESULTS.md.

Usage: plot.py

It needs Debian's python3-matplotlib, so run it with /usr/bin/python3. Both axes of each figure are logarithmic.
"""
import math
import os
import re

import matplotlib
from matplotlib import pyplot

HERE = os.path.dirname(os.path.abspath(__file__))
RESULTS = os.path.join(HERE, "RESULTS.md")
FIGURES = os.path.join(os.path.dirname(HERE), "docs", "figures")
UNITS = {"µs": 1e-3, "ms": 1, "s": 1000, "MB": 1, "GB": 1000, "": 1}
FIGURE = re.compile(r"([\d.,]+) ?(µs|ms|s|MB|GB|)(?= |$)")


def number(cell):
    """Returns the number at the start of a cell, in milliseconds or megabytes."""
    digits, unit = FIGURE.match(cell).groups()
    return float(digits.replace(",", "")) * UNITS[unit]


def table(heading):
    """Returns the rows of the table under a heading, as dicts by column name. If two columns share a name, the second
    one is `NAME 2`."""
    with open(RESULTS, encoding="utf-8") as pages:
        section = pages.read().split(f"\n## {heading}\n")[1].split("\n## ")[0]
    lines = [[cell.strip() for cell in line[1:-1].split("|")] for line in section.splitlines() if line.startswith("|")]
    names = [name if lines[0].index(name) == at else f"{name} 2" for at, name in enumerate(lines[0])]
    return [dict(zip(names, cells)) for cells in lines[2:]]


def draw(axes, title, across, lines):
    """Draws a panel. Each line has a label and points. The ticks of the x axis are the measured sizes."""
    for label, points in lines:
        axes.loglog(*zip(*points), marker="o", markersize=4, label=label)
    sizes = sorted({size for _, points in lines for size, _ in points})
    values = [value for _, points in lines for _, value in points]
    axes.set_ylim(10 ** math.floor(math.log10(min(values))), 10 ** math.ceil(math.log10(max(values))))
    axes.minorticks_off()
    axes.set_xticks(sizes, [f"{size:.0f}" if size >= 10 else f"{size:.1f}" for size in sizes])
    axes.yaxis.set_major_formatter(lambda value, _: f"{value:,g}")
    axes.set(title=title, xlabel=across)
    axes.grid(True, alpha=0.4)


def figure(name, across, panels):
    """Writes an SVG file with panels side by side. All panels have the same lines, and share one legend."""
    drawing, all_axes = pyplot.subplots(1, len(panels), figsize=(1 + 4 * len(panels), 4), squeeze=False)
    for axes, (title, lines) in zip(all_axes[0], panels):
        draw(axes, title, across, lines)
    labels = all_axes[0][0].get_legend_handles_labels()
    drawing.legend(*labels, loc="lower center", ncol=2, fontsize="small", frameon=False)
    drawing.tight_layout(rect=(0, 0.05 * ((len(labels[0]) + 1) // 2) + 0.02, 1, 1))
    drawing.savefig(os.path.join(FIGURES, f"{name}.svg"), metadata={"Date": None})
    pyplot.close(drawing)


def passes():
    """Returns the lines of passes over programs with fifty inline sites per procedure, by file size."""
    rows = [row for row in table("Passes over programs") if ", 50, " in row["Procedures, sites of each, addresses"]]
    columns = [("functions, first pass", "Functions, first pass"), ("functions, later passes", "later passes"),
               ("frames, first pass", "Frames, first pass"), ("frames, later passes", "later passes 2")]
    return [(label, [(number(row["File"]), number(row[column])) for row in rows]) for label, column in columns]


def beside(column):
    """Returns one line for each of the two programs: a column of the table "Beside llvm-symbolizer", by file size."""
    lines, size = {}, None
    for row in table("Beside llvm-symbolizer"):
        size = number(row["PDB file"]) if row["PDB file"] else size
        lines.setdefault(row["Program"].strip("`"), []).append((size, number(row[column])))
    return list(lines.items())


def main():
    matplotlib.rcParams["svg.hashsalt"] = "limberlime"
    os.makedirs(FIGURES, exist_ok=True)
    figure("first_answer", "PDB file, MB", [("First answer, ms", beside("First answer")),
                                            ("Memory for the first answer, MB", beside("Memory"))])
    figure("all_addresses", "PDB file, MB", [("All addresses, ms", beside("All addresses")),
                                             ("Memory for all addresses, MB", beside("Memory 2"))])
    figure("passes", "Records file, MB", [("Passes over programs, ms", passes())])


if __name__ == "__main__":
    main()
