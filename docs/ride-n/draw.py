#!/usr/bin/env python3
"""Draws ride N: before.svg, between.svg and after.svg, beside this script, from examples/n.filter.

States and edges are read from the file, the classes are those that `cases rounds` prints. Needs the second program and Graphviz.
"""

import re
import subprocess
import sys
from pathlib import Path

HERE = Path(__file__).resolve().parent
ROOT = HERE.parent.parent
FILTER = ROOT / "examples" / "n.filter"
CASES = ROOT / "second" / "target" / "release" / "cases"

PICTURES = ["before", "between", "after"]

# One fill a colour, light enough for black text. Ride N has the colours 0 to 4.
FILLS = ["#ffffff", "#cfe4ff", "#ffe2b0", "#cdeccb", "#f2cfe4"]


def unpacked(file):
    """The colours, and the edges as (source, label, target), of a file that is in order."""
    bits = "".join(f"{byte:08b}" for byte in file)
    place = 0

    def take(width):
        nonlocal place
        place += width
        return int(bits[place - width : place], 2)

    states = take(8) + 1
    take(6)  # labels
    take(8)  # start
    edge_count = take(15)
    colours = [take(6) for _ in range(states)]
    edges = [(take(8), take(6), take(8)) for _ in range(edge_count)]
    return colours, edges


def stages(text):
    """For each line `ROUND [TAKEN]: NAMES` the class that the round took, None at the beginning, and each state's class."""
    found = []
    for line in text.splitlines():
        head, names = line.split(":")
        taken = [int(field) for field in head.split()[1:]]
        found.append((taken[0] if taken else None, [int(name) for name in names.split()]))
    return found


def dot_text(title, colours, edges, names, next_taken):
    lines = [
        "digraph ride_N {",
        f'label="{title}"; labelloc=t; fontname="sans-serif"; fontsize=13;',
        "rankdir=LR; nodesep=0.3; ranksep=0.5;",
        # The size is fixed so that it does not depend on the fonts of the machine that draws.
        'node [shape=ellipse, style=filled, fixedsize=true, width=0.7, height=0.45, fontname="sans-serif", fontsize=12];',
        'edge [fontname="sans-serif", fontsize=11, arrowsize=0.7];',
    ]
    for name in sorted(set(names)):
        pen = 'color="#c00000"; penwidth=2;' if name == next_taken else 'color="#707070";'
        lines.append(f'subgraph cluster_{name} {{ label="class {name}"; fontsize=11; style=rounded; {pen}')
        for state, colour in enumerate(colours):
            if names[state] == name:
                lines.append(f'{state} [label="{state} / {colour}", fillcolor="{FILLS[colour]}"];')
        lines.append("}")
    lines += [f'{source} -> {target} [label="{label}"];' for source, label, target in edges]
    lines.append("}")
    return "\n".join(lines)


def svg_of(dot):
    drawn = subprocess.run(["dot", "-Tsvg"], input=dot, stdout=subprocess.PIPE, text=True, check=True).stdout
    # Among the comments is the version of Graphviz, which would make every machine's picture another file.
    return re.sub(r"<!--.*?-->\n?", "", drawn, flags=re.DOTALL)


def main():
    file = FILTER.read_bytes()
    try:
        rounds = subprocess.run([CASES, "rounds"], input=file, stdout=subprocess.PIPE, check=True).stdout.decode()
    except FileNotFoundError:
        sys.exit("draw.py: first run: cargo build --release --offline --manifest-path second/Cargo.toml")
    if rounds.startswith("refused"):
        sys.exit(f"draw.py: examples/n.filter is {rounds.strip()}")
    found = stages(rounds)
    if len(found) != len(PICTURES):
        sys.exit(f"draw.py: ride N has 2 rounds, but these are {len(found) - 1}")

    colours, edges = unpacked(file)
    following = [taken for taken, _ in found[1:]] + [None]
    for round_number, (picture, (_, names), next_taken) in enumerate(zip(PICTURES, found, following)):
        when = f"after round {round_number}" if round_number else "at the beginning"
        title = f"{when}: {len(set(names))} classes"
        try:
            svg = svg_of(dot_text(title, colours, edges, names, next_taken))
        except FileNotFoundError:
            sys.exit("draw.py: dot is missing; it is in the Debian package graphviz")
        (HERE / f"{picture}.svg").write_text(svg, encoding="utf-8")


if __name__ == "__main__":
    main()
