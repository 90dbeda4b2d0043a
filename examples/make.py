#!/usr/bin/env python3
"""Writes the example filters that README.md lists, and draws them.

    make.py [--into FOLDER] [--shrink COMMAND] [--pictures]

Each NAME.filter goes into FOLDER, which is the script's own unless said otherwise, and beside it its drawing, NAME.dot, and
its pocket file, NAME.pocket, where there can be one. Nothing is reduced here: with --shrink, COMMAND is given each file on
its standard input, and what it writes becomes NAME.reduced.filter, with its drawing and its pocket file beside it. With
--pictures, Graphviz makes an .svg of each drawing that has few enough states.
"""

import argparse
import pathlib
import shlex
import subprocess
from typing import NamedTuple


class Filter(NamedTuple):
    """Edges are (source, label, target), ascending."""

    labels: int
    colours: list
    edges: list
    start: int = 0


# The two files: fields one after another, most significant bit first, then zero bits to the end of the byte.


class Widths(NamedTuple):
    """In bits. A source and a target are as wide as the number of states, a label as that of labels."""

    states: int
    labels: int
    start: int
    edges: int
    colour: int


LARGE = Widths(states=8, labels=6, start=8, edges=15, colour=6)
POCKET = Widths(states=4, labels=3, start=4, edges=8, colour=4)


def field(value, bits):
    if not 0 <= value < 1 << bits:
        raise ValueError(f"{value} does not fit into {bits} bits")
    return format(value, f"0{bits}b")


def packed(made, widths):
    row = field(len(made.colours) - 1, widths.states) + field(made.labels - 1, widths.labels)
    row += field(made.start, widths.start) + field(len(made.edges), widths.edges)
    row += "".join(field(colour, widths.colour) for colour in made.colours)
    for source, label, target in made.edges:
        row += field(source, widths.states) + field(label, widths.labels) + field(target, widths.states)
    row += "0" * (-len(row) % 8)
    return bytes(int(row[at : at + 8], 2) for at in range(0, len(row), 8))


def held(made, widths):
    """Whether a file of these widths holds the filter. Where it holds states and labels, it holds start and edges too."""
    return (
        len(made.colours) <= 1 << widths.states
        and made.labels <= 1 << widths.labels
        and max(made.colours) < 1 << widths.colour
    )


def unpacked(file, widths):
    row = "".join(format(byte, "08b") for byte in file)
    at = 0

    def number(bits):
        nonlocal at
        at += bits
        return int(row[at - bits : at], 2)

    states, labels = number(widths.states) + 1, number(widths.labels) + 1
    start, edges = number(widths.start), number(widths.edges)
    colours = [number(widths.colour) for _ in range(states)]
    of_edge = (widths.states, widths.labels, widths.states)
    return Filter(labels, colours, [tuple(map(number, of_edge)) for _ in range(edges)], start)


# The drawing: a line a state with its colour, then a line an edge with its label. It says neither the start nor the number
# of labels.


def drawn(made):
    """The text, or None where it would not say all of the filter."""
    used = max((label for _, label, _ in made.edges), default=0) + 1
    if made.start != 0 or made.labels != used:
        return None
    lines = ["digraph {"]
    lines += [f"{state} [label={colour}];" for state, colour in enumerate(made.colours)]
    lines += [f"{source} -> {target} [label={label}];" for source, label, target in made.edges]
    lines += ["}"]
    return "".join(line + "\n" for line in lines)


# The picture: a state shows its number and, in brackets, its colour, which it is also filled by; the start is thick.

MOST_IN_A_PICTURE = 60

DRESSED = r"""N { fillcolor = 1 + (int)label % 12; label = sprintf("%s\\n[%s]", name, label); } N [name == "0"] { penwidth = 3; }"""

STYLE = ["-Nshape=circle", "-Nstyle=filled", "-Ncolorscheme=set312", "-Nmargin=0.02"]


def picture(drawing):
    dressed = subprocess.run(["gvpr", "-c", DRESSED], input=drawing.encode(), stdout=subprocess.PIPE, check=True)
    return subprocess.run(["dot", "-Tsvg", *STYLE], input=dressed.stdout, stdout=subprocess.PIPE, check=True).stdout


# Filters from what they are about.


def listed(colours, edges):
    return Filter(max(label for _, label, _ in edges) + 1, colours, edges)


def walked(start, labels, step, colour):
    """The filter of all that the start leads to, numbered as first met. `step` gives None where a label cannot occur."""
    met = [start]
    number = {start: 0}
    edges = []
    for source, state in enumerate(met):
        for label in range(labels):
            after = step(state, label)
            if after is None:
                continue
            if after not in number:
                number[after] = len(met)
                met.append(after)
            edges.append((source, label, number[after]))
    return Filter(labels, [colour(state) for state in met], edges)


def tracked(possible, labels, moves, colour):
    """The filter that keeps the set of states the world may be in. `moves` lists where a label may lead from one of them."""

    def step(states, label):
        return frozenset(after for state in states for after in moves(state, label)) or None

    return walked(frozenset(possible), labels, step, colour)


def sure(question, if_no, if_yes, unknown):
    """The colour of a set of states: what the question's answer is in all of them, or that it is not known."""

    def colour(states):
        answers = {question(state) for state in states}
        if len(answers) == 2:
            return unknown
        return if_yes if True in answers else if_no

    return colour


# An annulus of as many regions as beams. Beam i stands between region i and the next one round; it tells that some agent
# has crossed it, but neither which nor in what direction.


def crossings(beams):
    """The region behind the beam, where the beam is at the region's edge."""

    def moves(region, beam):
        behind = (beam + 1) % beams
        return {beam: [behind], behind: [beam]}.get(region, [])

    return moves


def one_agent(beams, colour):
    return tracked(range(beams), beams, crossings(beams), colour)


def two_agents(beams, possible):
    alone = crossings(beams)

    def moves(regions, beam):
        one, other = regions
        return [(after, other) for after in alone(one, beam)] + [(one, after) for after in alone(other, beam)]

    def together(regions):
        return regions[0] == regions[1]

    return tracked(possible, beams, moves, sure(together, if_no=1, if_yes=0, unknown=2))


def in_target_region(region):
    return region == 0


# Figure 1 by its own words: either the agents are together, or one of the three beams separates them.

TOGETHER = "together"


def figure_1():
    def step(separating, beam):
        if separating == TOGETHER:
            return beam
        if separating == beam:
            return TOGETHER
        return ({0, 1, 2} - {separating, beam}).pop()

    return walked(TOGETHER, 3, step, lambda state: 0 if state == TOGETHER else 1)


# A corridor in the shape of an L. The labels are the robot's moves, each of one or two steps and no further than the wall.

MOVES = {0: (0, 1), 1: (0, -1), 2: (-1, 0), 3: (1, 0)}  # up, down, left, right


def corridor(wide, high):
    """From its left end along the lower leg, then up; `wide` and `high` both count the corner."""
    cells = {(x, 0) for x in range(wide)} | {(wide - 1, y) for y in range(high)}

    def one_step(cell, label):
        after = (cell[0] + MOVES[label][0], cell[1] + MOVES[label][1])
        return after if after in cells else cell

    def moves(cell, label):
        once = one_step(cell, label)
        return [once, one_step(once, label)]

    def at_the_top(cell):
        return cell == (wide - 1, high - 1)

    return tracked([(0, 0)], len(MOVES), moves, sure(at_the_top, if_no=0, if_yes=1, unknown=0))


EXAMPLES = {
    "k": listed([0, 1, 1], [(0, 0, 1), (0, 1, 2), (1, 0, 0), (2, 1, 0)]),
    "n": listed([0, 1, 1, 2, 2, 3, 4], [(0, 0, 1), (0, 1, 2), (1, 0, 3), (2, 0, 4), (3, 0, 5), (4, 0, 6)]),
    "p": listed([0, 0, 1], [(0, 0, 0), (1, 0, 2)]),
    "figure-1": figure_1(),
    "one-agent-5": one_agent(5, sure(in_target_region, if_no=0, if_yes=1, unknown=2)),
    "one-agent-5-yes": one_agent(5, sure(in_target_region, if_no=0, if_yes=1, unknown=0)),
    "one-agent-20": one_agent(20, sure(in_target_region, if_no=0, if_yes=1, unknown=2)),
    "two-agents-3": two_agents(3, [(region, region) for region in range(3)]),
    "two-agents-5": two_agents(5, [(one, other) for one in range(5) for other in range(5)]),
    "corridor-7": corridor(4, 4),
    "corridor-10": corridor(5, 6),
}


def shrunk(command, file):
    done = subprocess.run(shlex.split(command), input=file, stdout=subprocess.PIPE, check=True)
    if not done.stdout:
        raise ValueError(f"{command} wrote nothing, so it has refused the file")
    return done.stdout


def write(into, name, file, pictures):
    (into / f"{name}.filter").write_bytes(file)
    made = unpacked(file, LARGE)
    if held(made, POCKET):
        (into / f"{name}.pocket").write_bytes(packed(made, POCKET))
    drawing = drawn(made)
    if drawing is None:
        return
    (into / f"{name}.dot").write_bytes(drawing.encode())
    if pictures and len(made.colours) <= MOST_IN_A_PICTURE:
        (into / f"{name}.svg").write_bytes(picture(drawing))


def main():
    parser = argparse.ArgumentParser(description="Writes the example filters, and draws them.")
    parser.add_argument("--into", metavar="FOLDER", type=pathlib.Path, default=pathlib.Path(__file__).parent)
    parser.add_argument("--shrink", metavar="COMMAND", help="writes the reduced files too, by this command")
    parser.add_argument("--pictures", action="store_true", help="writes pictures of the drawings too, by Graphviz")
    wanted = parser.parse_args()
    for name, made in EXAMPLES.items():
        file = packed(made, LARGE)
        write(wanted.into, name, file, wanted.pictures)
        if wanted.shrink:
            write(wanted.into, f"{name}.reduced", shrunk(wanted.shrink, file), wanted.pictures)


if __name__ == "__main__":
    main()
