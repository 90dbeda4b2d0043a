#!/usr/bin/env python3
"""inputs.py FOLDER: writes what the tests of the command give it and expect of it.

Files are packed by the script of the examples; drawings are written here, line by line, as document 02 shows them.
"""

import pathlib
import sys

sys.path.insert(0, str(pathlib.Path(__file__).parents[2] / "examples"))
sys.dont_write_bytecode = True
from make import EXAMPLES, LARGE, POCKET, Filter, held, packed


def drawn(made):
    lines = ["digraph {"]
    lines += [f"{state} [label={colour}];" for state, colour in enumerate(made.colours)]
    lines += [f"{source} -> {target} [label={label}];" for source, label, target in made.edges]
    return "".join(line + "\n" for line in [*lines, "}"]).encode()


def three_states(*edges):
    """Ride Q: K's colours and two labels, with other edges."""
    return Filter(2, [0, 1, 1], list(edges))


def full(states, labels, colours, targets):
    """As many edges as there can be, with these colours and targets one after another."""
    edges = [(s, label, targets[(7 * s + label) % len(targets)]) for s in range(states) for label in range(labels)]
    return Filter(labels, [colours[state % len(colours)] for state in range(states)], edges)


def coloured(made, *colours):
    return made._replace(colours=list(colours))


def from_last(made, *targets):
    """The last state is a fault, and has these targets one after another."""
    last = len(made.colours) - 1
    edges = [(s, label, targets[label % len(targets)] if s == last else target) for s, label, target in made.edges]
    return made._replace(colours=made.colours[:-1] + [FAULT], edges=edges)


def last_repeated(made):
    """The last edge has the label of the edge before it."""
    source, label, target = made.edges[-1]
    return made._replace(edges=made.edges[:-1] + [(source, label - 1, target)])


# The colour that no edge of a large file leaves.
FAULT = 63

# The most that each file holds. In the large one colours and targets have as many digits as they can.
LARGEST = full(256, 64, range(10, FAULT), range(100, 256))
LARGEST_POCKET = full(16, 8, range(16), range(16))

FAULTY = {
    "label-outside": three_states((0, 2, 1)),
    "source-outside": three_states((0, 0, 1), (3, 0, 0)),
    "target-outside": three_states((0, 0, 1), (0, 1, 2), (1, 0, 3)),
    "label-and-target": three_states((0, 0, 1), (0, 1, 2), (1, 2, 3)),
    "all-outside": three_states((0, 0, 1), (0, 1, 2), (3, 2, 3)),
    "label-before": three_states((0, 1, 2), (0, 0, 1)),
    "source-before": three_states((0, 0, 1), (2, 1, 0), (1, 1, 0)),
    "repeated": three_states((0, 0, 1), (0, 0, 2)),
    "last-repeated": last_repeated(LARGEST),
    "last-repeated-pocket": last_repeated(LARGEST_POCKET),
}

K = EXAMPLES["k"]
P = EXAMPLES["p"]

# Some edge leaves a fault. Behind it stands, in the last three, one that is refused with another number.
LEFT = {
    "fault-left": coloured(K, 0, FAULT, 1),
    "first-fault-left": coloured(K, FAULT, 1, 1),
    "second-edge-left": coloured(K, FAULT, FAULT, 1),
    "unreached-fault-left": coloured(P, 0, FAULT, 1),
    "fault-left-from-2": coloured(K, 0, FAULT, 1)._replace(start=2),
    "fault-left-last": from_last(LARGEST, *[255] * 63, 254),
    "fault-left-outside": coloured(three_states((0, 0, 1), (1, 0, 0), (2, 0, 3)), 0, FAULT, 1),
    "fault-left-before": coloured(three_states((0, 1, 1), (1, 0, 0), (0, 0, 0)), 0, FAULT, 1),
    "fault-left-repeated": coloured(three_states((0, 0, 1), (1, 0, 0), (1, 0, 1)), 0, FAULT, 1),
}

# No edge leaves a fault. The last two have none: 62, and 15, which is the highest colour of a pocket file.
KEPT = {
    "fault-kept": Filter(2, [0, FAULT, FAULT], [(0, 0, 1), (0, 1, 2), (1, 0, 2), (2, 1, 1)]),
    "fault-kept-reduced": Filter(2, [0, FAULT], [(0, 0, 1), (0, 1, 1), (1, 0, 1), (1, 1, 1)]),
    "fault-kept-largest": from_last(LARGEST, 255),
    "fault-everywhere": coloured(K, FAULT, FAULT, FAULT),
    "colour-62-left": coloured(K, 0, 62, 1),
    "colour-15-left": coloured(K, 0, 15, 1),
}

# Each has one thing more than a pocket file holds.
TOO_LARGE = {
    "states-17": full(17, 8, range(16), range(17)),
    "labels-9": full(16, 9, range(16), range(16)),
    "colour-16": LARGEST_POCKET._replace(colours=[*range(15), 16]),
}


def main():
    folder = pathlib.Path(sys.argv[1])
    largest = {"largest": LARGEST, "largest-pocket": LARGEST_POCKET}
    for name, made in {**EXAMPLES, **largest, **FAULTY, **LEFT, **KEPT, **TOO_LARGE}.items():
        (folder / f"{name}.filter").write_bytes(packed(made, LARGE))
        (folder / f"{name}.dot").write_bytes(drawn(made))
        if held(made, POCKET):
            (folder / f"{name}.pocket").write_bytes(packed(made, POCKET))


main()
