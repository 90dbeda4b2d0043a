#!/usr/bin/env python3
"""Counts what a change is measured by, crate by crate: run it at the project's root.

Code: lines of src that are neither blank nor a comment. Functions: `fn` in src. Definitions: names in specs marked `unfoldable` or
`abbrev`, records and data types. Theorems: every other name with a signature in specs and proofs, answers to the check's needs
included. Proof: lines of specs and proofs that are neither blank nor a comment. Edits: must-fail edits.
"""
import re
from pathlib import Path

DEFINED = re.compile(r"^\s*(?:pub )?(?:unfoldable|abbrev|record|data)\b|^\s*pub (?:record|data)\b")
SIGNED = re.compile(r"^\s*(?:pub )?([^\s:(){}=]+) : \S")


def lines(path, comment):
    text = (line.strip() for line in path.read_text().splitlines())
    return [line for line in text if line and not line.startswith(comment)]


def files(folder, kind):
    return sorted(folder.rglob(f"*.{kind}")) if folder.is_dir() else []


def counted(crate):
    code = [line for path in files(crate / "src", "rt") for line in lines(path, "//")]
    functions = sum(bool(re.search(r"\bfn [a-z]", line)) for line in code)
    proof = [line for part in ("specs", "proofs") for path in files(crate / part, "antt") for line in lines(path, "--")]
    definitions = sum(bool(DEFINED.match(line)) for path in files(crate / "specs", "antt") for line in lines(path, "--"))
    signed = sum(bool(SIGNED.match(line)) and not DEFINED.match(line) and not line.startswith("use ") for line in proof)
    return [len(code), functions, definitions, signed, len(proof), len(files(crate / "must-fail", "edit"))]


def main():
    heads = ["crate", "code", "functions", "definitions", "theorems", "proof", "edits"]
    print("| " + " | ".join(heads) + " |")
    print("|---" * len(heads) + "|")
    names = [line.split(":")[0] for line in Path("crates.txt").read_text().splitlines() if line and not line.startswith("#")]
    rows = [(name, counted(Path("crates") / name)) for name in names]
    for name, numbers in rows + [("all", [sum(column) for column in zip(*(numbers for _, numbers in rows))])]:
        print(f"| {name} | " + " | ".join(str(number) for number in numbers) + " |")


main()
