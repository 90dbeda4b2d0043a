#!/usr/bin/env python3
"""Brings the repository's own definitions and lemmas to the spelling of today's library.

    tools/respell.py [--list]

Run once at the top, behind the toolchain's own port. Names of definitions, fields, constructors and lemmas become snake case; a dash
stays in a lemma's name only between two names of definitions (`put_bit-drop`), and a plain word is joined by `_` (`lent_tail`).
Types, modules, functions of src/, exported names, strings and comments in plain words stay as they are: in comments and pages a name
is turned only between backquotes, or where it could be no word of English. --list prints the mapping and changes nothing.
"""
import glob
import re
import sys

TOKEN = re.compile(r"[A-Za-z_][A-Za-z0-9_']*(?:-[A-Za-z0-9_'][A-Za-z0-9_']*)*")
DECLARED = re.compile(r"^\s*(?:abbrev |unfoldable |opaque |pub |data |record )*([a-z][A-Za-z0-9_'\-]*)\s*:(?!:)", re.M)
DEFINED = re.compile(r"^(?:abbrev |unfoldable )(?:pub )?([a-z][A-Za-z0-9_']*)\s*:(?!:)", re.M)
IMPORT = re.compile(r"^\s*(?:ghost |pub )*use ([A-Za-z][\w.+]*)\.\{([^}]*)\}", re.M)
ALIAS = re.compile(r"\bas ([a-z][A-Za-z0-9_'\-]*)\s*$", re.M)

# Functions of the library whose laws the repository has too, and words that join others whatever is called like them.
LIBRARY = {"append", "take", "drop", "length", "set", "get", "get_or", "replicate", "map", "cons", "snoc", "nil", "add", "mul", "sub", "pow", "filter", "reverse", "any", "all"}
GLUE = {"at", "in", "is", "of", "to", "by", "as", "or", "and", "no", "are", "one", "few", "not"}


# The lemmas that a definition's new name would meet in their own files.
MET = {
    "crates/spelling/specs/Numbers.antt": "digits_of",
    "crates/inking/proofs/Laws.antt": "digits_of",
    "crates/leaving/proofs/Laws.antt": "in_order",
    "crates/folding/proofs/Accepted.antt": "in_order",
}


def law_files():
    files = glob.glob("crates/*/specs/**/*.antt", recursive=True) + glob.glob("crates/*/proofs/*.antt")
    return sorted(set(files))


def proof_files():
    return sorted(set(glob.glob("crates/*/proofs/**/*.antt", recursive=True)) - set(law_files()))


def record_fields():
    fields = set()
    for f in law_files():
        inside = False
        for line in bare(open(f, encoding="utf-8").read()).split("\n"):
            if line[:1].strip():
                inside = re.match(r"(pub )?record ", line) is not None
            elif inside:
                fields |= set(DECLARED.findall(line))
    return fields


def bare(text):
    """The text with its comments away."""
    return re.sub(r"--.*|//.*", "", text)


def snake(word):
    word = re.sub(r"(?<=[a-z0-9])([A-Z])", lambda m: "_" + m.group(1), word)
    return word.lower()


def respelled(word, known):
    if "-" not in word:
        return snake(word)
    parts = [snake(p) for p in word.split("-")]
    pieces = []
    i = 0
    while i < len(parts):
        for j in range(len(parts), i, -1):
            name = "_".join(parts[i:j])
            if name in known:
                pieces.append((name, True))
                i = j
                break
        else:
            pieces.append((parts[i], False))
            i += 1
    out = pieces[0][0]
    for (_, before), (name, here) in zip(pieces, pieces[1:]):
        out += ("-" if before and here else "_") + name
    return out


def mapping():
    declared = set()
    imported = set()
    defined = set()
    for f in law_files():
        text = bare(open(f, encoding="utf-8").read())
        defined |= set(DEFINED.findall(text))
        declared |= set(DECLARED.findall(text)) | set(ALIAS.findall(text))
    for f in law_files() + proof_files() + glob.glob("crates/*/src/**/*.rt", recursive=True):
        text = bare(open(f, encoding="utf-8").read())
        for path, names in IMPORT.findall(text):
            if not path.startswith("Rattle.") or path.startswith("Rattle.std"):
                imported |= {n.strip().split(" as ")[0] for n in names.split(",")}
    for f in proof_files():
        declared |= {n for n in ALIAS.findall(bare(open(f, encoding="utf-8").read())) if n != "tie"}
    declared = {d for d in declared if d not in imported}
    known = {snake(d) for d in defined} | LIBRARY
    known -= GLUE
    fields = record_fields()
    result = {}
    for d in sorted(declared):
        new = respelled(d, set() if d in fields else known)
        if new != d:
            result[d] = new
    # A lemma that would have its definition's name gets `_lem`.
    definitions = {n for n in declared if "-" not in n}
    names = {snake(n) for n in definitions}
    for d, new in result.items():
        if "-" in d and new in names:
            result[d] = new + "_lem"
    taken = {}
    for d, new in result.items():
        if new in taken:
            sys.exit(f"{d} and {taken[new]} would fall together as {new}")
        taken[new] = d
    return result


def turn(text, names, fields):
    def put(m):
        word = m.group(0)
        before = text[m.start() - 1] if m.start() else ""
        if word not in names:
            return word
        # behind a dot stands a field or a name of a module; what Rattle makes keeps its dashes
        if before == "." and "-" in word and word not in fields:
            return word
        return names[word]

    return TOKEN.sub(put, text)


def turn_lines(text, names, fields, mark):
    out = []
    for line in text.split("\n"):
        code, sep, comment = line, "", ""
        at = line.find(mark)
        if at >= 0 and line[:at].count('"') % 2 == 0:
            code, sep, comment = line[:at], mark, line[at + len(mark):]
        out.append(turn(code, names, fields) + sep + turn_prose(comment, names, fields))
    return "\n".join(out)


def turn_prose(text, names, fields):
    def quoted(m):
        return turn(m.group(0), names, fields)

    text = re.sub(r"`[^`\n]*`", quoted, text)
    camel = {o: n for o, n in names.items() if "-" not in o}
    return turn(text, camel, fields)


def main():
    names = mapping()
    fields = record_fields()
    if "--list" in sys.argv:
        for o, n in sorted(names.items()):
            print(f"{o}\t{n}")
        return
    laws = set(law_files())
    aliases = {n for f in law_files() + proof_files() for n in ALIAS.findall(bare(open(f, encoding="utf-8").read()))}
    for f in law_files() + proof_files():
        text = open(f, encoding="utf-8").read()
        if f in MET:
            text = re.sub(rf"\b{MET[f]}\b", MET[f] + "_lem", text)
        new = turn_lines(text, names, set(names) if f in laws else fields, "--")
        if new != text:
            open(f, "w", encoding="utf-8").write(new)
    for f in glob.glob("crates/*/src/**/*.rt", recursive=True):
        text = open(f, encoding="utf-8").read()
        new = turn_lines(text, names, fields, "//")
        if new != text:
            open(f, "w", encoding="utf-8").write(new)
    # The tool's words, as `to-dot`, stand in pages; modules that a proof renames do not.
    spoken = {o: n for o, n in names.items() if o not in aliases}
    for f in glob.glob("*.md") + glob.glob("docs/**/*.md", recursive=True):
        text = open(f, encoding="utf-8").read()
        new = turn_prose(text, spoken, set(spoken))
        if new != text:
            open(f, "w", encoding="utf-8").write(new)


main()
