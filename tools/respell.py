#!/usr/bin/env python3
"""Brings the repository's own definitions, constructors, fields and lemmas to snake case, by the table respell.tsv beside this script.

usage: python3 tools/respell.py [ROOT]

Run once, right after /opt/rattle/port/port.py, at the top of the repository (or of ROOT). It turns whole words: in specs/ and proofs/ outside quoted
texts, in the sources and the wrong programs everywhere, in the documents between backquotes. A second run changes nothing. docs/PORT.md tells why.
"""
import os
import re
import sys

HERE = os.path.dirname(os.path.realpath(__file__))
WORD = re.compile(r'[^\s(){}.;,@"«»`]+')
QUOTED = re.compile(r'"(?:[^"\\\n]|\\.)*"')
SPAN = re.compile(r"`[^`\n]*`")

# Lemmas that port.py gave the very name that a definition gets here: they keep their hyphen. Each file with the lemma's word.
LEMMAS = {
    "node_at": ["listing/proofs/Lines", "traces/proofs/Lines", "book/proofs/Terms", "engine/proofs/Entering", "book_test/proofs/Depth"],
    "plain_type": ["solver_expr/proofs/SymbolsHold"],
    "laid_from": ["book_layout/proofs/Contents"],
    "laid_out": ["book_layout/proofs/Contents", "book_growth/proofs/Grown", "worked_examples/proofs/IntegerBooks"],
    "function_of": ["declared_once/proofs/OfBook"],
    "no_narrow": ["narrow_sessions/proofs/NarrowBytes", "narrow_sessions/proofs/image/no_narrow/Proof"],
    "is_ours": ["live_lines/proofs/Hearing", "live_lines/proofs/Living", "script_checks/proofs/Reading", "command_lines/proofs/Reading"],
    "node_row": ["writer_bodies/proofs/NewTerms"],
}


def table():
    with open(os.path.join(HERE, "respell.tsv"), encoding="utf-8") as rows:
        names = dict(row.rstrip("\n").split("\t") for row in rows)
    # A word may be turned twice: first its humps, then its hyphens.
    return {old: names.get(new, new) for old, new in names.items()}


def words(text, names):
    return WORD.sub(lambda m: names.get(m[0], m[0]), text)


# Where the check names what it makes: the step behind `c.`, `w.` or `l.`, the goals, and the lines that state them.
MADE = re.compile(r"(?<![\w.'-])(?:c|w|l)(?:\.before)*\.[^\s(){}.;,@\"«»`]+|\b(?:goal|tie|need|given)\.[^\s(){}.;,]+")


def outside(kept, text, names):
    """Turns the words of a text but for what the pattern finds."""
    parts, at = [], 0
    for found in kept.finditer(text):
        parts += [words(text[at : found.start()], names), found[0]]
        at = found.end()
    return "".join(parts) + words(text[at:], names)


def prose(text, names):
    return SPAN.sub(lambda m: re.sub(r"[\w'₀-₉-]+", lambda w: names.get(w[0], w[0]), m[0]), text)


def turned(path, text, names, first):
    if path.endswith(".antt"):
        own = {word for word, files in LEMMAS.items() if first and any(path.endswith(f"crates/{file}.antt") for file in files)}
        for word in own:
            text = re.sub(rf"(?<![\w.'-]){word}(?![\w'-])", word.replace("_", "-"), text)
        if path.endswith(("/Answers.antt", "/Invariants.antt", "/Proof.antt")):
            return outside(MADE, text, names)
        return outside(QUOTED, text, names)
    if path.endswith(".rt"):
        return outside(QUOTED, text, names)
    if path.endswith(".edit"):
        return words(text, names)
    return prose(text, names)


def files(root):
    for top, kinds in (("crates", (".rt", ".antt", ".edit")), ("tests/wrong_programs", (".edit",)), ("docs", (".md",)), ("README.md", (".md",))):
        start = os.path.join(root, top)
        if os.path.isfile(start):
            yield start
        for folder, inner, found in os.walk(start):
            inner[:] = sorted(it for it in inner if it != "out")
            # docs/PORT.md has the old names beside the new.
            yield from (os.path.join(folder, it) for it in sorted(found) if it.endswith(kinds) and it != "PORT.md")


def main():
    root = sys.argv[1] if len(sys.argv) > 1 else "."
    names, changed = table(), 0
    # Only as long as the definitions have their old names is a lemma of a definition's new name told from it.
    with open(os.path.join(root, "crates/book/specs/Program.antt"), encoding="utf-8") as file:
        first = "nodeAt" in file.read()
    for path in files(root):
        with open(path, encoding="utf-8") as file:
            text = file.read()
        new = turned(os.path.realpath(path), text, names, first)
        if new != text:
            changed += 1
            with open(path, "w", encoding="utf-8") as file:
                file.write(new)
    print(f"respell: {changed} files")


if __name__ == "__main__":
    main()
