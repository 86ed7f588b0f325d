#!/usr/bin/env python3
"""Gives this repository's own definitions and lemmas the snake case of today's Rattle, in a checkout of the old text that port.py has turned.

usage: python3 tools/port/respell.py FOLDER

names.txt, beside this script, has a line `old new` for each definition, and a third word where a name is turned in one crate
alone. The words are replaced in the .rt and .antt files of FOLDER/crates, in code and clauses but not in comments and strings.
lemmas.txt has the lemmas, and the variables of proofs, whose dashes do not join two names; they are replaced in .antt files, but
not where the proof of a function names what Rattle made, which stands behind a dot. In clauses and ghost items of .rt files a ghost member is
named through the type alone: `R.Recogniser.meaning`, and in a function of one recogniser the bare `meaning`, become `R.meaning`.
A second run changes nothing.
"""

import os
import re
import sys

HERE = os.path.dirname(os.path.realpath(__file__))
WORD = re.compile(r"(?<![\w'-])[A-Za-z_][\w'₂]*(?:-[\w'₂≢]+)*")
# What keeps its words: comments of both languages, strings, characters.
KEPT = re.compile(r"//[^\n]*|(?<![^\s])--[^\n]*|\"(?:\\.|[^\"\\])*\"|b?'(?:\\.|[^'\\\n])'")

PATH = re.compile(r"\b([A-Z]\w*)\.(?:Small)?Recogniser\.([a-z]\w*)")
BARE = re.compile(r"(?<![\w.])(meaning|orderly|tally|small)(?![\w:])")
CLAUSE = re.compile(r"\b(?:requires|ensures)\b[^{\n]*\{")
GENERIC = re.compile(r"fn \w+<(\w+): (?:Small)?Recogniser>")


def names(file, crate):
    with open(os.path.join(HERE, file), encoding="utf-8") as f:
        lines = [line.split() for line in f]
    return {words[0]: words[1] for words in lines if words[2:] in ([], [crate])}


def respelled(text, turned):
    """The text with turned(word, whether a dot stands before it) for each word of code."""

    def code(start, end):
        return WORD.sub(lambda m: turned(m[0], text[start + m.start() - 1 : start + m.start()] == "."), text[start:end])

    out, at = [], 0
    for kept in KEPT.finditer(text):
        out += [code(at, kept.start()), kept[0]]
        at = kept.end()
    return "".join(out) + code(at, len(text))


def closing(text, at):
    """The place behind the brace that closes the one before at."""
    deep = 1
    while deep:
        deep += {"{": 1, "}": -1}.get(text[at], 0)
        at += 1
    return at


def by_type(text):
    """Ghost members named through the type, in the clauses of a .rt file."""
    text, out, at = PATH.sub(r"\1.\2", text), [], 0
    for clause in CLAUSE.finditer(text):
        heads = [h for h in GENERIC.finditer(text, 0, clause.start()) if "\n}\n" not in text[h.end():clause.start()]]
        if not heads or clause.end() < at:
            continue
        end = closing(text, clause.end())
        out += [text[at:clause.end()], BARE.sub(heads[-1][1] + r".\1", text[clause.end():end])]
        at = end
    return "".join(out) + text[at:]


def sources(crate):
    for path, dirs, files in os.walk(crate):
        dirs[:] = sorted(d for d in dirs if d != "out")
        for name in sorted(files):
            if name.endswith((".rt", ".antt")):
                yield os.path.join(path, name)


def turn(path, definitions, lemmas):
    """Whether the file was changed."""
    with open(path, encoding="utf-8") as f:
        old = f.read()
    of_function = path.split(os.sep + "proofs" + os.sep)[-1].count(os.sep) > 0

    def turned(word, dotted):
        if word in lemmas and path.endswith(".antt") and not (dotted and of_function):
            return lemmas[word]
        return definitions.get(word, word)

    new = respelled(old, turned)
    if path.endswith(".rt"):
        new = by_type(new)
    if new != old:
        with open(path, "w", encoding="utf-8") as f:
            f.write(new)
    return new != old


def main():
    if len(sys.argv) != 2:
        sys.exit(__doc__)
    crates, changed = os.path.join(sys.argv[1], "crates"), 0
    for crate in sorted(os.listdir(crates)):
        definitions, lemmas = names("names.txt", crate), names("lemmas.txt", crate)
        changed += sum(turn(path, definitions, lemmas) for path in sources(os.path.join(crates, crate)))
    print(f"respell: {changed} files changed")


main()
