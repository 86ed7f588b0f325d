#!/usr/bin/env python3
"""Compares the statements of two checkouts of this repository: definitions, records and theorems of specs/ and of the lemma files, those
inside a `module _ .. where` too, whose parameters stand in front of each.

usage: python3 tools/design/theorems.py OLD NEW

A statement is a name with its type, and for an abbrev, an unfoldable or a record all that it says; the proof of a lemma is left
out. Each is found again by its crate and name, else anywhere with the same text. Prints what differs, old and new, and what is not
found again.
"""

import collections
import pathlib
import re
import sys

HEAD = re.compile(r"^(?:(abbrev|unfoldable)\s+)?(?:pub\s+)?(record\s+)?([^\s:(){}]+)\s*(.*)$", re.S)


def statements(root):
    found = collections.OrderedDict()
    for crate in sorted((root / "crates").iterdir()):
        for part in ("specs", "proofs"):
            for path in sorted((crate / part).rglob("*.antt")) if (crate / part).exists() else []:
                if path.name == "Lib.antt" or part == "proofs" and path.name in ("Answers.antt", "Invariants.antt", "Proof.antt"):
                    continue
                for name, said in blocks(path.read_text()):
                    found[(crate.name, part, path.stem, name)] = said
    return found


def blocks(text):
    """The items of a file: a signature, and for what unfolds also its lines."""
    text = re.sub(r"^\s*--[^\n]*\n?", "", text, flags=re.M)
    text = re.sub(r"\s--\s[^\n]*", "", text)
    items, current, modules, heading = [], None, [], None
    for line in text.split("\n"):
        words, deep = line.strip(), len(line) - len(line.lstrip())
        if not words:
            continue
        if heading is not None:
            heading += " " + words
        else:
            while modules and deep <= modules[-1][0]:
                modules.pop()
            if words.startswith("module "):
                at, heading = deep, words
        if heading is not None:
            if heading.endswith(" where"):
                modules.append((at, heading[:-6]))
                heading, current = None, None
            continue
        starts = deep == (modules[-1][0] + 2 if modules else 0)
        if starts and not words.startswith(("use ", "unfolding ", "pub mod ", "mod ")):
            current = [words]
            items.append((current, " ".join(under for _, under in modules)))
        elif current and not starts:
            current.append(words)
    groups = []
    for lines, under in items:
        joined = " ".join(" ".join(lines).split())
        match = re.match(r"(?:(?:abbrev|unfoldable)\s+)?(?:pub\s+)?(?:record\s+|type\s+)?([^\s:(){}]+)", joined)
        name = match.group(1) if match else joined[:30]
        signed = re.match(r"(?:(?:abbrev|unfoldable)\s+)?(?:pub\s+)?[^\s:(){}]+\s*:", joined) or joined.startswith(("pub record", "record"))
        if signed:
            groups.append([name, (under + " " + joined).strip(), joined.startswith(("abbrev", "unfoldable"))])
        elif groups and groups[-1][0] == name and groups[-1][2]:
            groups[-1][1] += " | " + joined
    return [(name, said) for name, said, _ in groups]


def main():
    old, new = (statements(pathlib.Path(a)) for a in sys.argv[1:3])
    texts = collections.defaultdict(list)
    for key, said in new.items():
        texts[said].append(key)
    by_name = collections.defaultdict(list)
    for key in new:
        by_name[(key[0], key[3])].append(key)
    same, moved, changed, gone = 0, [], [], []
    for key, said in old.items():
        if new.get(key) == said:
            same += 1
        elif key in new:
            changed.append((key, said, key, new[key]))
        elif by_name[(key[0], key[3])]:
            now = by_name[(key[0], key[3])][0]
            (moved if new[now] == said else changed).append((key, said, now, new[now]))
        elif texts[said]:
            moved.append((key, said, texts[said][0], said))
        else:
            gone.append((key, said))
    print(f"{len(old)} statements -> {len(new)}: the same {same}, moved {len(moved)}, changed {len(changed)}, not found again {len(gone)}")
    for key, said, now, says in changed:
        print(f"{'/'.join(key)}" + ("" if key == now else f" -> {'/'.join(now)}"))
        print(f"    - {said}\n    + {says}")
    for key, said in gone:
        print(f"not found again: {'/'.join(key)}\n    - {said}")


if __name__ == "__main__":
    main()
