#!/usr/bin/env python3
"""Lists the places in src/ at which an older form of code may stand, point by point, and counts them.

usage: python3 tools/design/places.py FOLDER [POINT [SORT]]

FOLDER is a checkout of this repository. Without a point it prints one line for each sort of place: the point, the sort, how many
there are. With a point (and a sort) it prints the places, as file:line: text. A place is only a candidate: docs/DESIGN-PASS.md
says which were changed and why the others stay. The tests inside #[cfg(test)] modules are read for loops and casts, and not for
twins and clauses.
"""

import collections
import pathlib
import re
import sys

OWN = ["u8", "u16", "u32", "u64", "usize"]


def files(root):
    for crate in sorted((root / "crates").iterdir()):
        for path in sorted((crate / "src").rglob("*.rt")):
            yield path.relative_to(root / "crates"), path.read_text()


def blank(text):
    """The text with comments, strings and characters blanked, so that brackets and words count; lines stay."""
    kept = lambda m: re.sub(r"[^\n]", " ", m.group(0))
    return re.sub(r'//[^\n]*|b?"(?:\\.|[^"\\])*"|b?\'(?:\\.[^\']*|[^\'\\])\'', kept, text)


def close(text, at):
    """The place past the bracket that closes the one at a place."""
    pairs = {"(": ")", "{": "}", "[": "]"}
    opened, closed, depth = text[at], pairs[text[at]], 0
    for i in range(at, len(text)):
        depth += (text[i] == opened) - (text[i] == closed)
        if depth == 0:
            return i + 1
    return len(text)


class Function:
    """A function: its name, comment, parameters, result, clauses and body."""

    def __init__(self, path, raw, text, match):
        self.path, self.name = path, match.group(1)
        self.line = text.count("\n", 0, match.start()) + 1
        above = raw[: match.start()].rstrip(" \n")
        lines = []
        for line in reversed(raw[: match.start()].split("\n")[:-1]):
            if not line.strip().startswith(("//", "#[")):
                break
            lines.insert(0, line.strip())
        self.comment = " ".join(lines)
        at = text.index("(", match.end() - 1)
        end = close(text, at)
        self.params = [p.strip() for p in split(text[at + 1 : end - 1])]
        head = re.compile(r"\s*(requires|ensures)\*?\s*(\w+)?\s*\{")
        rest = re.compile(r"[^{;]*?(?=\brequires\b|\bensures\b|\bwhere\b|\{|;)", re.S).match(text, end)
        self.result = rest.group(0).replace("->", "").strip() if rest else ""
        at = rest.end() if rest else end
        self.clauses = []
        while True:
            clause = head.match(text, at)
            if not clause:
                break
            stop = close(text, clause.end() - 1)
            self.clauses.append((clause.group(1), clause.group(2), " ".join(text[clause.end() : stop - 1].split())))
            at = stop
        brace = re.compile(r"[^{;]*").match(text, at).end()
        self.body = text[brace : close(text, brace)] if brace < len(text) and text[brace] == "{" else ""

    def at(self):
        return f"{self.path}:{self.line}: {self.name}"


def split(text):
    """The parts of a list of parameters, split at the commas that stand in no bracket."""
    parts, depth, last = [], 0, 0
    for i, c in enumerate(text):
        depth += (c in "([{<") - (c in ")]}") - (c == ">" and text[i - 1] != "-")
        if c == "," and depth == 0:
            parts.append(text[last:i])
            last = i + 1
    parts.append(text[last:])
    return [p for p in parts if p.strip()]


def functions(path, raw, tests=False):
    text = blank(raw)
    cut = text.find("#[cfg(test)]")
    end = len(text) if tests or cut < 0 else cut
    for match in re.finditer(r"\bfn (\w+)\s*(?:<[^(]*?>)?\(", text[:end]):
        yield Function(path, raw, text, match)


def lines_of(found, path, raw, text, pattern):
    for match in re.finditer(pattern, text):
        number = text.count("\n", 0, match.start()) + 1
        found.append(f"{path}:{number}: {raw.splitlines()[number - 1].strip()}")


def shape(body):
    """The tokens of a body, with names, numbers and places of literals made alike."""
    words = {"let", "mut", "if", "else", "match", "for", "in", "while", "return", "fn", "as", "None", "Some", "Ok", "Err"}
    tokens = re.findall(r"\w+|[^\w\s]", body)
    return tuple(t if t in words or not re.match(r"\w", t) else "x" for t in tokens if t != ",")


def survey(root):
    found = collections.OrderedDict()

    def sort(point, name):
        return found.setdefault((point, name), [])

    texts = list(files(root))
    every = [f for path, raw in texts for f in functions(path, raw)]
    plain_enums = set()
    for path, raw in texts:
        text = blank(raw)
        for match in re.finditer(r"\benum (\w+)[^{]*\{([^}]*)\}", text):
            if not re.search(r"[({]", match.group(2)):
                plain_enums.add(match.group(1))
            if re.search(r"\b(Accepted|Fine|Nothing|Missing|Success)\b", match.group(2)):
                number = text.count("\n", 0, match.start()) + 1
                sort(1, "enum with a case for success").append(f"{path}:{number}: {match.group(1)}")
    for f in every:
        if re.fullmatch(r"Option<(Refusal|Fault|Flaw|Cause)>|Verdict", f.result) and "Verdict =" not in f.result:
            sort(1, "an error by Some, or by an own enum").append(f.at())
        if f.result == "bool" and any("&mut" in p for p in f.params):
            sort(1, "a bool that tells whether a change was made").append(f.at())
        if f.result in OWN + ["Cursor", "Option<usize>"] and re.search(r", or (the end|how many|1 where|0 where|or 0)|or the end\b", f.comment):
            sort(1, "a number that stands for none").append(f.at())
        if f.name == "number" and f.result in OWN and "match" in f.body:
            sort(1, "numbers of cases written out").append(f.at())
        if any(re.search(r":\s*bool$", p) for p in f.params):
            sort(1, "a bool given to choose").append(f.at())
    for path, raw in texts:
        text = blank(raw)
        lines_of(sort(1, "a flag in a pair or in a struct"), path, raw, text, r"\(bool, |(?m:^\s+(?:pub(?:\([a-z]+\))? )?\w+: (?:bool|\[bool; [\w:]+\]),$)")
        lines_of(sort(1, "Ok, Err or None passed on by a match"), path, raw, text, r"Ok\(\(\)\) => Ok\(\(\)\)|None => None\b|Ok\(\(\)\) => None|if \w+\.is_some\(\) \{\s*return")
    for a, group in twins(every).items():
        sort(2, "functions of one shape, 14 tokens or more").append("; ".join(f.at() for f in group))
    for path, raw in texts:
        text = blank(raw)
        lines_of(sort(3, "while that counts"), path, raw, text, r"while [^{]*(?:[<>]=? |\w+\.depth < )[^{]*\{")
        for match in re.finditer(r"for (\w+) in [\w.()\s+-]*\.\.[^{]*\{", text):
            body = text[match.end() : close(text, match.end() - 1)]
            if re.search(r"\[[^\]]*\b" + match.group(1) + r"\b", body):
                number = text.count("\n", 0, match.start()) + 1
                sort(3, "for over numbers that index").append(f"{path}:{number}: {match.group(0)}")
        lines_of(sort(3, "a bool gathered in a loop"), path, raw, text, r"let mut \w+ = (?:true|false);")
        lines_of(sort(4, "widening by as"), path, raw, text, r" as (?:usize|u16|u32|u64)\b")
        lines_of(sort(4, "fields of a pattern named to be ignored"), path, raw, text, r"\b\w+: _[,\s]")
        lines_of(sort(4, "words for a case by a match"), path, raw, text, r"fn said\(")
        lines_of(sort(4, "a cell or record written out from another"), path, raw, text, r"\b(\w+): (\w+)\.\1,\s*\n\s*\w+: \2\.|\b\w+: (\w+)\.\w+,\s*\n\s*height: \3\.height")
    for f in every:
        if f.name in ("same_members", "eq", "cmp", "from_word", "from_letter"):
            sort(4, "equality or conversion by hand").append(f.at())
    clauses = collections.defaultdict(list)
    for f in every:
        for kind, name, said in f.clauses:
            clauses[(kind, re.sub(r"\b(recogniser|below|self)\b", "r", re.sub(r"\b[RSPL]\.", "R.", said)))].append(f)
    for (kind, said), group in sorted(clauses.items(), key=lambda c: -len(c[1])):
        if len(group) >= 3 and len(said) > 25:
            sort(5, "a clause in three contracts or more").append(f"{len(group)} x {kind} {said[:110]}")
    together = collections.defaultdict(list)
    for f in every:
        params = [re.sub(r"\s+", " ", p) for p in f.params]
        for size in (2, 3):
            for i in range(len(params) - size + 1):
                together[tuple(params[i : i + size])].append(f)
    for group, fs in sorted(together.items(), key=lambda g: -len(g[1])):
        if len(fs) >= 4 and not any("self" in p for p in group):
            sort(5, "parameters together in four functions or more").append(f"{len(fs)} x {', '.join(group)}")
    for path, raw in texts:
        text = blank(raw)
        for match in re.finditer(r"struct (\w+)[^{;]*\{([^}]*)\}", text):
            fields = match.group(2)
            arrays = re.findall(r"(\w+): \[[^;\]]+(?:\[[^\]]*\])?; [\w:]+\]", fields)
            counts = re.findall(r"(\w+): (?:usize|u16|u8|u32),", fields)
            number = text.count("\n", 0, match.start()) + 1
            if arrays and (counts or len(arrays) > 1):
                sort(6, "arrays with a count beside, or side by side").append(f"{path}:{number}: {match.group(1)}: {', '.join(arrays)} with {', '.join(counts)}")
        lines_of(sort(6, "a local array filled up to a length"), path, raw, text, r"let mut \w+ = \[[^\]]*; (?:MOST|ROOM|CALLS|\d+)\];")
    for f in every:
        kinds = [p for p in f.params if re.search(r":\s*(" + "|".join(sorted(plain_enums - {"Kind", "Cause", "Refusal", "Flaw", "Fault"})) + r")$", p)]
        if kinds:
            sort(7, "a case given to choose a step").append(f"{f.at()} ({', '.join(kinds)})")
    for crate in sorted((root / "crates").iterdir()):
        answers = [p for p in (crate / "proofs").rglob("*.antt")] if (crate / "proofs").exists() else []
        for p in answers:
            text = p.read_text()
            sort(8, "answers and invariants" if p.name in ("Answers.antt", "Invariants.antt", "Proof.antt") else "files of lemmas").append(
                f"{p.relative_to(root / 'crates')}: {text.count(chr(10))} lines"
            )
    return found


def twins(every):
    groups = collections.defaultdict(list)
    for f in every:
        form = shape(f.body)
        if len(form) >= 14:
            groups[form].append(f)
    return {form: group for form, group in groups.items() if len(group) > 1}


def main():
    root = pathlib.Path(sys.argv[1])
    asked = [a for a in sys.argv[2:]]
    found = survey(root)
    for (point, name), places in sorted(found.items(), key=lambda p: p[0][0]):
        if asked and str(point) != asked[0]:
            continue
        if len(asked) > 1 and asked[1] not in name:
            continue
        print(f"{point}  {len(places):4}  {name}")
        if asked:
            for place in places:
                print(f"        {place}")


if __name__ == "__main__":
    main()
