#!/usr/bin/env python3
"""Spells the definitions and lemmas of this repository in snake case: add-up and addUp become add_up. Types and modules keep their capitals.

usage: tools/names.py [--check] [FOLDER]

FOLDER is the top of a checkout, here if left out. It turns .antt and .rt files below crates/, edits below must-fail/ and wrong/, and in pages and
comments the camel-case names everywhere and the others in code spans. The table is taken from the declarations that the files hold, so it runs once,
right after the library's names were turned. --check prints the table and the names that fall together, and writes nothing.
"""
import collections
import os
import re
import sys

WORD = re.compile(r"[^\s(){}.;,@\"«»\[\]`:|/*]+")
DECLARED = re.compile(r"^\s*(?:(?:abbrev|unfoldable|unfolded|opaque|inline|pub|private) )*([a-z][\w'-]*)(?: \{[^{}]*\})* :(?: |$)(?!tie\.)")
OLD = re.compile(r"[a-z][a-zA-Z0-9_']*(?:-[a-zA-Z0-9_']+)*")
# names whose halves fall together with another's, or that read badly when cut
SPECIAL = {"getD-out": "get_or_out", "getD-set-zero": "get_or_set_zero", "missingAt": "absent_at", "tooLarge": "is_too_large"}


def snake(name):
    if name in SPECIAL:
        return SPECIAL[name]
    name = re.sub(r"([a-z0-9])([A-Z])", r"\1_\2", name)
    name = re.sub(r"([A-Z])([A-Z][a-z])", r"\1_\2", name)
    return name.replace("-", "_").lower()


def is_old(name):
    return OLD.fullmatch(name) is not None and ("-" in name or re.search(r"[A-Z]", name) is not None)


def files(root, *ends):
    for folder, dirs, names in os.walk(root):
        dirs[:] = sorted(d for d in dirs if d not in ("out", ".git", "target", "tools"))
        for n in sorted(names):
            if n.endswith(ends):
                yield os.path.join(folder, n)


def read(path):
    with open(path, encoding="utf-8", errors="surrogateescape", newline="") as f:
        return f.read()


def imported(text):
    """The names that a file takes from a library, which stay in it."""
    found = set()
    for path, block in re.findall(r"^use ([^\s{]+)\.\{([^}]*)\}", text, re.M):
        if not path.startswith("Rattle.") or re.match(r"Rattle\.(std|core|libc|io|os)\.", path):
            for item in block.split(","):
                found.add(item.strip().split(" as ")[-1])
    return found


def declared(root):
    names = set()
    for p in files(os.path.join(root, "crates"), ".antt"):
        for line in read(p).splitlines():
            m = DECLARED.match(line)
            if m:
                names.add(m.group(1))
    return names


def table(root):
    """Old name to new. Where a lemma falls together with a definition, the lemma is called a law."""
    names = declared(root)
    taken = {n for n in names if not is_old(n)} | {snake(n) for n in names if is_old(n) and "-" not in n}
    rows = {}
    for n in sorted(names):
        if is_old(n):
            rows[n] = snake(n) + ("_law" if "-" in n and snake(n) in taken else "")
    return rows


def turn(text, rows, keep):
    def word(m):
        w = m.group(0)
        return w if w in keep else rows.get(w, w)

    return WORD.sub(word, text)


def turn_code(text, rows, mark):
    """A file of code: its lines, and of its comments what turn_prose turns."""
    keep = imported(text) if mark == "--" else set()
    out = []
    for line in text.split("\n"):
        at = re.search(r"(?:^|(?<=\s))" + re.escape(mark), line)
        head, tail = (line[: at.start()], line[at.start() :]) if at else (line, "")
        # what Rattle names behind tie. and goal. is not ours
        head = re.sub(r"(?<![\w.])(?:tie|goal)\.[^\s(){}.;,]+", lambda m: m.group(0).replace("-", "\u2010"), head)
        head = turn(head, rows, keep).replace("\u2010", "-")
        out.append(head + turn_prose(tail, rows))
    return "\n".join(out)


def turn_prose(text, rows):
    camel = {a: b for a, b in rows.items() if "-" not in a}
    parts = re.split(r"(`[^`\n]*`)", text)
    return "".join(turn(p, rows if p.startswith("`") else camel, set()) for p in parts)


def with_turned(rows, names, text):
    """The rows, and what the library's script had turned before: an old spelling of a page whose snake case is declared."""
    more = dict(rows)
    for w in set(WORD.findall(text)):
        if w not in more and is_old(w) and snake(w) in names:
            more[w] = snake(w)
    return more


def main(argv):
    check = "--check" in argv
    rest = [a for a in argv if a != "--check"]
    root = rest[0] if rest else "."
    rows = table(root)
    if check:
        spelt = collections.defaultdict(set)
        for a, b in rows.items():
            spelt[b].add(a)
        for b, olds in sorted(spelt.items()):
            if len(olds) > 1:
                print("together:", b, sorted(olds))
        for p in files(os.path.join(root, "crates"), ".antt", ".rt"):
            words = set(WORD.findall(read(p)))
            for w in sorted(words):
                if w in rows and rows[w] in words:
                    print("meets:", p, w, rows[w])
        print(len(rows), "names")
        return 0
    names = declared(root)
    for p in files(root, ".antt", ".rt", ".edit", ".md"):
        text = read(p)
        if p.endswith(".md"):
            new = turn_prose(text, with_turned(rows, names, text))
        elif p.endswith(".edit"):
            new = turn(text, with_turned(rows, names, text), set())
        else:
            new = turn_code(text, rows, "--" if p.endswith(".antt") else "//")
        if new != text:
            with open(p, "w", encoding="utf-8", errors="surrogateescape", newline="") as f:
                f.write(new)
    return 0


if __name__ == "__main__":
    raise SystemExit(main(sys.argv[1:]))
