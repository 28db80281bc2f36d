#!/usr/bin/env python3
"""places.py [-v]: counts the places of docs/DESIGN-PASS.md's points 1 to 8 in crates/*/src (point 8 in crates/*/proofs).

A place is what a reader would point at: a declaration, a function or a statement. -v prints each with its file and line."""
import collections
import glob
import re
import sys

VERBOSE = "-v" in sys.argv[1:]
SOURCES = sorted(glob.glob("crates/*/src/*.rt"))
NUMBERS = r"refused_with|check_for|settings_for|plans_for|number_for|number_with|met_by|number_in"
FLAGS = "found|full|whole|ended|any|yes|waits|given|delivered|failed|used|stop"
INTS = r"u8|u16|u32|u64|usize"


def plain(text):
    """The text with comments blanked, so that places keep their lines."""
    return re.sub(r"//[^\n]*", lambda m: " " * len(m.group()), text)


def items(text):
    """(kind, name, first line, head, body) of each fn, struct and enum."""
    found = []
    for m in re.finditer(r"\b(fn|struct|enum)\s+(\w+)", text):
        depth, i = 0, m.end()
        clause = 0
        while i < len(text):
            c = text[i]
            before = text[m.end():i]
            if c == "{":
                if m.group(1) == "fn" and re.search(r"(requires|ensures\*?(\s+\w+)?)\s*$", before):
                    depth_c, j = 0, i
                    while True:
                        depth_c += {"{": 1, "}": -1}.get(text[j], 0)
                        j += 1
                        if depth_c == 0:
                            break
                    i = j
                    continue
                break
            if c == ";" and "[" not in before.rsplit("\n", 1)[-1]:
                break
            i += 1
        if i >= len(text) or text[i] != "{":
            continue
        head, start = text[m.start():i], i
        depth = 0
        while True:
            depth += {"{": 1, "}": -1}.get(text[i], 0)
            i += 1
            if depth == 0:
                break
        found.append((m.group(1), m.group(2), text.count("\n", 0, m.start()) + 1, head, text[start:i]))
    return found


places = collections.defaultdict(list)
functions = []
clauses = collections.defaultdict(list)
pairs = collections.defaultdict(list)
for path in SOURCES:
    raw = open(path, encoding="utf-8").read()
    text = plain(raw)
    crate = path.split("/")[1]
    for kind, name, line, head, body in items(text):
        where = f"{path}:{line} {name}"
        if kind in ("struct", "enum"):
            if re.search(r"\bnumber: u32", body):
                places["1a a refusal's number beside values"].append(where)
            if kind == "struct" and re.search(rf"\b({FLAGS}): bool", body):
                places["1b a flag with a value beside it"].append(where)
            variants = re.findall(r"^\s*(\w+)(\s*\{|\s*\(|,)", body, re.M)
            if kind == "enum" and any(v[1].strip() == "," for v in variants) and any(v[1].strip() != "," for v in variants):
                places["1c an enum of Option's or Result's shape"].append(where)
            arrays = re.findall(r"(\w+): \[([\w:<>]+); (\w+)\]", body)
            if arrays and re.search(r"\b(count|size|len|have|end): usize|size: usize", body):
                places["6a an array with a length beside it"].append(where)
            if len(arrays) > 1 and len({a[2] for a in arrays}) < len(arrays):
                places["6b parallel arrays"].append(where)
            continue
        if re.search(r"->\s*u32\s", head + " ") and re.search(NUMBERS, head):
            places["1d a refusal returned as a number"].append(where)
        functions.append((crate, where, name, head, body))
        if re.fullmatch(rf"\{{\s*\(?\w+(\.\w+)?( % \w+)?\)? as ({INTS})\s*\}}", body):
            places["4a a conversion by hand"].append(where)
        if re.fullmatch(rf"\{{\s*if (\w+) \{{ 1 \}} else \{{ 0 \}}\s*\}}", body):
            places["4a a conversion by hand"].append(where)
        if "(" in head and re.search(r"\(\s*(number: u32)?\s*\)\s*->", head) and re.search(r"\b0\b", body) and re.match(r"\{\s*(let|\w+ \{|\w+::)", body) and name not in ("main",):
            places["4b a value of zeros by hand"].append(where)
        if re.search(r"(dst|into|out)\[[^\]]+\] = (src|s)\[", body):
            places["4c a copy by hand"].append(where)
        for c in re.findall(r"requires \{(.*?)\}\s*(?=ensures|\{|$)", head, re.S):
            for fact in c.split(" × "):
                clauses[(crate, " ".join(fact.split()).strip("() "))].append(where)
        params = re.search(r"\((.*)\)", re.split(r"\b(requires|ensures)\b", head)[0], re.S)
        if params:
            ps = [" ".join(p.split()) for p in params.group(1).split(",")]
            for a, b in zip(ps, ps[1:]):
                if a and b and "self" not in a and not a.startswith("rt:"):
                    pairs[(crate, a + ", " + b)].append(where)
        if re.search(r"\[usize; SLOTS\]", head):
            places["6c numbers of a night in one array, named by constants"].append(where)
        for m in re.finditer(r"match (call|kind|width) \{", body):
            places["7 a switch on which step to run"].append(where)
    for i, row in enumerate(text.split("\n"), 1):
        if re.match(r"\s*(while|loop)\b", row):
            places["3 a loop by while or loop"].append(f"{path}:{i} {row.strip()}")
        if re.search(r"&mut \[\w+\],\s*$|&mut \[\w+\], \w+: &mut \[\w+\]", row) and re.search(r"(starts|keys).*(bits|kids): &mut", row):
            places["6b parallel arrays"].append(f"{path}:{i} {row.strip()}")

shapes = collections.defaultdict(list)
for crate, where, name, head, body in functions:
    tokens = re.findall(r"\w+|[^\w\s]", head.split("(", 1)[1] + body) if "(" in head else []
    head_only = re.split(r"\b(requires|ensures)\b", head)[0]
    tokens = re.findall(r"\w+|[^\w\s]", head_only.split("(", 1)[1] + body)
    shape = []
    for t in tokens:
        if re.fullmatch(rf"({INTS})", t):
            t = "T"
        elif re.fullmatch(r"\d[\w]*|b?'.'", t):
            t = "N"
        elif re.search(r"[a-z](8|16|32|64)$", t):
            t = re.sub(r"(8|16|32|64)$", "", t)
        shape.append(t)
    if len(shape) > 8:
        shapes[" ".join(shape)].append(where)
for group in shapes.values():
    if len(group) > 1:
        places["2 functions that differ in a type, a size or a constant"] += group
for (crate, fact), where in clauses.items():
    if len(where) > 2 and len(fact) > 8:
        places["5a a fact in three contracts or more"].append(f"crates/{crate} {fact} ({len(where)})")
for (crate, pair), where in pairs.items():
    if len(where) > 2:
        places["5b parameters that travel together"].append(f"crates/{crate} {pair} ({len(where)})")
answers = sorted(glob.glob("crates/*/proofs/**/Answers.antt", recursive=True))
lines = 0
for path in answers:
    body = open(path, encoding="utf-8").read()
    lines += body.count("\n")
    for m in re.finditer(r"^\w[\w-]* (?:\w+ )*= search rules$", body, re.M):
        places["8a an answer that is `search rules` alone"].append(f"{path} {m.group()}")
places["8b files of answers"] += answers
for point in sorted(places):
    print(f"{len(places[point]):5} {point}")
    if VERBOSE:
        for place in places[point]:
            print("        " + place)
print(f"{lines:5} lines of answers")
