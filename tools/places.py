#!/usr/bin/env python3
"""The places of each point of docs/DESIGN-PASS.md in the crates' src/ (point 8: in proofs/).

    tools/places.py [--list POINT]      run at the top of the repository; --list prints the places of one point
"""
import argparse
import pathlib
import re
from collections import defaultdict

ap = argparse.ArgumentParser()
ap.add_argument("--list", type=int, help="the point whose places are printed")
a = ap.parse_args()

SRC = [f for f in sorted(pathlib.Path("crates").glob("*/src/**/*.rt"))]
TEXT = {f: f.read_text() for f in SRC}
OWN = r"\b(None|Ok|Err|Accepted|Refused|Found)\b"
found = defaultdict(list)


def at(f, pos):
    return f"{f}:{TEXT[f].count(chr(10), 0, pos) + 1}"


def code(text):
    return re.sub(r"//[^\n]*", lambda m: " " * len(m[0]), text)


def functions(text):
    """Each function of a text: its position, its name, its clauses and its body."""
    for m in re.finditer(r"^( *)(pub )?fn (\w+)[^\n]*", text, re.M):
        end = text.find(f"\n{m[1]}}}", m.end())
        if end < 0:
            continue
        whole = text[m.start():end]
        open_ = whole.find(f"\n{m[1]}{{")
        if open_ < 0:
            open_ = whole.find("{")
        yield m.start(), m[3], whole[:open_], whole[open_:]


KEEP = set("if else while for loop match return let mut in fn pub as true false u8 u16 u32 u64 usize bool self".split())


def shape(body):
    return re.sub(r"\b\w+\b", lambda m: m[0] if m[0] in KEEP else "_", " ".join(body.split()))


shapes = defaultdict(list)
clauses = defaultdict(set)
for f in SRC:
    t = code(TEXT[f])
    for m in re.finditer(r"enum (\w+)[^{]*\{([^}]*)\}", t):
        if re.search(OWN, m[2]):
            found[1].append(f"{at(f, m.start())} enum {m[1]}")
    for m in re.finditer(r"struct (\w+)[^{;]*\{([^}]*)\}", t):
        if re.search(r"\b(has_\w+|present|fault|limited): (bool|u64)", m[2]):
            found[1].append(f"{at(f, m.start())} flag beside a value: struct {m[1]}")
    for pos, name, head, body in functions(t):
        if re.search(r"\b(present|has_prev|limited): (bool|u64),", head.split("requires")[0]):
            found[1].append(f"{at(f, pos)} flag beside a value: fn {name}")
        if body.count("\n") >= 4:
            shapes[shape(body)].append(f"{at(f, pos)} {name}")
        for m in re.finditer(r"requires\s+(?:\w+\s+)?\{([^{}]*)\}", head):
            for part in m[1].split("×"):
                clauses[" ".join(part.split()).strip("() ")].add(f"{at(f, pos)} {name}")
        params = head.split("requires")[0].split("ensures")[0]
        for m in re.finditer(r"(\w+): &(?:mut )?\[[^\]]*\]+,\s*(at|k|m|head|from|count|place): usize", params):
            found[6].append(f"{at(f, pos)} fn {name}: {m[1]}, {m[2]}")
        if re.match(r"(eq|same\w*|is_same\w*|number)$", name):
            found[4].append(f"{at(f, pos)} fn {name}")
    for m in re.finditer(r"\bwhile\b|\bloop\b", t):
        found[3].append(f"{at(f, m.start())} {m[0]}")
    for m in re.finditer(r"let mut \w+ = \[0u(?:8|64); \w+", t):
        found[6].append(f"{at(f, m.start())} {m[0]}")
    for m in re.finditer(r"match [^{]*\{\n(?:\s+\d+ => [^\n]*\n){4,}", t):
        found[7].append(f"{at(f, m.start())} match over numbers")
for s, fs in sorted(shapes.items()):
    if len(fs) > 1:
        found[2].append("; ".join(fs))
for c, fs in sorted(clauses.items()):
    if len(fs) > 2:
        found[5].append(f"{c}: {len(fs)} functions")
for f in sorted(pathlib.Path("crates").glob("*/proofs/**/Answers.antt")):
    for m in re.finditer(r"^pub (\S+) : goal\.", f.read_text(), re.M):
        found[8].append(f"{f} {m[1]}")

for p in range(1, 9):
    print(p, len(found[p]))
if a.list:
    print("\n".join(found[a.list]))
