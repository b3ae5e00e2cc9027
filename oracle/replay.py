#!/usr/bin/env python3
"""Turns the oracle's lines (README.md) into lines of a session, and the Rust's answers into what the session must print.

    oracle/replay.py FOLDER < LINES        # writes FOLDER/stdin and FOLDER/stdout

What the session prints is taken from the Rust's answers, and from the line itself where the Rust does not tell it: the side and trail of
trailed terms, which stay, and the path after a run in which a child printed (`kept` 0)."""
import os
import sys

TOP = 2**64 - 1
LENT = 9009  # crates/session_text/src/lent.rt
ROOM = "lists 64 128 64"
# the words of a store's header and of a record; of the groups of a line; of a selector
HEADER, RECORD = 9, 15
STOP, HOLDER, ELECTED, MOVED, ENTRY, SELECTOR = 13, 4, 15, 4, 5, 5


class Words:
    """The words of a line's inputs or answers, taken from the front."""

    def __init__(self, words):
        self.words, self.at = words, 0

    def take(self, n):
        self.at += n
        assert self.at <= len(self.words)
        return self.words[self.at - n:self.at]

    def one(self):
        return self.take(1)[0]

    def ended(self):
        assert self.at == len(self.words)


def row(words):
    return " ".join(map(str, words))


def elected(wanted, count):
    """The entries of a list: those of the line without the kind of the child's identity."""
    line = ""
    for k in range(count):
        e = wanted.take(ELECTED)
        line += f", elected {k}: {row(e[:11] + e[12:])}"
    return line


def rows(words):
    """Each stop of STOPS, as its words."""
    return [words[2 + STOP * k:2 + STOP * (k + 1)] for k in range(words[1])]


def stops(before, wanted):
    """The next sequence and the pending count; each stop that is not as it was, by rising sequence; the sequence of each that is gone."""
    following, count = wanted.take(2)
    after = [following, count, *wanted.take(STOP * count)]
    old, new = rows(before), rows(after)
    line = f", stops {following} {count}" + "".join(" | " + row(stop) for stop in new if stop not in old)
    here = [stop[:3] for stop in new]
    return line + "".join(f" - {stop[8]}" for stop in old if stop[:3] not in here)


def book(given):
    """The tick, and the words of STOPS."""
    tick, following, count = given.take(3)
    return tick, [following, count, *given.take(STOP * count)]


def settings(given):
    kill, high, low, collar = given.take(4)
    return f"{kill} {collar} {high} {low}"


def script(given):
    return given.take(ENTRY * given.one())


def answer(number, words):
    return f"{number}, answer {row(words if number == 0 else [LENT] * len(words))}"


# ---------------------------------------------------------------------
# Each call: the lines of the session, and what they print

def by_values(name, given, wanted):
    if name == "trailed":
        side, stop, mark, trail, price = given.take(5)
        after = wanted.take(2)
        return [(f"trailed {row([side, stop, mark, trail, price])}", answer(0, [side, *after, trail]))]
    if name in ("elected_by", "inconsistency"):
        return [(f"{name} {row(given.take(5 if name == 'elected_by' else 4))}", str(wanted.one()))]
    if name == "preview":
        side, stop, mark, trail, price = given.take(5)
        return [(f"preview {side} {stop} {trail} {mark} {price}", answer(0, wanted.take(3)))]
    if name == "limit_for":
        return [(f"limit {row(given.take(3))}", answer(0, [1, *wanted.take(2)]))]
    if name == "child":
        return [(f"child {row(given.take(5))}", answer(0, wanted.take(3)))]
    if name == "collar":
        collar = given.one()
        number, made = wanted.take(2)
        assert made == (0 if number else collar)
        return [(f"collar {collar}", str(number))]
    return [(f"collar_tick {row(given.take(2))}", str(wanted.one()))]


def on_path(name, given, wanted):
    pending = given.one() if name == "record" else None
    lines = [(f"path {row(given.take(4))}", "")]
    if name == "record":
        return lines + [(f"record {pending} {row(given.take(3))}", f"0, path {row(wanted.take(4))}")]
    if name == "take":
        segment = wanted.take(5)
        return lines + [(f"take {row(given.take(2))}", f"{answer(0, segment)}, path {row(wanted.take(4))}")]
    return lines + [("reset", f"0, path {row(wanted.take(4))}")]


def on_store(name, given, wanted):
    tick, before = book(given)
    lines = [(f"words {HEADER + RECORD * (before[1] + 1)} 0", ""), (f"book {tick} {row(before)}", "0")]
    if name in ("admit", "clear", "run"):
        path = given.take(4)
        lines.append((f"path {row(path)}", ""))
    if name == "admit":
        line = f"admit {row(given.take(11 + HOLDER))}"
        number, seq = wanted.take(2)
        after = stops(before, wanted)
        lines.append((line, f"{answer(number, [seq])}, path {row(wanted.take(4))}{after}"))
    elif name == "update":
        trade, identity, change = given.take(2), given.take(3), given.take(4)
        lines.append((f"update {row(identity + change + trade)}", answer(wanted.one(), wanted.take(STOP)) + stops(before, wanted)))
    elif name == "cancel":
        lines.append((f"cancel {row(given.take(3))}", answer(wanted.one(), wanted.take(STOP)) + stops(before, wanted)))
    elif name == "find":
        lines.append((f"find {row(given.take(3))}", answer(0, wanted.take(1 + STOP))))
    elif name in ("collect", "mass_cancel"):
        selector, count = given.take(SELECTOR), wanted.one()
        listed = "".join(f", collected {k}: {row(wanted.take(STOP))}" for k in range(count))
        lines.append((f"{name} {row(selector)}", answer(0, [count]) + listed + stops(before, wanted)))
    elif name == "clear":
        after = stops(before, wanted)
        lines.append(("clear", f"0, path {row(wanted.take(4))}{after}"))
    elif name == "segment":
        lines += segment(before, lines[1], given, wanted)
    elif name == "pass":
        of, prints, entries = settings(given), given.take(4), script(given)
        counts = wanted.take(3)
        lines.append((row([f"pass {of}", *prints, *entries]), answer(0, counts) + elected(wanted, counts[1]) + stops(before, wanted)))
    else:
        lines.append(run(before, path, given, wanted))
    return lines + [("well_formed", "1")]


def segment(before, made, given, wanted):
    """The segment, and a walk along its prints on the same store, which elects and leaves the same."""
    of, prints = settings(given), given.take(4)
    counts = wanted.take(2)
    moved = "".join(f", moved {k}: {row(wanted.take(MOVED))}" for k in range(counts[0]))
    entries = elected(wanted, counts[1])
    after = stops(before, wanted)
    prices = prints[2:3] if prints[2] == prints[3] else prints[2:4]
    return [(f"segment {of} {row(prints)}", answer(0, counts) + entries + moved + after), ("well_formed", "1"), made,
            (f"walk {of} {row(prints[:2] + prices)}", answer(0, counts) + entries + after)]


def run(before, path, given, wanted):
    of, trade, entries = settings(given), given.take(2), script(given)
    counts = wanted.take(3)
    listed, after = elected(wanted, counts[1]), stops(before, wanted)
    kept, left = wanted.one(), wanted.take(4)
    if not kept:
        left = [left[0], *path[1:]]
    return (row([f"run {of}", *trade, *entries]), f"{answer(0, counts)}, path {row(left)}{listed}{after}")


def converted(line):
    text, answers = line.split(" = ")
    name, *words = text.split(" ")
    given, wanted = Words([int(w) for w in words]), Words([int(w) for w in answers.split(" ")])
    if name in ("record", "take", "reset"):
        lines = on_path(name, given, wanted)
    else:
        stores = ("admit", "update", "cancel", "find", "collect", "mass_cancel", "clear", "segment", "pass", "run")
        lines = (on_store if name in stores else by_values)(name, given, wanted)
    given.ended()
    wanted.ended()
    return lines


def main():
    if len(sys.argv) != 2:
        sys.exit(__doc__)
    pairs = [("show 2", ""), (ROOM, "")]
    for line in sys.stdin.read().splitlines():
        pairs += converted(line)
    for name, k in ("stdin", 0), ("stdout", 1):
        with open(os.path.join(sys.argv[1], name), "w", encoding="ascii") as out:
            out.write("".join(pair[k] + "\n" for pair in pairs))


if __name__ == "__main__":
    main()
