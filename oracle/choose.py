#!/usr/bin/env python3
"""Chooses lines of the oracle for the stored replay: some so that each of the things below occurs, the others any.

    oracle/choose.py SEED:LINES ..       # e.g. 11:60000; writes the chosen lines, and on standard error how many of each seed

The things: every call, with every refusal and on either side; stops, prints and sequences at both ends of their range; equal stops and equal
watermarks among the stops that trail or are elected; a price before that equals the first print; the kill switch; children that print again
and elect; child identities that are pending; limits at 2^64 - 1, at 2^64 and above, and stops and collars at the top; of each selector
nothing, something and everything collected, stops at either end of a range, lowest above highest, holders that differ in one word."""
import os
import subprocess
import sys

from replay import ELECTED, ENTRY, HOLDER, MOVED, SELECTOR, STOP, TOP, Words

ORACLE = os.path.join(os.path.dirname(os.path.abspath(__file__)), "target", "oracle")
EACH = 4  # how often a thing is to occur
ANY = 400  # of each seed, besides
LONGEST = 2500  # the longest line that is taken as any


def rows(words, count, width):
    return [words.take(width) for _ in range(count)]


def ends(name, price):
    return {f"{name} {price}" for end in (0, TOP) if price == end}


def ties(name, stops, place):
    """Two stops of a side with the same number at a place."""
    seen = [(s[3], s[place]) for s in stops]
    return {f"{name} tie {place} side {side}" for side, n in seen if seen.count((side, n)) > 1}


def of_stops(name, stops):
    things = {f"{name} sequence {s[8] >> 32}" for s in stops if s[8] >> 31}
    for s in stops:
        things |= ends(f"{name} stop {s[3]}", s[4]) | ends(f"{name} watermark {s[3]}", s[5])
    return things


def of_selector(name, selector, stops, collected):
    kind, *words = selector
    amount = "none" if not collected else "all" if len(collected) == len(stops) else "some"
    things = {f"{name} {kind} {amount}"}
    if kind == 0:
        for s in stops:
            differ = [k for k in range(HOLDER) if s[STOP - HOLDER + k] != words[k]]
            if len(differ) == 1:
                things.add(f"{name} holder other in {differ[0]}")
    elif kind == 1:
        things.add(f"{name} side {words[0]}")
    else:
        things |= {f"{name} at {end}" for end in (0, 1) for s in collected if s[4] == words[end]}
        if words[0] > words[1]:
            things.add(f"{name} lowest above highest")
        things |= ends(f"{name} lowest", words[0]) | ends(f"{name} highest", words[1])
    return things


def of_limit(name, side, stop, collar, high, low):
    """Whether a limit has a high word, is the highest of one word or the lowest of two; stop and collar at the top."""
    things = {f"{name} limit of {side} high {high}"}
    if low == (0 if high else TOP):
        things.add(f"{name} limit of {side} at {high} {low}")
    return things | {f"{name} limit of {side} at the top, collar {collar}" for end in (1, TOP) if stop == TOP and collar == end}


def of_evaluation(name, given, wanted, stops):
    if name == "run":
        given.take(4)
    kill, _, _, collar = given.take(4)
    prints = given.take(2 if name == "run" else 4)
    script = 0 if name == "segment" else given.one()
    given.take(ENTRY * script)
    moves, count = wanted.take(2)
    used = 0 if name == "segment" else wanted.one()
    moved = [] if name != "segment" else rows(wanted, moves, MOVED)
    elected = rows(wanted, count, ELECTED)
    movers = [s for s in stops if s[:3] in [m[:3] for m in moved]]
    gone = [s for s in stops if s[:3] in [e[:3] for e in elected]]
    things = {f"{name} kill {kill} collar {collar > 0}", f"{name} sides {sorted({e[3] for e in elected})}", f"{name} sides {sorted({s[3] for s in movers})} move"}
    things |= ties(f"{name} moved", movers, 5) | ties(f"{name} elected", gone, 4)
    for price in prints[1:]:
        things |= ends(f"{name} print", price)
    if name != "run":
        things.add(f"{name} prev {prints[0]} equals first {prints[0] and prints[1] == prints[2]}")
    if used and any(e[7] not in prints for e in elected):
        things.add(f"{name} children elect")
    things |= {f"{name} child pending" for e in elected if e[14]}
    for e in elected:
        if e[8]:
            things |= of_limit(name, e[3], e[4], collar, e[9], e[10])
    return things | {f"{name} entries used {min(used, 3)} of {min(script, 3)}"}


def things_of(line):
    text, answers = line.split(" = ")
    name, *words = text.split(" ")
    given, wanted = Words([int(w) for w in words]), Words([int(w) for w in answers.split(" ")])
    if name not in ("admit", "update", "cancel", "find", "collect", "mass_cancel", "clear", "segment", "pass", "run"):
        # a call on values: its numbers at the ends, and the beginning of its answer
        limits = of_limit(name, given.words[1], given.words[2], given.words[0], *wanted.words) if name == "limit_for" else set()
        return limits | {f"{name} = {wanted.words[0] if wanted.words[0] < 20 else ''}"} | {t for n in given.words for t in ends(name, n)}
    _, following, count = given.take(3)
    stops = rows(given, count, STOP)
    things = of_stops(name, stops) | {f"{name} of {min(count, 2)}", f"{name} next {following >> 62}"}
    if name == "update":
        kind, side = given.take(2 + 3 + 2)[5:]
        return things | {f"update {kind} {side if kind == 3 else ''} = {wanted.one()}"}
    if name == "admit":
        terms = given.take(4 + 3 + 3 + 4)[10:]
        return things | {f"admit {terms[0]} = {wanted.one()}"}
    if name in ("collect", "mass_cancel"):
        return things | of_selector(name, given.take(SELECTOR), stops, rows(wanted, wanted.one(), STOP))
    if name in ("segment", "pass", "run"):
        return things | of_evaluation(name, given, wanted, stops)
    return things | {f"{name} = {wanted.words[0] if name != 'clear' else ''}"}


def main():
    if len(sys.argv) < 2:
        sys.exit(__doc__)
    seen = {}
    for plan in sys.argv[1:]:
        seed, count = plan.split(":")
        lines = subprocess.run([ORACLE, seed, count], capture_output=True, text=True, check=True).stdout.splitlines()
        chosen = []
        for k, line in enumerate(lines):
            things = [t for t in things_of(line) if seen.get(t, 0) < EACH]
            if things:
                chosen.append(k)
                for t in things:
                    seen[t] = seen.get(t, 0) + 1
        told = len(chosen)
        short = [k for k, line in enumerate(lines) if len(line) <= LONGEST and k not in chosen]
        chosen += short[::len(short) // ANY][:ANY]
        sys.stdout.write("".join(lines[k] + "\n" for k in sorted(chosen)))
        print(f"seed {seed}: {len(chosen)} of {count} lines, {told} of them for what they hold", file=sys.stderr)
    print(f"{len(seen)} things", file=sys.stderr)


if __name__ == "__main__":
    main()
