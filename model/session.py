#!/usr/bin/env python3
"""What the crate `session` must print: one line for each line of text, as crates/session/src/lib.rt describes them, by the calls of book.py.

    model/session.py < crates/call_cases/stdin > crates/call_cases/stdout"""
import sys

import book

LENT = 9009
MOST_WORDS = book.store_words(book.MOST_RECORDS + 1)


def told(number, answer, length):
    """What a call returned, and the words of its answer."""
    return f"{number}, answer {' '.join(map(str, answer if answer is not None else [LENT] * length))}"


def words_of(n, at, count):
    """So many words of a line from a place on; those that it does not have are 0."""
    return tuple((n + [0] * (at + count))[at:at + count])


def known(condition, answer):
    return (0, answer) if condition else (book.UNKNOWN, None)


EVALUATE = "segment", "ask", "commit", "step", "walk", "pass", "run"


def handed(n):
    """The entries of both lists in a line that commits."""
    elected, moved = words_of(n, 8, 2)
    wide, narrow, from_moved = book.ELECTED_WORDS, book.MOVED_WORDS, 10 + book.ELECTED_WORDS * elected
    return [words_of(n, 10 + wide * k, wide) for k in range(elected)], [words_of(n, from_moved + narrow * k, narrow) for k in range(moved)]


class Session:
    def __init__(self):
        self.buffer, self.size, self.before = [0] * MOST_WORDS, 0, [0] * MOST_WORDS
        self.path, self.rooms, self.show = [0] * 4, (0, 0, 0), 0

    def words(self):
        return self.buffer[:self.size]

    # -----------------------------------------------------------------
    # Lines that set what is lent

    def lend(self, name, n):
        if name == "words":
            self.buffer, self.size = [n[1]] * MOST_WORDS, n[0]
        elif name == "set":
            self.buffer[n[0]] = n[1]
        elif name == "store":
            self.buffer, self.size = n + [0] * (MOST_WORDS - len(n)), len(n)
        elif name == "path":
            self.path = list(n)
        elif name == "lists":
            self.rooms = words_of(n, 0, 3)
        elif name == "show":
            self.show = n[0]
        return ""

    def admit_book(self, n):
        tick, following, count = n[:3]
        number, _ = book.layout_store(self.buffer, count + 1, tick)
        for k in range(count):
            s = words_of(n, 3 + book.STOP_WORDS * k, book.STOP_WORDS)
            self.buffer[2] = s[8]
            number = number or book.admit(self.buffer, [0] * 4, 0, None, s[:3], s[3:7], s[7], s[9:])[0]
        self.buffer[2] = following
        return str(number)

    # -----------------------------------------------------------------
    # Lines that call

    def of_terms(self, name, n):
        terms, price = tuple(n[:4]), n[4] if len(n) > 4 else 0
        if name == "trailed":
            return told(*known(n[0] <= 1, book.trailed(terms, price)), 4)
        if name == "elected_by":
            return str(int(book.elected_by(terms, price)) if n[0] <= 1 else book.UNKNOWN)
        if name == "inconsistency":
            return str(book.inconsistency(terms) if n[0] <= 1 else book.UNKNOWN)
        if name == "preview":
            new = book.preview(*n)
            return told(*known(n[0] <= 1, [1, *new] if new else [0] * 3), 3)
        if name == "draw":
            return " | ".join(drawn(terms, n[4:]))
        if name == "limit":
            return told(*known(n[1] <= 1, book.limit_words(book.limit(*n))), 3)
        if name == "collar":
            return str(book.check_collar(n[0]))
        if name == "collar_tick":
            return str(book.check_tick_size(*n))
        return told(*known(n[2] <= 2, book.child(n[:2], n[2:5]) if n[2] <= 2 else None), 3)

    def of_path(self, name, n):
        if name == "record":
            line = str(book.record_print(self.path, n[0], book.maybe(n[1:3]), n[3])[0])
        elif name == "take":
            line = told(*book.take_path(self.path, book.maybe(n)), 5)
        else:
            line = str(book.reset_path(self.path)[0])
        return line + self.with_path()

    def with_path(self):
        return ", path " + " ".join(map(str, self.path))

    def asked(self, name, n):
        if name == "find":
            return told(*book.find(self.words(), tuple(n)), 1 + book.STOP_WORDS)
        if name == "quantity":
            return told(*book.pending_quantity(self.words()), 4)
        return str(book.well_formed(self.words()))

    def altered(self, w, name, n):
        if name == "layout":
            return str(book.layout_store(w, *n)[0])
        if name == "clear":
            return str(book.clear(w, self.path)[0]) + self.with_path()
        if name == "cancel":
            return told(*book.cancel(w, tuple(n)), book.STOP_WORDS)
        if name == "update":
            return told(*book.update(w, tuple(n[:3]), n[3:7], book.maybe(n[7:9])), book.STOP_WORDS)
        holder = words_of(n, 11, book.HOLDER_WORDS)
        answer = book.admit(w, self.path, n[0], book.maybe(n[1:3]), tuple(n[3:6]), tuple(n[6:10]), n[10], holder)
        return told(*answer, 1) + self.with_path()

    def collected(self, w, name, n):
        call = book.collect if name == "collect" else book.mass_cancel
        number, answer, entries = call(w, words_of(n, 0, book.SELECTOR_WORDS), self.rooms[2])
        return told(number, answer, 1) + listed("collected", entries)

    def tried(self, w, n):
        number, answer, entries = book.ladder(w, n, self.rooms[2])
        return told(number, answer, 1) + listed("ladder", entries)

    def turned(self, n):
        number, answer, prices = book.turning_points(n, self.rooms[2])
        return told(number, answer, 1) + ", turns" + "".join(f" {k}={price}" for k, price in enumerate(prices))

    def evaluated(self, w, name, n):
        settings, room = (n[0], n[1], n[2:4]), self.rooms[:2]
        if name == "segment":
            r = book.segment(w, settings, book.maybe(n[4:6]), n[6], n[7], *room)
        elif name == "ask":
            r = book.ask_segment(w, settings, book.maybe(n[4:6]), n[6], n[7], *room)
        elif name == "commit":
            r = book.commit_segment(w, settings, book.maybe(n[4:6]), n[6], n[7], *handed(n))
        elif name == "step":
            r = book.step(w, settings, n[4], book.maybe(n[5:7]), n[7], *room)
        elif name == "walk":
            r = book.walk(w, settings, book.maybe(n[4:6]), n[6:], room[0])
        elif name == "pass":
            r = book.evaluate_pending_stops(w, settings, n[8:], book.maybe(n[4:6]), n[6], n[7], room[0])
        else:
            r = book.run_stop_triggers(w, self.path, settings, n[6:], book.maybe(n[4:6]), room[0])
        line = told(r.number, r.answer, 3 if name in ("pass", "run") else 2)
        if name == "run":
            line += self.with_path()
        return line + listed("elected", r.elected) + listed("moved", r.moved)

    def shown(self):
        if self.show == 1:
            return ", words" + "".join(f" {p}={v}" for p, v in enumerate(self.words()) if v != self.before[p])
        return stops(self.before, self.words()) if self.show == 2 else ""

    def on_store(self, name, n):
        self.before = self.words() + self.before[self.size:]
        w = self.words()
        if name in ("collect", "mass_cancel"):
            line = self.collected(w, name, n)
        elif name == "ladder":
            line = self.tried(w, n)
        elif name == "turns":
            line = self.turned(n)
        else:
            line = (self.evaluated if name in EVALUATE else self.altered)(w, name, n)
        self.buffer[:self.size] = w
        return line + self.shown()

    def line(self, text):
        if not text or text.startswith("#"):
            return text
        name, *words = text.split(" ")
        n = [int(word) for word in words]
        if name in ("words", "set", "store", "path", "lists", "show"):
            return self.lend(name, n)
        if name == "book":
            return self.admit_book(n)
        if name in ("record", "take", "reset"):
            return self.of_path(name, n)
        if name in ("well_formed", "quantity", "find"):
            return self.asked(name, n)
        if name in ("layout", "clear", "cancel", "admit", "update", "collect", "mass_cancel", "ladder", "turns", *EVALUATE):
            return self.on_store(name, n)
        return self.of_terms(name, n)


def drawn(terms, prices):
    """After each price the stop and the watermark that are kept, and those that are drawn; terms of an unknown side stay."""
    kept = panel = terms
    for price in prices:
        if terms[0] <= 1:
            kept, panel = book.trailed(kept, price), book.previewed(panel, price)
        yield f"{price}: kept {kept[1]} {kept[2]}, drawn {panel[1]} {panel[2]}"


def listed(name, entries):
    """The entries that a call wrote in a list."""
    return "".join(f", {name} {k}: {' '.join(map(str, words))}" for k, words in enumerate(entries))


def stops(before, after):
    """The next sequence and the pending count; each stop that is not as it was, by rising sequence; the sequence of each that is gone."""
    old, new = book.read(before).records, book.read(after).records
    changed = [s for s, was in zip(new, old) if s and (was is None or s.words() != was.words())]
    line = f", stops {after[2]} {after[1]}" + "".join(" | " + " ".join(map(str, s.words())) for s in sorted(changed, key=lambda s: s.seq))
    return line + "".join(f" - {was.seq}" for s, was in zip(new, old) if was and not s)


def answers(lines):
    session = Session()
    return "".join(session.line(line) + "\n" for line in lines)


if __name__ == "__main__":
    sys.stdout.write(answers(sys.stdin.read().splitlines()))
