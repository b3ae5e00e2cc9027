#!/usr/bin/env python3
"""What the worksheet must answer, read from docs/WORKSHEET.md, by the calls of book.py.

    model/worksheet.py < crates/worksheet_cases/stdin
    model/worksheet.py table < sheets/example.txt     # one sheet by itself, as text, table or picture

A line `=== MODE NAME`, with text, table or picture for MODE, begins a sheet. The line is printed as it is, and the sheet's answer behind it; what stands before the
first such line is not run. The printed lines are the rows of sheets/make/rows.txt, NAME|form."""
import os
import sys

import book
import worksheet_reading as reading
from worksheet_picture import Panel, PANEL_PIXELS

ROOM = book.MOST_RECORDS
EVERY = (book.BY_PRICE_RANGE, 0, book.TOP, 0, 0)
CROCKFORD = "0123456789ABCDEFGHJKMNPQRSTVWXYZ"
# some spreadsheets put it before a text; it is no part of the first line
BYTE_ORDER_MARK = b"\xef\xbb\xbf"

# the places of an elected entry's words
IDENTITY, SIDE, STOP, QUANTITY, SEQUENCE, TRIGGER, LIMIT, CHILD, PENDING = slice(0, 3), 3, 4, 5, 6, 7, slice(8, 11), slice(11, 13), 13


# ---------------------------------------------------------------------
# Forms

def rows():
    here = os.path.dirname(os.path.abspath(__file__))
    with open(os.path.join(here, "..", "sheets", "make", "rows.txt"), "rb") as f:
        return dict(line.split(b"|", 1) for line in f.read().split(b"\n") if line)


ROWS = {name.decode(): form for name, form in rows().items()}


def uuid(high, low):
    h = f"{high << 64 | low:032x}"
    return "-".join((h[:8], h[8:12], h[12:16], h[16:20], h[20:]))


def identity(kind, high, low):
    if kind == 0:
        return uuid(high, low)
    if kind == 1:
        n = high << 64 | low
        return "".join(CROCKFORD[n >> 5 * k & 31] for k in reversed(range(26)))
    return str(low)


PIECES = {"n": (1, str), "w": (2, lambda h, l: str(h << 64 | l)), "u": (2, uuid), "i": (3, identity), "s": (1, lambda s: "sell" if s else "buy"),
          "o": (2, lambda there, p: str(p) if there else "none"), "l": (3, lambda there, h, l: str(h << 64 | l) if there else "none"),
          "h": (4, lambda *words: b"".join(w.to_bytes(8, "big") for w in words).split(b"\0")[0])}


def filled(name, values):
    """A row with its pieces; it takes all of the values."""
    text, *parts = ROWS[name].split(b"%")
    values = list(values)
    for part in parts:
        takes, piece = PIECES[chr(part[0])]
        made, values = piece(*values[:takes]), values[takes:]
        text += (made if isinstance(made, bytes) else made.encode()) + part[1:]
    assert not values, name
    return text + b"\n"


# ---------------------------------------------------------------------
# A sheet

class Sheet:
    def __init__(self, mode):
        self.mode, self.out, self.line = mode, [], 0
        self.w, self.path = [0] * book.store_words(ROOM), [0] * 4
        self.records, self.tick, self.in_use = ROOM, 0, False
        self.kill, self.collar, self.namespace, self.trade = 0, None, (0, 0), None
        self.run, self.script, self.asked = [], [], None
        self.panels = 0
        book.layout_store(self.w, self.records, self.tick)

    def settings(self):
        return self.kill, self.collar or 0, self.namespace

    # -----------------------------------------------------------------
    # Printing: in text, in a table, in both, in a picture

    def text(self, row, *values):
        if self.mode == "text":
            self.out.append(filled(row, values))

    def table(self, row, *values):
        if self.mode == "table":
            self.out.append(filled(row, values))

    def tell(self, row, *values):
        self.text(row, *values)
        self.table(row, *values)

    def picture(self, row, *values):
        if self.mode == "picture":
            self.out.append(filled(row, values))

    def refused(self, number):
        self.tell(f"REFUSED_{number}", self.line)
        self.picture("PICTURE_REFUSED", self.line, number)

    def accepted(self, number):
        """Whether a call was; says why where it was not."""
        if number:
            self.refused(number)
        return not number

    # -----------------------------------------------------------------
    # The whole

    def answer(self, body):
        lines = body.removeprefix(BYTE_ORDER_MARK).split(b"\n")
        if lines[-1] == b"":
            lines.pop()
        commands = [reading.command(line) for line in lines]
        self.table("TABLE_HEAD")
        if self.mode == "picture":
            high = PANEL_PIXELS * sum(name == "walk" for name, _ in commands)
            self.picture("PICTURE_HEAD", high, high)
            self.picture("PICTURE_STYLE")
            self.picture("PICTURE_BACK", high)
        stopped = False
        for line, (name, values) in zip(lines, commands):
            self.line += 1
            if name == reading.FAULT:
                self.unread(line, *values)
                stopped = True
                break
            if name:
                getattr(self, "do_" + name.replace("-", "_"))(*values)
        self.picture("PICTURE_END")
        if stopped:
            self.tell("STOPPED", self.line)
            self.picture("PICTURE_STOPPED", self.line)
        else:
            self.tell("DONE")
            self.picture("PICTURE_DONE")
        return b"".join(self.out)

    def unread(self, line, fault, column):
        word = () if fault == reading.MISSING else reading.holder_words(reading.word(line, column - 1)[:32])
        self.tell(f"FAULT_{fault}", self.line, column, *word)
        self.picture("PICTURE_FAULT", self.line, column)

    # -----------------------------------------------------------------
    # Settings

    def lay_out(self, records, tick):
        if self.in_use:
            self.tell("STORE_IN_USE", self.line)
            return
        number = book.check_tick_size(self.collar, tick) if self.collar is not None else 0
        if self.accepted(number or book.layout_store(self.w, records, tick)[0]):
            self.records, self.tick = records, tick
            self.tell("STORE", self.line, records, tick)

    def do_records(self, n):
        self.lay_out(n, self.tick)

    def do_tick(self, n):
        self.lay_out(self.records, n)

    def do_collar(self, collar):
        if collar is None or self.accepted(book.check_collar(collar) or book.check_tick_size(collar, self.tick)):
            self.collar = collar
            self.tell("COLLAR", self.line, *told(collar))

    def do_namespace(self, namespace):
        self.namespace = namespace
        self.tell("NAMESPACE", self.line, *namespace)

    def do_kill(self, on):
        self.kill = on
        self.tell("KILL_ON" if on else "KILL_OFF", self.line)

    def do_last(self, price):
        self.trade = price
        self.tell("LAST", self.line, *told(price))

    # -----------------------------------------------------------------
    # Stops. The words of one are identity, side, stop, watermark, trail, quantity, sequence, holder

    def tell_stop(self, row, table, stop, line=True, held=True):
        """A stop in a row of text and one of a table; with `held`, the row of text is another one where the stop has a holder."""
        first = [self.line] if line else []
        if held and any(stop[9:]):
            self.text(row + "_HOLDER", *first, *stop)
        else:
            self.text(row, *first, *stop[:9])
        self.table(table, self.line, *stop)

    def admit(self, side, who, stop, watermark, trail, quantity, holder):
        terms = (side, stop, watermark, trail)
        number, answer = book.admit(self.w, self.path, self.kill, self.trade, who, terms, quantity, holder)
        if self.accepted(number):
            self.in_use = True
            self.tell_stop("ADMITTED", "TABLE_ADMITTED", [*who, *terms, quantity, answer[0], *holder])

    def do_sell(self, *values):
        self.admit(book.SELL, *values)

    def do_buy(self, *values):
        self.admit(book.BUY, *values)

    def change(self, row, who, change):
        _, before = book.find(self.w, who)
        number, stop = book.update(self.w, who, change, self.trade)
        if not self.accepted(number):
            return
        if change[0] == book.QUANTITY and change[3] == 0:
            self.tell_stop("CANCELLED", "TABLE_CANCELLED", stop, held=False)
            return
        changed = {"QUANTITY": [stop[7]], "PRICE": [stop[4]], "BOTH": [stop[4], stop[7]], "REPLACED": [stop[3], stop[4], stop[7]]}[row]
        was, now = before[9], stop[8]
        if was == now:
            self.text(row + "_KEEPS", self.line, *stop[:3], *changed, now)
        else:
            self.text(row + "_LOSES", self.line, *stop[:3], *changed, now, was)
        self.table("TABLE_CHANGED", self.line, *stop)

    def do_qty(self, who, quantity):
        self.change("QUANTITY", who, (book.QUANTITY, 0, 0, quantity))

    def do_price(self, who, price):
        self.change("PRICE", who, (book.PRICE, 0, price, 0))

    def do_both(self, who, price, quantity):
        self.change("BOTH", who, (book.PRICE_AND_QUANTITY, 0, price, quantity))

    def do_replace(self, who, side, price, quantity):
        self.change("REPLACED", who, (book.REPLACE, side, price, quantity))

    def do_cancel(self, who):
        number, stop = book.cancel(self.w, who)
        if self.accepted(number):
            self.tell_stop("CANCELLED", "TABLE_CANCELLED", stop, held=False)

    def do_cancel_holder(self, holder):
        number, _, stops = book.mass_cancel(self.w, (book.BY_HOLDER, *holder), ROOM)
        if self.accepted(number):
            self.text("CANCELLED_HOLDER", self.line, len(stops), *holder)
            for stop in stops:
                self.tell_stop("STOP", "TABLE_CANCELLED", stop, line=False)

    def do_clear(self):
        if self.accepted(book.clear(self.w, self.path)[0]):
            self.tell("CLEARED", self.line)

    # -----------------------------------------------------------------
    # Lists

    def stops(self):
        return book.collect(self.w, EVERY, ROOM)[2]

    def do_list(self):
        stops = self.stops()
        self.text("LIST", self.line, len(stops))
        self.listed(stops)

    def do_holder(self, holder):
        stops = book.collect(self.w, (book.BY_HOLDER, *holder), ROOM)[2]
        self.text("LIST_HOLDER", self.line, len(stops), *holder)
        self.listed(stops)

    def listed(self, stops, table="TABLE_LISTED"):
        for stop in stops:
            self.tell_stop("STOP", table, stop, line=False)

    def do_totals(self):
        self.totals("TOTALS", self.line)

    def totals(self, row, *first):
        totals = book.pending_quantity(self.w)[1]
        self.text(row, *first, *totals)
        self.table("TABLE_TOTAL", self.line, book.SELL, *totals[:2])
        self.table("TABLE_TOTAL", self.line, book.BUY, *totals[2:])

    def left(self):
        stops = self.stops()
        self.text("LEFT", len(stops))
        self.listed(stops, "TABLE_LEFT")
        self.totals("TOTALS_LEFT")

    def do_ladder(self, prices):
        number, _, entries = book.ladder(self.w, prices, ROOM)
        if not self.accepted(number):
            return
        self.tell("LADDER", self.line, len(prices), len(entries))
        for stop, (bits, many, _) in zip(self.stops(), entries):
            self.tell("LADDER_STOP", *stop[:5], many)
            for j, price in enumerate(prices):
                if bits >> j & 1:
                    self.tell("LADDER_PRICE", price)

    # -----------------------------------------------------------------
    # Runs

    def do_prints(self, prices):
        if self.accepted(16 if len(self.run) + len(prices) > book.MOST_PRICES else 0):
            self.run = self.run + prices
            self.tell("PRINTS", self.line, len(prices), len(self.run))

    def do_turns(self):
        number, _, points = book.turning_points(self.run, book.MOST_PRICES)
        if self.accepted(number):
            self.tell("TURNS", self.line, len(points), len(self.run))
            for k, price in enumerate(points, 1):
                self.tell("TURN", k, price)

    def has_run(self):
        return self.accepted(0 if self.run else 16)

    def do_walk(self):
        if not self.has_run():
            return
        panel = None
        if self.mode == "picture":
            panel = Panel(self.picture, self.line, self.panels, self.run, self.stops())
            self.panels += 1
        self.steps("WALK", list(enumerate(self.run, 1)), panel)

    def do_ends(self):
        if self.has_run():
            numbered = list(enumerate(self.run, 1))
            self.steps("ENDS", numbered[:1] if self.run[0] == self.run[-1] else [numbered[0], numbered[-1]], None)

    def steps(self, row, prints, panel):
        """A step at each print; the moves are told by the stops before it."""
        self.text(row, self.line, len(self.run), self.run[0], self.run[-1])
        falls, moves, turn = book.falls_as_a_whole([price for _, price in prints]), 0, 0
        for number, price in prints:
            self.text("PRINT", number, price)
            self.table("TABLE_PRINT", self.line, number, price)
            before = {tuple(s[:3]): s for s in self.stops()}
            r = book.step(self.w, self.settings(), falls, self.trade, price, ROOM, ROOM)
            assert r.number == 0
            for *who, new in r.moved:
                was = before[tuple(who)]
                moves += 1
                self.text("MOVED", *who, was[4], new, was[5], price)
                self.table("TABLE_MOVED", self.line, number, price, *who, new, price, was[4], was[5])
                if panel:
                    panel.moved(number, tuple(who), new)
            for e in r.elected:
                turn += 1
                self.elected("ELECTED", number, turn, e)
                if panel:
                    panel.elected(number, tuple(e[IDENTITY]), e[STOP], turn)
            self.trade = price
        if panel:
            panel.finish()
        self.text("SUM", turn, moves)
        self.left()
        self.run = []

    def elected(self, row, number, turn, e, *trigger, table="TABLE_ELECTED"):
        self.text(row, turn, e[SIDE], *e[IDENTITY], e[QUANTITY], e[STOP], *e[LIMIT], e[SEQUENCE], *e[CHILD], *trigger)
        if e[PENDING]:
            self.text("CHILD_PENDING")
        self.table(table, self.line, number, e[TRIGGER], turn, *e[IDENTITY], e[SIDE], e[STOP], e[QUANTITY], e[SEQUENCE], *e[LIMIT], *e[CHILD])

    def do_child(self, entry):
        if len(self.script) == ROOM:
            self.tell("SCRIPT_FULL", self.line, ROOM)
            return
        self.script = self.script + [entry]
        number, (printed, present, start, first, last) = len(self.script), entry
        if not printed:
            self.tell("CHILD_NONE", self.line, number)
        elif present:
            self.tell("CHILD_FROM", self.line, number, first, last, start)
        else:
            self.tell("CHILD", self.line, number, first, last)

    def do_pass(self):
        if not self.has_run():
            return
        first, last = self.run[0], self.run[-1]
        words = [word for entry in self.script for word in entry]
        r = book.evaluate_pending_stops(self.w, self.settings(), words, self.trade, first, last, ROOM)
        if not self.accepted(r.number):
            return
        moves, many, used = r.answer
        self.text("PASS", self.line, first, last, len(self.script))
        for turn, e in enumerate(r.elected, 1):
            self.elected("PASS_ELECTED", 0, turn, e, e[TRIGGER])
        self.text("PASS_SUM", many, moves, used)
        self.left()
        self.trade = ([last] + [entry[4] for entry in self.script[:used] if entry[0]])[-1]
        self.run, self.script = [], []

    # -----------------------------------------------------------------
    # Asked and committed. What was asked is kept as its line, the moved and the elected

    def do_ask(self):
        if not self.has_run():
            return
        r = book.ask_segment(self.w, self.settings(), self.trade, self.run[0], self.run[-1], ROOM, 2 * ROOM)
        assert r.number == 0
        self.asked = self.line, r.moved, r.elected
        self.text("ASK", self.line, len(self.run), self.run[0], self.run[-1], len(r.elected), len(r.moved))
        self.tell_asked("TABLE_ASKED_MOVED", "TABLE_ASKED_ELECTED")
        self.text("ASKED")

    def tell_asked(self, moved, elected):
        for m in self.asked[1]:
            self.text("ASKED_MOVED", *m)
            self.table(moved, self.line, *m)
        for turn, e in enumerate(self.asked[2], 1):
            self.elected("ASKED_ELECTED", 0, turn, e, e[TRIGGER], table=elected)

    def do_commit(self):
        if not self.has_run():
            return
        if not self.asked:
            self.tell("NOT_ASKED", self.line)
            return
        line, moved, elected = self.asked
        self.text("COMMIT", self.line, line, len(elected), len(moved))
        self.tell_asked("TABLE_ASKED_MOVED", "TABLE_ASKED_ELECTED")
        r = book.commit_segment(self.w, self.settings(), self.trade, self.run[0], self.run[-1], elected, moved)
        if not self.accepted(r.number):
            return
        assert r.answer == [len(moved), len(elected)]
        self.text("COMMITTED", len(elected), len(moved))
        if self.mode == "table":
            self.tell_asked("TABLE_COMMITTED_MOVED", "TABLE_ELECTED")
        self.left()
        self.trade, self.run, self.asked = self.run[-1], [], None

    # -----------------------------------------------------------------
    # Walk and ends side by side

    def do_compare(self):
        if not self.has_run():
            return
        by_ends, walked = list(self.w), list(self.w)
        ends = book.segment(by_ends, self.settings(), self.trade, self.run[0], self.run[-1], ROOM, 2 * ROOM).elected
        walks = book.walk(walked, self.settings(), self.trade, self.run, ROOM).elected
        self.tell("COMPARE", self.line, len(self.run), len(walks), len(ends))
        for k in range(max(len(walks), len(ends))):
            w, e = (entries[k] if k < len(entries) else None for entries in (walks, ends))
            if w and e and alike(w, e):
                self.tell("BOTH_ALIKE", k + 1, *shown(w))
            else:
                if w:
                    self.tell("WALK_ONLY", k + 1, *shown(w))
                if e:
                    self.tell("ENDS_ONLY", k + 1, *shown(e))
        pairs = list(zip(self.run, self.run[1:]))
        never_rises, never_falls = all(a >= b for a, b in pairs), all(a <= b for a, b in pairs)
        if never_rises or never_falls:
            # what the line says of such a run
            assert len(walks) == len(ends) and all(map(alike, walks, ends)) and by_ends == walked
            self.tell("NEVER_RISES" if never_rises else "NEVER_FALLS")
            return
        found = [e[IDENTITY] for e in ends]
        missed = [w for w in walks if w[IDENTITY] not in found]
        self.tell("RUN_TURNS", len(missed), len(walks))
        for w in missed:
            self.tell("MISSED", *shown(w))
        self.tell("STORES_EQUAL" if by_ends == walked else "STORES_DIFFER")


def told(maybe):
    return (0, 0) if maybe is None else (1, maybe)


def shown(e):
    return [e[SIDE], *e[IDENTITY], e[QUANTITY], e[STOP], *e[LIMIT], e[SEQUENCE]]


def alike(a, b):
    """In all but the trigger price and the flag of a pending child."""
    return all(x == y for k, (x, y) in enumerate(zip(a, b, strict=True)) if k not in (TRIGGER, PENDING))


# ---------------------------------------------------------------------
# Stored sheets

def sheets(text):
    """Heading, mode and text of each."""
    found, at = [], 0
    while at < len(text):
        end = text.find(b"\n", at)
        end = len(text) if end < 0 else end
        line, following = text[at:end], min(end + 1, len(text))
        if reading.word(line, 0) == b"===":
            if found:
                found[-1][2] = text[found[-1][2]:at]
            mode = reading.word(line, reading.span(line, 0)[1]).lower().decode("latin-1")
            found.append([line, mode if mode in ("table", "picture") else "text", following])
        at = following
    if found:
        found[-1][2] = text[found[-1][2]:]
    return found


def answers(text):
    return b"".join(heading + b"\n" + Sheet(mode).answer(body) for heading, mode, body in sheets(text))


if __name__ == "__main__":
    given = sys.stdin.buffer.read()
    sys.stdout.buffer.write(Sheet(sys.argv[1]).answer(given) if sys.argv[1:] else answers(given))
