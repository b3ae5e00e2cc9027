"""The calls on the store and on values alone, as session lines of call_cases: those of store_cases.txt, values that no call knows, and sessions by chance.

A line of store_cases.txt is a line of a session, written for readers: sides, changes and selectors by name, the last trade, the kill switch
and the holder where there are any, and a note in brackets, which becomes a line of its own. `most` is the most records, `most+1` one more,
`top` the highest number, and R.K word K of record R. `room N V` lends the words of N records, each V, `over K` or `short K` of them. Two
lines stand for many: `break P V ..` sets words, asks every call and sets the words back; `many N` admits N stops."""
import os
import re

import book
import session
from chance import Chance

TOP = 2**64 - 1
SIDES = {"buy": 0, "sell": 1}
NUMBERS = {"most": book.MOST_RECORDS, "most+1": book.MOST_RECORDS + 1, "top": TOP}


def number(word):
    return NUMBERS[word] if word in NUMBERS else int(word)


def place(word):
    """A word of the header, or of a record."""
    record, _, k = word.rpartition(".")
    return book.place(number(record), int(k)) if record else int(k)


def maybe(price):
    return "0 0" if price is None else f"1 {price}"


def after(words, name):
    """The number behind a word, if it is there."""
    return words[words.index(name) + 1] if name in words else None


def row(words):
    return " ".join(map(str, words))


def admit(words):
    identity, side, terms, quantity = words[1:4], SIDES[words[4]], words[5:8], words[8]
    holder = words[words.index("holder") + 1:][:book.HOLDER_WORDS] if "holder" in words else []
    return row(["admit", int("kill" in words), maybe(after(words, "trade")), *identity, side, *terms, quantity, *holder])


def update(words):
    if "replace" in words:
        at = words.index("replace")
        change = f"3 {SIDES[words[at + 1]]} {words[at + 2]} {words[at + 3]}"
    elif "price" in words:
        quantity = after(words, "quantity")
        change = f"{1 if quantity is None else 2} 0 {after(words, 'price')} {quantity or 0}"
    else:
        change = f"0 0 0 {after(words, 'quantity')}"
    return f"update {' '.join(words[1:4])} {change} {maybe(after(words, 'trade'))}"


def select(words):
    """A line with a selector: by name, or as its words."""
    call, by, *values = words
    if by == "holder":
        return row([call, book.BY_HOLDER, *values])
    if by == "side":
        return row([call, book.BY_SIDE, SIDES[values[0]]])
    return row([call, book.BY_PRICE_RANGE, *values]) if by == "range" else row(words)


def room(words):
    more = int(after(words, "over") or 0) - int(after(words, "short") or 0)
    return f"words {book.store_words(number(words[1])) + more} {words[2]}"


# every call on a store, which a damaged one refuses
EVERY = ["well_formed", "admit 0 0 0 2 0 9 1 90 100 10 1", "update 2 0 1 0 0 0 2 0 0", "cancel 2 0 1", "clear", "find 2 0 1", "quantity",
         "segment 0 0 0 0 0 0 100 90", "walk 0 0 0 0 0 0 100 90", "pass 0 0 0 0 0 0 100 90", "run 0 0 0 0 1 90", "collect 1 1",
         "mass_cancel 2 0 1000", "ladder 90 100"]


def broken(words, lent):
    """Words set, every call asked, the words set back."""
    pairs = [(place(p), number(v)) for p, v in zip(words[1::2], words[2::2])]
    return [f"set {p} {v}" for p, v in pairs] + EVERY + [f"set {p} {lent[p]}" for p, _ in pairs]


def many(count):
    """Stops of quantity 2^64 - 1, each with another stop price, of three holders: of every seven, four are sells."""
    lines = []
    for i in range(count):
        step = i * 37 % 1000
        side, stop = (1, step) if i % 7 < 4 else (0, 1000 + step)
        lines.append(f"admit 0 0 0 2 0 {i} {side} {stop} 1000 10 {TOP} {i % 3} 0 0 0")
    return lines


def plain(words):
    """A line of the file as a line of a session."""
    by_name = {"room": room, "admit": admit, "update": update, "collect": select, "mass_cancel": select}
    if words[0] in by_name:
        line = by_name[words[0]](words)
    elif words[0] == "set":
        line = f"set {place(words[1])} {words[2]}"
    elif words[0] == "path":
        line = f"path 1 1 {words[2]} {words[3]}"
    else:
        line = row(words)
    return row(NUMBERS.get(word, word) for word in line.split(" "))


def written():
    """The cases of the file, line by line, with the words that the lines before leave, which `break` needs."""
    model, lines = session.Session(), []

    def add(new):
        for line in new:
            lines.append(line)
            model.line(line)

    add(["show 1", "lists 8 16 8"])
    with open(os.path.join(os.path.dirname(os.path.abspath(__file__)), "store_cases.txt"), encoding="ascii") as text:
        for line in text.read().splitlines():
            note = re.search(r" \((.*)\)$", line)
            if note and not line.startswith("#"):
                add(["# " + note.group(1)])
                line = line[:note.start()]
            words = line.split(" ")
            if words[0] == "break":
                add(broken(words, model.buffer))
            elif words[0] == "many":
                add(many(number(words[1])))
            else:
                add([line if line.startswith("#") else plain(words)])
    return lines


# a kind, side, change or path flag that is none; only what a call reads is asked
UNKNOWN = """
# Unknown values: kind 3, side 2, change 4, path flags above 1, selector 3. They come before every other question
words STORE 0
layout 2 0
admit 0 0 0 2 0 7 1 98 100 10 1
admit 0 0 0 3 0 9 1 95 100 10 1
admit 0 0 0 2 0 9 2 95 100 10 1
admit 1 0 0 2 0 9 2 95 100 0 0
path 2 0 5 6
admit 0 0 0 2 0 9 1 95 100 10 1
clear
record 1 1 5 6
take 1 5
reset
run 0 0 0 0 1 90
path 0 2 5 6
admit 0 0 0 2 0 9 1 95 100 10 1
clear
record 1 1 5 6
take 1 5
reset
run 0 0 0 0 1 90
path 0 1 5 6
update 3 0 7 0 0 0 5 0 0
update 2 0 7 4 0 0 5 0 0
update 2 0 7 3 2 97 5 0 0
# a side that the change does not have is not read; a flag of a price is on for any number but 0
update 2 0 7 2 2 97 5 0 0
update 2 0 7 1 18446744073709551615 96 5 0 0
update 2 0 7 1 0 95 5 7 95
cancel 3 0 7
find 3 0 7
lists 0 0 0
collect 3 0 0 0 0
mass_cancel 3 0 0 0 0
collect 1 2 0 0 0
mass_cancel 1 2 0 0 0
collect 18446744073709551615 1 2 3 4
mass_cancel 1 18446744073709551615 0 0 0
# a side is looked at where the selector has one
lists 8 16 8
collect 0 2 0 0 0
collect 2 2 98 0 0
collect 1 1 2 2 2
trailed 2 90 100 10 105
elected_by 2 90 105
inconsistency 2 90 100 10
preview 2 90 10 100 105
limit 5 2 90
child 0 0 3 0 7
set 1 3
update 3 0 7 0 0 0 5 0 0
find 3 0 7
cancel 18446744073709551615 0 7
admit 0 0 0 2 0 9 2 95 100 10 1
collect 3 0 0 0 0
mass_cancel 1 2 0 0 0

# Terms, previews, limits, collars
trailed 1 90 100 10 105
trailed 1 90 100 10 100
trailed 1 90 100 200 105
trailed 0 110 100 10 95
trailed 0 18446744073709551615 18446744073709551615 10 18446744073709551613
elected_by 1 95 100 10 95
elected_by 1 95 100 10 96
elected_by 0 105 100 10 105
elected_by 0 105 100 10 104
inconsistency 1 101 100 0
inconsistency 1 101 100 10
inconsistency 0 99 100 10
inconsistency 0 100 100 10
preview 1 90 10 100 105
preview 1 90 10 100 100
preview 1 95 10 100 101
preview 0 110 10 100 95
preview 0 18446744073709551615 10 18446744073709551615 18446744073709551613
limit 5 1 95
limit 100 1 95
limit 1 0 18446744073709551615
limit 1 0 18446744073709551614
limit 18446744073709551615 0 18446744073709551615
limit 18446744073709551615 0 0
limit 1 1 18446744073709551615
limit 18446744073709551615 1 18446744073709551614
limit 0 1 95
collar 0
collar 1
collar_tick 0 5
collar_tick 5 0
collar_tick 6 5
collar_tick 10 5
child 0 0 2 0 7

# The print path
path 0 1 3 4
record 0 1 100 97
record 1 0 100 97
record 1 1 100 96
take 1 95
record 1 18446744073709551615 100 96
take 0 95
take 1 95
record 1 1 100 96
reset
reset
take 1 95""".replace("STORE", str(book.store_words(2))).splitlines()[1:]


def price(chance):
    return chance.of([0, TOP]) if chance.below(40) == 0 else 95 + chance.below(12)


def holder(chance):
    """One of few, which differ in one word."""
    words = [7] * book.HOLDER_WORDS
    words[chance.below(book.HOLDER_WORDS)] += chance.below(2)
    return row(words)


def chance_line(chance):
    """A call by chance, on few identities and prices, so that many are refused and many not."""
    identity = f"{chance.below(2)} 0 {chance.below(6)}"
    side, stop, mark = chance.below(2), price(chance), price(chance)
    if (stop > mark) == (side == 1) and chance.below(6):
        stop, mark = mark, stop
    trade = maybe(price(chance) if chance.below(3) == 0 else None)
    what = chance.below(23)
    if what < 9:
        kill, trail = int(chance.below(20) == 0), chance.of([0, 1, 3, 5, 10, 10, 10, 15, 20])
        return f"admit {kill} {trade} {identity} {side} {stop} {mark} {trail} {chance.below(7)} {holder(chance)}"
    if what >= 20:
        call = "collect" if what < 22 else "mass_cancel"
        return f"{call} {chance.of([f'0 {holder(chance)}', f'1 {side}', f'2 {price(chance)} {price(chance)}'])}"
    if what < 14:
        return f"update {identity} {chance.below(4)} {side} {stop} {chance.below(5)} {trade}"
    if what < 17:
        return f"cancel {identity}"
    return f"find {identity}" if what < 19 else chance.of(["quantity", "well_formed", "clear", "path 1 1 96 97"])


def by_chance():
    chance, lines = Chance(1), []
    for n, tick in [(1, 0), (3, 5), (6, 0), (8, 5)]:
        lines += ["", f"# By chance: {n} records, tick {tick}", f"words {book.store_words(n) + 2} 77", f"layout {n} {tick}"]
        lines += [chance_line(chance) for _ in range(230)]
    return lines


def lines():
    return written() + [""] + UNKNOWN + by_chance()
