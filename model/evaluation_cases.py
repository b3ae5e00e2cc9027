"""The calls that evaluate, as session lines of call_cases: document 01's examples on runs, ratchets, limits, children, passes, refusals and runs over
path and store; stores with holders; and evaluations by chance."""
import book
from chance import Chance

TOP = 2**64 - 1
PLAIN = (0, 0)  # the kill switch off, no collar
HOLDERS = ["0 0 0 0", "1 2 3 4", "1 2 3 5", f"{TOP} {TOP} {TOP} {TOP}"]


def sell(low, stop, watermark=100, trail=10):
    return (2, 0, low), (1, stop, watermark, trail)


def buy(low, stop, watermark=100, trail=10):
    return (2, 0, low), (0, stop, watermark, trail)


def child_sell(low, stop):
    """A sell that has the identity of another stop's child."""
    return book.child((0, 0), (2, 0, low)), (1, stop, 100, 10)


FORECAST = (2, [sell(7, 98), sell(9, 95)])
STORES = {
    "empty": (2, []),
    "forecast": FORECAST,
    "broken": FORECAST,
    "both": (2, [sell(1, 100), buy(2, 100)]),
    "turning": (2, [sell(1, 95, 100, 5)]),
    "between": (2, [sell(1, 90), buy(2, 130, 120)]),
    "ties": (4, [sell(1, 90), sell(2, 91, 100, 9), buy(3, 130, 120), buy(4, 131, 120, 11)]),
    "kept": (2, [sell(1, 95)]),
    "sells": (2, [sell(1, 95), sell(2, 3, 100, 100)]),
    "buys": (2, [buy(1, 105, 100, 5), buy(2, TOP, 100, 5)]),
    "tops": (4, [buy(1, TOP - 4, 100, 5), buy(2, TOP - 1, 100, 5), buy(3, TOP, 100, 5)]),
    "top_sell": (2, [sell(1, TOP, TOP, 5)]),
    "child": (2, [sell(7, 98), child_sell(7, 50)]),
    "three": (4, [sell(1, 98), sell(2, 95), sell(3, 90)]),
    "three_child": (4, [sell(1, 98), sell(2, 95), sell(3, 90), child_sell(1, 50)]),
    "four": (4, [sell(1, 98), sell(2, 97), sell(3, 90), sell(4, 85)]),
    "emptied": (4, [sell(1, 98), sell(2, 97), sell(3, 90)]),
}


def row(words):
    return " ".join(map(str, words))


def store(name, holders=("",)):
    """A store made by admissions, of these holders in turn; a broken one has a pending count of 3."""
    n, stops = STORES[name]
    lines = ["show 0", f"words {book.store_words(4) + 2} 0", f"layout {n} 0"]
    for k, (identity, terms) in enumerate(stops):
        lines.append(f"admit 0 0 0 {row(identity)} {row(terms)} 1 {holders[k % len(holders)]}".rstrip())
    return lines + (["set 1 3"] if name == "broken" else []) + ["show 1"]


def settings(of):
    return f"{of[0]} {of[1]} 0 0"


def maybe(price):
    return "0 0" if price is None else f"1 {price}"


def segment(name, prev, first, last, of=PLAIN):
    return store(name) + [f"segment {settings(of)} {maybe(prev)} {first} {last}"]


def walk(name, prev, prices, of=PLAIN):
    return store(name) + [row([f"walk {settings(of)} {maybe(prev)}", *prices])]


def pass_(name, prev, first, last, script, of=PLAIN):
    return store(name) + [row([f"pass {settings(of)} {maybe(prev)} {first} {last}", *script])]


def run(name, path, trade, script, of=PLAIN):
    return store(name) + [f"path {row(path)}", row([f"run {settings(of)} {maybe(trade)}", *script])]


def lists(elected, moved, lines):
    return [f"lists {elected} {moved}", *lines, "lists 5 9"]


def examples():
    yield "# The store of forecast: sells 98 and 95, watermark 100, trail 10. The ends elect what the walk does"
    yield from walk("forecast", None, [100, 97, 94])
    yield from segment("forecast", None, 100, 94)
    yield ""
    yield "# A sell 100 and a buy 100. Without a price before, or with the same: buys first if last is above first, else sells first"
    for prev, last in [(None, 101), (None, 100), (None, 99), (100, 101), (100, 100)]:
        yield from segment("both", prev, 100, last)
    yield "# From above: sells first; from below: buys first"
    yield from segment("both", 101, 100, 101)
    yield from segment("both", 99, 100, 90)
    yield "# In a walk first and last are those of the whole run"
    for prev, prices in [(None, [100, 90, 101]), (None, [100, 110, 99]), (101, [100, 101]), (99, [100, 90])]:
        yield from walk("both", prev, prices)
    yield ""
    yield "# A turning run with a sell (95, 100, 5): elected in the walk, not from its ends"
    yield from walk("turning", None, [100, 110, 100])
    yield from segment("turning", None, 100, 100)


def segments():
    yield ""
    yield "# A sell (90, 100, 10) and a buy (130, 120, 10) ratchet at two points"
    yield from segment("between", None, 105, 110)
    yield from segment("between", None, 104, 100)
    yield "# Equal watermarks: the sell admitted first, and the buy admitted last, come first"
    yield from segment("ties", None, 110, 110)
    yield "# A sell (95, 100, 10) at 101: the watermark moves, the stop does not"
    yield from segment("kept", None, 101, 101)
    yield ""
    yield "# Sells 95 and 3, and buys 105 and 2^64 - 1, with a collar of 5; without a collar"
    yield from segment("sells", None, 3, 3, (0, 5))
    yield from segment("buys", None, TOP, TOP, (0, 5))
    yield from walk("sells", None, [95, 3], (0, 5))
    yield from segment("sells", None, 3, 3)
    yield "# Buys 2^64 - 5, 2^64 - 2 and 2^64 - 1, with collars of 1, 4 and 2^64 - 1: limits below the top, at it and above; a sell 2^64 - 1"
    for collar in 1, 4, TOP:
        yield from segment("tops", None, TOP - 5, TOP, (0, collar))
        yield from walk("tops", None, [TOP - 5, TOP - 3, TOP - 1, TOP], (0, collar))
        yield from segment("top_sell", None, TOP, TOP, (0, collar))
    yield from pass_("tops", None, TOP - 4, TOP - 4, [1, 1, TOP - 4, TOP - 1, TOP], (0, 4))
    yield from run("tops", (1, 0, 0, TOP - 4), TOP, [], (0, 1))
    yield ""
    yield "# The kill switch on, then off, with a sell (95, 100, 10): on, it trails and is not elected"
    yield from segment("kept", None, 110, 90, (1, 0))
    yield from walk("kept", None, [110, 105, 120, 90], (1, 0))
    yield from segment("kept", None, 110, 90)


def children():
    yield ""
    yield "# The child of sequential 7 in namespace zero: free; pending, as a sell 50"
    yield from segment("forecast", None, 97, 97)
    yield from segment("child", None, 97, 97)
    yield from walk("child", None, [97, 60])
    yield "# Elected in the same segment or walk, it is not pending after it"
    yield from segment("child", None, 97, 50)
    yield from walk("child", None, [97, 60, 50])


def passes():
    yield ""
    yield "# Sells 98, 95 and 90: the first child prints 96 to 95, the second nothing (its unused words are not read)"
    yield from pass_("three", None, 97, 97, [1, 1, 97, 96, 95, 0, 1, 90, 90, 90])
    yield "# The second child prints 90: a third is elected, whose entry is missing and not counted"
    yield from pass_("three", None, 97, 97, [1, 1, 97, 96, 95, 1, 0, 0, 90, 90])
    yield "# An empty script; an entry that is left over"
    yield from pass_("three", None, 97, 97, [])
    yield from pass_("three", None, 97, 97, [0, 0, 0, 0, 0, 1, 0, 0, 90, 90])
    yield "# The first child prints 105 to 95: the 90 ratchets to 95, and both others are elected at 95; with a collar of 5"
    yield from pass_("three", None, 97, 97, [1, 1, 97, 105, 95])
    yield from pass_("three", None, 97, 97, [1, 1, 97, 105, 95], (0, 5))
    yield "# The kill switch on: stops trail, none is elected, no entry is used"
    yield from pass_("three", None, 107, 90, [1, 1, 97, 105, 95], (1, 0))
    yield "# The child identity of the first is pending: the second uses the only entry, which prints 90"
    yield from pass_("three_child", None, 95, 95, [1, 0, 0, 90, 90])
    yield "# Two elected at once: the first child prints 90, the second 80, to the back of the queue"
    yield from pass_("four", None, 97, 97, [1, 1, 97, 90, 90, 1, 1, 97, 80, 80])
    yield "# The third elected empties the store; the segments of the second and the third child are left in the queue"
    yield from pass_("emptied", None, 97, 97, [1, 1, 97, 90, 90, 1, 1, 97, 80, 80, 1, 1, 90, 70, 70, 1, 1, 70, 60, 60])


def refusals():
    yield ""
    yield "# Scripts not well formed: whole entries only, both flags 0 or 1; well formed: empty"
    for script in [[0] * 4, [0] * 6, [2, 0, 0, 0, 0], [0, 2, 0, 0, 0], [1, 1, 5, 5, 5, 1, 2, 5, 5, 5], []]:
        yield from pass_("forecast", None, 100, 94, script)
    yield ""
    yield "# A pass over two stops, with a pending count of 3, a list of one, and a script of one word: 1 before 14 before 15"
    yield from lists(1, 9, pass_("broken", None, 100, 94, [2]))
    yield from pass_("broken", None, 100, 94, [])
    yield from lists(1, 9, pass_("forecast", None, 100, 94, [2]))
    yield from lists(1, 9, pass_("forecast", None, 100, 94, []))
    yield from lists(2, 0, pass_("forecast", None, 100, 94, []))
    yield from pass_("forecast", None, 100, 94, [2])
    yield ""
    yield "# A walk over two stops, with a pending count of 3, a list of one, and no prices: 1 before 14 before 16"
    yield from lists(1, 9, walk("broken", None, []))
    yield from lists(1, 9, walk("forecast", None, []))
    yield from lists(1, 9, walk("forecast", None, [100]))
    yield from lists(2, 0, walk("forecast", None, [100]))
    yield from walk("broken", None, [100])
    yield from walk("forecast", None, [])
    yield "# One price more than the most, with a list of one and of enough; the most"
    yield from lists(1, 9, walk("forecast", None, [97] * (book.MOST_PRICES + 1)))
    yield from walk("forecast", None, [97] * (book.MOST_PRICES + 1))
    yield from walk("forecast", None, [97] * book.MOST_PRICES)
    yield ""
    yield "# A segment over two stops, with a pending count of 3, and a short list: 1 before 14; lists long enough"
    for name in "broken", "forecast":
        yield from lists(1, 4, segment(name, None, 100, 94))
        yield from lists(2, 3, segment(name, None, 100, 94))
    yield from lists(2, 4, segment("forecast", None, 100, 94))
    yield "# No stop, and lists of no entries"
    yield from lists(0, 0, segment("empty", None, 100, 94) + walk("empty", None, [100]) + pass_("empty", None, 100, 94, []))


def runs():
    opened, closed = (1, 1, 100, 97), (0, 1, 100, 97)
    yield ""
    yield "# A run on a closed path, and with nothing pending: zeros, and all left alone"
    yield from run("forecast", closed, 94, [])
    yield from run("empty", opened, 94, [])
    yield "# An open path: up to the last trade; without one, its first print alone. After it the path is closed, prev and first stay"
    yield from run("forecast", opened, None, [])
    yield from run("forecast", opened, 94, [])
    yield from run("forecast", (1, 0, 0, 97), None, [1, 0, 0, 95, 95])
    yield "# The questions of a pass come first, also for a closed path: 1 before 14 before 15"
    yield from lists(1, 9, run("broken", opened, 94, [2]))
    yield from lists(1, 9, run("forecast", opened, 94, [2]))
    yield from run("forecast", opened, 94, [2])
    yield from run("forecast", closed, 94, [2])


def holders():
    yield ""
    yield "# Holders have no influence: evaluations of above on stores with holders, and who holds what is left"
    for name, call in [("forecast", "walk 0 0 0 0 0 0 100 97 94"), ("both", "segment 0 0 0 0 0 0 100 101"), ("ties", "segment 0 0 0 0 0 0 110 110"),
                       ("child", "segment 0 0 0 0 0 0 97 97"), ("four", "pass 0 0 0 0 0 0 97 97 1 1 97 90 90"), ("three", "walk 1 0 0 0 0 0 107 90")]:
        yield from store(name, HOLDERS[1:])
        yield from [call, "lists 5 9 5", "collect 2 0 1000", "collect 0 1 2 3 4", "lists 5 9"]


def price(chance):
    return chance.of([0, TOP]) if chance.below(60) == 0 else 90 + chance.below(21)


def entry(chance):
    return [chance.below(2), chance.below(2), price(chance), price(chance), price(chance)]


def chance_call(chance):
    of = f"{int(chance.below(12) == 0)} {chance.of([0, 0, 3, TOP])} {chance.of(['0 0', '5 6'])}"
    prev, what = maybe(price(chance) if chance.below(2) else None), chance.below(4)
    if what == 0:
        return [f"segment {of} {prev} {price(chance)} {price(chance)}"]
    if what == 1:
        return [row([f"walk {of} {prev}", *(price(chance) for _ in range(1 + chance.below(6)))])]
    script = [word for _ in range(chance.below(5)) for word in entry(chance)]
    if what == 2:
        return [row([f"pass {of} {prev} {price(chance)} {price(chance)}", *script])]
    return [f"record 1 {prev} {price(chance)}", row([f"run {of} {maybe(price(chance) if chance.below(3) else None)}", *script])]


def chance_stop(chance):
    side, a, b = chance.below(2), price(chance), price(chance)
    stop, mark = (min(a, b), max(a, b)) if side == 1 else (max(a, b), min(a, b))
    identity = row((2, 0, chance.below(20))) if chance.below(4) else row(book.child((0, 0), (2, 0, chance.below(20))))
    return f"admit 0 0 0 {identity} {side} {stop} {mark} {chance.of([1, 3, 5, 10, 20])} {1 + chance.below(9)} {chance.of(HOLDERS)}"


def by_chance():
    chance = Chance(2)
    yield "lists 20 40"
    for k in range(60):
        n = 2 + chance.below(9)
        yield ""
        yield f"# By chance: {n} records"
        yield from [f"words {book.store_words(n) + 1} 77", f"layout {n} 0"]
        for _ in range(4):
            yield from (chance_stop(chance) for _ in range(3 + chance.below(4)))
            yield from chance_call(chance)


def most():
    """As many stops as a store can have, of which most ratchet and are then elected."""
    yield ""
    yield f"# {book.MOST_RECORDS} stops: most ratchet, and most are elected"
    yield from ["show 0", f"lists {book.MOST_RECORDS} {2 * book.MOST_RECORDS}", f"words {book.store_words(book.MOST_RECORDS + 1)} 0",
                f"layout {book.MOST_RECORDS} 0"]
    for i in range(book.MOST_RECORDS):
        mark = 2000 + i * 37 % book.MOST_RECORDS - book.MOST_RECORDS // 2 * (i % 2)
        yield f"admit 0 0 0 2 0 {i} {i % 2} {1000 if i % 2 else 3000 + i % 5} {mark} 300 1 {HOLDERS[i % 4]}"
    yield from ["show 2", "segment 0 5 0 0 0 0 2100 1900", f"lists {book.MOST_RECORDS - 1} 0", "walk 0 0 0 0 0 0 1900",
                f"lists {book.MOST_RECORDS} 0", "walk 0 0 0 0 0 0 1500 2500"]


def lines():
    return ["path 0 0 0 0", "lists 5 9", *examples(), *segments(), *children(), *passes(), *refusals(), *runs(), *holders(), *by_chance(), *most()]
