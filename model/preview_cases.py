"""Stops as the host keeps them and as a panel draws them from the preview, side by side, as session lines of call_cases: runs where the watermarks part,
both ends of the price range, runs by chance; and stores that are evaluated, with the stops of each drawn along the same prices. Document 02, Two."""
import book
from chance import Chance

TOP = 2**64 - 1
BUY, SELL = book.BUY, book.SELL
PLAIN = "0 0 0 0"  # the kill switch off, no collar, namespace zero
KILLED = "1 0 0 0"


def row(words):
    return " ".join(map(str, words))


def draw(terms, prices):
    return row(["draw", *terms, *prices])


def written():
    yield "# Sell (95, 100, 10): 101 passes the watermark and does not improve the stop; at 106 the watermarks meet again. The buy beside it"
    yield draw((SELL, 95, 100, 10), [101, 106])
    yield draw((BUY, 105, 100, 10), [99, 94])
    yield "# A price between the two watermarks, one that leads to the stop itself, one past both; and back"
    yield draw((SELL, 95, 100, 10), [104, 102, 90, 105, 106, 106, 105, 107])
    yield draw((BUY, 105, 100, 10), [96, 98, 110, 95, 94, 94, 95, 93])
    yield "# At the watermark neither moves, though the candidate would improve the stop"
    yield draw((SELL, 80, 100, 10), [100, 99, 101])
    yield draw((BUY, 120, 100, 10), [100, 101, 99])
    yield "# The low end: a sell's trail larger than the price, as large, and smaller; a buy at 0"
    yield draw((SELL, 0, 0, 10), [1, 9, 10, 11, 0, 12])
    yield draw((BUY, 10, 1, 10), [0, 0])
    yield draw((BUY, 10, 5, 4), [4, 3, 0])
    yield "# The high end: a buy's sum 2^64 and more, 2^64 - 1, and less; a sell at 2^64 - 1"
    yield draw((BUY, TOP, TOP, 10), [TOP - 2, TOP - 9, TOP - 10, TOP - 11, TOP, TOP - 12])
    yield draw((SELL, TOP - 12, TOP - 2, 10), [TOP - 1, TOP, TOP])
    yield draw((SELL, TOP, TOP, TOP), [0, TOP])
    yield draw((BUY, TOP, TOP, TOP), [1, 0])
    yield "# Inconsistent terms, and a trail of zero"
    yield draw((SELL, 120, 100, 0), [110, 130, 125, 131])
    yield draw((BUY, 80, 100, 0), [90, 70, 75, 69])
    yield draw((SELL, 120, 100, 5), [110, 124, 125, 126])
    yield "# No price, and a side that no call knows"
    yield draw((SELL, 95, 100, 10), [])
    yield draw((2, 95, 100, 10), [101, 106])


def runs_by_chance():
    yield ""
    yield "# Runs by chance: in a few prices, at both ends, and anywhere"
    chance = Chance(2)
    for _ in range(250):
        low, width = chance.of([(0, 6), (0, 40), (TOP - 5, 6), (TOP - 39, 40), (90, 12), (0, 2**64)])
        price = lambda: low + (chance.below(2**31) * 2**33 + chance.below(2**31)) % width
        trail = chance.of([0, 1, 2, 3, 5, 10, TOP, price()])
        yield draw((chance.below(2), price(), price(), trail), [price() for _ in range(1 + chance.below(12))])
    yield "# A long run that rises and then falls"
    at, prices = 1000, []
    for k in range(200):
        at += chance.below(41) - 20 + (3 if k < 100 else -3)
        prices.append(at)
    yield draw((SELL, 960, 1000, 40), prices)
    yield draw((BUY, 1040, 1000, 40), prices)


# ---------------------------------------------------------------------
# Stores

def admitted(stops):
    lines = ["show 0", f"words {book.store_words(len(stops))} 0", f"layout {len(stops)} 0"]
    return lines + [f"admit 0 0 0 2 0 {k} {row(terms)} 1" for k, terms in enumerate(stops, 1)] + ["show 2"]


def drawn(stops, prices):
    return [draw(terms, prices) for terms in stops]


def stores():
    pair, run = [(SELL, 95, 100, 10), (BUY, 112, 108, 10)], [103, 102, 107, 101, 97, 108]
    yield ""
    yield "# A store, print by print, and its stops drawn: 103 and 102 move watermarks and no stop, 107 and 101 tighten the stops, 97 and 108 elect them"
    yield from admitted(pair)
    for prev, price in zip([None, *run], run):
        yield f"walk {PLAIN} {'0 0' if prev is None else f'1 {prev}'} {price}"
    yield from drawn(pair, run)
    yield "# The same in one walk, by segments, and under the kill switch"
    yield from admitted(pair)
    yield row([f"walk {PLAIN} 0 0", *run])
    yield from admitted(pair)
    for prev, first, last in (None, 103, 102), (102, 107, 101), (101, 97, 108):
        yield f"segment {PLAIN} {'0 0' if prev is None else f'1 {prev}'} {first} {last}"
    yield from admitted(pair)
    yield row([f"walk {KILLED} 0 0", *run, 90])
    yield from drawn(pair, [*run, 90])
    yield "# A pass: the first segment elects one sell, whose child prints 108 and then 96, which elects the other"
    sells = [(SELL, 98, 100, 10), (SELL, 95, 100, 10)]
    yield from admitted(sells)
    yield f"pass {PLAIN} 0 0 101 98 1 1 98 108 96"
    yield from drawn(sells, [101, 98, 108, 96])
    yield "# Both ends of the price range"
    low = [(SELL, 0, 0, 10), (BUY, 10, 5, 4), (BUY, 20, 1, 10)]
    run = [1, 0, 9, 10, 11, 1]
    yield from admitted(low)
    yield row([f"walk {PLAIN} 0 0", *run])
    yield from drawn(low, run)
    high = [(BUY, TOP, TOP - 1, 10), (SELL, TOP - 12, TOP - 2, 10), (SELL, TOP - 20, TOP - 1, 10)]
    run = [TOP - 2, TOP - 9, TOP - 1, TOP - 11, TOP - 12, TOP - 1]
    yield from admitted(high)
    yield row([f"walk {PLAIN} 0 0", *run])
    yield from drawn(high, run)


def agree(stops, prices):
    """After a walk each stop left, and each elected entry up to its trigger, is at the stop that is drawn."""
    w = [0] * book.store_words(len(stops))
    book.layout_store(w, len(stops), 0)
    for k, terms in enumerate(stops, 1):
        assert book.admit(w, [0] * 4, 0, None, (2, 0, k), terms, 1, (0,) * 4)[0] == 0
    r = book.walk(w, (0, 0, (0, 0)), None, prices, len(stops))
    left = {s.seq: s.words()[4] for s in book.read(w).records if s}
    gone = {e[6]: (e[4], e[7]) for e in r.elected}
    for seq, terms in enumerate(stops):
        for price in prices:
            terms = book.previewed(terms, price)
            if book.elected_by(terms, price):
                assert gone[seq] == (terms[1], price)
                break
        else:
            assert left[seq] == terms[1]


def stores_by_chance():
    yield ""
    yield "# Stores by chance"
    chance = Chance(3)
    for _ in range(60):
        low, width = chance.of([(0, 12), (0, 60), (TOP - 11, 12), (TOP - 59, 60), (90, 24)])
        price = lambda: low + chance.below(width)
        stops = []
        while len(stops) < 1 + chance.below(5):
            terms = (chance.below(2), price(), price(), chance.of([1, 2, 3, 5, 10]))
            if book.inconsistency(terms) == 0:
                stops.append(terms)
        run = [price() for _ in range(1 + chance.below(10))]
        agree(stops, run)
        yield from admitted(stops)
        yield row([f"walk {PLAIN} 0 0", *run])
        yield from drawn(stops, run)


def lines():
    return ["", "lists 8 16 8", *written(), *runs_by_chance(), *stores(), *stores_by_chance()]
