"""The ladder of trial prices, as session lines of call_cases: bits, counts and places, both ends of the price range, the order of the list, refusals in
their order, a full store; and stores by chance, with each price walked by itself. Document 02, Three."""
import book
from chance import Chance

TOP = 2**64 - 1
BUY, SELL = book.BUY, book.SELL
PLAIN = "0 0 0 0"  # the kill switch off, no collar, namespace zero


def row(words):
    return " ".join(map(str, words))


def ladder(*prices):
    return row(["ladder", *prices])


def admitted(stops, more=0):
    """A store of these stops and so many free records."""
    n = len(stops) + more
    lines = [f"words {book.store_words(n)} 77", f"layout {n} 0"]
    return lines + [f"admit 0 0 0 2 0 {k} {row(terms)} 1" for k, terms in enumerate(stops, 1)]


FORECAST = [(SELL, 98, 100, 10), (SELL, 95, 100, 10)]


def written():
    yield "# The store of the forecast. Bit 63; none and all; one price and the most"
    yield "show 0"
    yield from admitted(FORECAST)
    yield "show 1"
    yield ladder(94, 96, 98, 99)
    yield ladder(*[99] * 63, 98)
    yield ladder(98, *[99] * 63)
    yield ladder(99)
    yield ladder(*[99] * 64)
    yield ladder(95)
    yield ladder(*[95] * 64)
    yield ladder(*[96] * 63)
    yield "# Equal prices, and an order that is not that of the prices: the first is the lowest place, not the lowest price"
    yield ladder(99, 98, 98, 94, 99, 94, 95)
    yield ladder(99, 97, 94)
    yield ladder(*range(128, 64, -1))
    yield "# Later entries stay: a list longer than the count; one as long; one that is too short, by one and of no entries"
    yield "lists 8 16 3"
    yield ladder(95)
    yield "lists 8 16 2"
    yield ladder(95)
    yield "lists 8 16 1"
    yield ladder(95)
    yield "lists 8 16 0"
    yield ladder(95)
    yield "# Refusals in their order: 1 before 19 before 14. No price, one more than the most, many more"
    yield ladder()
    yield ladder(*[95] * 65)
    yield "lists 8 16 2"
    yield ladder()
    yield ladder(*[95] * 65)
    yield ladder(*[95] * 4096)
    yield "set 1 3"
    yield ladder()
    yield ladder(*[95] * 65)
    yield ladder(95)
    yield "lists 8 16 1"
    yield ladder()
    yield ladder(95)
    yield "set 1 2"
    yield "# Both ends of the price range"
    ends = [(SELL, 0, 0, 1), (SELL, TOP, TOP, 1), (BUY, 0, 0, 1), (BUY, TOP, TOP, 1), (SELL, TOP - 1, TOP, 1), (BUY, 1, 0, 1)]
    yield "show 0"
    yield "lists 8 16 8"
    yield from admitted(ends, 1)
    yield "show 1"
    yield ladder(0, 1, TOP - 1, TOP)
    yield ladder(TOP, TOP - 1, 1, 0)
    yield ladder(*[0, TOP] * 32)
    yield "# Terms do not trail: prices far past the watermarks, which would move them"
    yield "show 0"
    yield from admitted([(SELL, 95, 100, 10), (BUY, 105, 100, 10), (SELL, 100, 100, 1), (BUY, 100, 100, 1)])
    yield "show 1"
    yield ladder(200, 101, 100, 99, 95, 94, 0, 105, 106, 300)
    yield "# By rising sequence, where the records stand in another order: after cancels and changes; and an empty store"
    for line in ["cancel 2 0 1", "admit 0 0 0 2 0 9 1 90 100 10 1", "update 2 0 2 1 0 106 0 0 0", "update 2 0 3 3 0 107 2 0 0", "cancel 2 0 4"]:
        yield line
        yield ladder(90, 100, 105, 106, 107)
    yield "path 0 0 0 0"
    yield "clear"
    yield ladder(100)
    yield "lists 8 16 0"
    yield ladder(100)
    yield ladder()


def full():
    yield ""
    yield "# As many stops as a store can have, admitted in no order of their stops: a ladder across them, none, all; a list of one entry less"
    most = book.MOST_RECORDS
    stops = [(SELL, i * 37 % 1000, 1000, 10) if i % 7 < 4 else (BUY, 1000 + i * 37 % 1000, 1000, 10) for i in range(most)]
    yield "show 0"
    yield from admitted(stops)
    yield f"lists 8 16 {most}"
    yield ladder(*(1000 + (k - 32) * 31 for k in range(64)))
    yield ladder(1000)
    yield f"lists 8 16 {most - 1}"
    yield ladder(1000)
    yield f"lists 8 16 {most + 1}"
    yield ladder(*[0] * 63, TOP)


def tells(stops, prices):
    """Each bit of a stop's word is set exactly if a walk over its price alone elects the stop, and the higher ones are not."""
    w = [0] * book.store_words(len(stops))
    book.layout_store(w, len(stops), 0)
    for k, terms in enumerate(stops, 1):
        assert book.admit(w, [0] * 4, 0, None, (2, 0, k), terms, 1, (0,) * 4)[0] == 0
    entries = book.ladder(w, prices, len(stops))[2]
    for j, price in enumerate(prices):
        gone = {e[6] for e in book.walk(list(w), (0, 0, (0, 0)), None, [price], len(stops)).elected}
        assert gone == {seq for seq, e in enumerate(entries) if e[0] >> j & 1}
    assert all(e[0] >> len(prices) == 0 for e in entries)


def by_chance():
    yield ""
    yield "# Stores by chance: a ladder, and a walk over one of its prices, which elects the stops that have its bit"
    chance = Chance(4)
    for _ in range(60):
        low, width = chance.of([(0, 12), (0, 60), (TOP - 11, 12), (TOP - 59, 60), (90, 24)])
        price = lambda: low + chance.below(width)
        stops = []
        while len(stops) < 1 + chance.below(7):
            terms = (chance.below(2), price(), price(), chance.of([1, 2, 3, 5, 10]))
            if book.inconsistency(terms) == 0:
                stops.append(terms)
        prices = [price() for _ in range(chance.of([1, 2, 5, 17, 63, 64]))]
        tells(stops, prices)
        yield "show 0"
        yield from admitted(stops, chance.below(2))
        yield "show 1"
        yield ladder(*prices)
        yield "show 2"
        yield f"walk {PLAIN} 0 0 {chance.of(prices)}"


def lines():
    return ["", "lists 8 16 8", *written(), *full(), "", "lists 8 16 8", *by_chance()]
