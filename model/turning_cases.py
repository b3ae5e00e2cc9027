"""The turning points of a run, as session lines of call_cases: written runs, every short one over three prices, the longest, both ends of the price range,
refusals in their order; and stores that are walked along a run, and again along its turning points. Document 02, Five."""
from itertools import product

import book
from chance import Chance

TOP = 2**64 - 1
BUY, SELL = book.BUY, book.SELL
MOST = book.MOST_PRICES


def row(words):
    return " ".join(map(str, words))


def turns(*prices):
    return row(["turns", *prices])


def written():
    yield "# One price; level runs; level stretches at both ends, on the way, and where the run turns"
    for run in [(5,), (5, 5), (5, 5, 5), (1, 3, 3), (1, 1, 3), (1, 3, 3, 2), (3, 1, 1, 2), (1, 3, 3, 4), (2, 1, 1, 2, 2), (3, 3, 1, 1, 1, 4, 4, 2, 2)]:
        yield turns(*run)
    yield "# The turning run of document 01, and longer ones with the same turns"
    for run in [(100, 110, 100), (100, 104, 110, 107, 100), (100, 100, 105, 105, 110, 110, 110, 105, 100, 100), (100, 110, 110, 100, 100, 110)]:
        yield turns(*run)
    yield "# In one direction, and the last at the first's price"
    for run in [range(9), range(9, 0, -1), (1, 2, 2, 3), (3, 2, 2, 1), (7, 8, 7), (7, 6, 6, 7), (7, 8, 6, 7)]:
        yield turns(*run)
    yield "# Both ends of the price range"
    for run in [(0,), (TOP,), (0, TOP), (TOP, 0), (0, TOP, 0), (TOP, 0, TOP), (TOP, TOP, 0, 0, TOP, TOP), (0, 1, TOP, TOP - 1), (2**63, 2**63 - 1, 2**63)]:
        yield turns(*run)


def short():
    yield ""
    yield "# Every run of up to five prices over three"
    for many in range(1, 6):
        yield from (turns(*run) for run in product((1, 2, 3), repeat=many))


def refusals():
    yield ""
    yield "# The list has as many places as the run has prices, not as it has turns; later places stay"
    for places in [6, 5, 4, 3, 0]:
        yield f"lists 8 16 {places}"
        yield turns(1, 2, 3, 4, 1)
        yield turns(1, 2, 3, 4, 5)
    yield "# Refusals in their order: 16 before 14. No price; one more than the most"
    yield turns()
    yield turns(*[7] * (MOST + 1))
    yield turns(7)
    yield f"lists 8 16 {MOST}"
    yield turns()
    yield turns(*[7] * (MOST + 1))


def longest():
    yield ""
    yield f"# The longest runs, of {MOST} prices: level; rising and falling; a turn at each price; at each second one; up the range; at both of its ends"
    runs = [
        [7] * MOST, range(MOST), range(MOST, 0, -1),
        [100 + k % 2 for k in range(MOST)],
        [100 - k // 2 % 2 for k in range(MOST)],
        [k + 3 * (k % 2) for k in range(MOST)],
        [0, TOP] * (MOST // 2),
        [min(k % 64, 64 - k % 64) for k in range(MOST)],
    ]
    for run in runs:
        yield turns(*run)
    yield f"lists 8 16 {MOST + 1}"
    yield turns(*runs[3])
    yield f"lists 8 16 {MOST - 1}"
    yield turns(*runs[3])
    yield turns(*runs[3][1:])


def admitted(stops, more=0):
    """A store of these stops and so many free records."""
    n = len(stops) + more
    lines = [f"words {book.store_words(n)} 77", f"layout {n} 0"]
    return lines + [f"admit 0 0 0 {row(stop)}" for stop in stops]


def alike(stops, settings, prev, run):
    """The walk over the turning points elects what the walk over the run elects, all but the trigger prices alike, and leaves its store."""
    after = []
    for prices in run, book.turning_points(run, len(run))[2]:
        w = [0] * book.store_words(len(stops))
        book.layout_store(w, len(stops), 0)
        for s in stops:
            assert book.admit(w, [0] * 4, 0, None, tuple(s[:3]), tuple(s[3:7]), s[7], (0,) * 4)[0] == 0
        r = book.walk(w, settings, prev, list(prices), len(stops))
        assert r.number == 0
        after.append((w, [e[:7] + e[8:] for e in r.elected]))
    assert after[0] == after[1]


def walked(stops, settings, prev, run, more=0):
    alike(stops, settings, prev, run)
    of = f"{settings[0]} {settings[1]} {row(settings[2])} {int(prev is not None)} {prev or 0}"
    yield "show 0"
    yield turns(*run)
    for prices in run, book.turning_points(run, len(run))[2]:
        yield "show 0"
        yield from admitted(stops, more)
        yield "show 1"
        yield row([f"walk {of}", *prices])


def stores():
    yield ""
    yield "# Stores walked along a run, and along its turning points. The turning run of document 01 and longer ones; a run at each of whose turns some leave"
    sell = (2, 0, 7, SELL, 95, 100, 5, 1)
    child = (*book.child((5, 6), (2, 0, 7)), SELL, 60, 100, 40, 3)
    yield f"lists 8 16 {MOST}"
    for run in [[100, 110, 100], [100, 104, 110, 110, 107, 104, 100], [110, 100], [105, 105, 100, 100]]:
        yield from walked([sell], (0, 0, (0, 0)), None, run)
    both = [sell, (2, 0, 8, BUY, 105, 100, 5, 2), (2, 0, 9, SELL, 80, 100, 20, 3), (2, 0, 10, BUY, 120, 100, 20, 4), child]
    zigzag = [100, 103, 97, 96, 96, 104, 112, 112, 101, 90, 91, 90, 125, 60, 60, 100]
    for prev in None, 0, 99, 100, 101, TOP:
        yield from walked(both, (0, 3, (5, 6)), prev, zigzag, 1)
    yield from walked(both, (1, 3, (5, 6)), 99, zigzag)


def far():
    yield ""
    yield f"# A run of {MOST} prices, and its turning points; as many stops as a store can have"
    eight = [(2, 0, k, k % 2, *((100 + k, 100) if k % 2 == BUY else (100 - k, 100)), 3 + k, 1) for k in range(1, 9)]
    yield from walked(eight, (0, 0, (0, 0)), 100, [100 + (k % 9) * (1 if k // 9 % 2 else -1) for k in range(MOST)])
    most = book.MOST_RECORDS
    yield f"lists {most} 16 {MOST}"
    full = [(2, 0, k, SELL, k * 37 % 1000, 1000, 1 + k % 40, 1) if k % 7 < 4 else (2, 0, k, BUY, 1000 + k * 37 % 1000, 1000, 1 + k % 40, 1) for k in range(most)]
    yield from walked(full, (0, 5, (5, 6)), None, [1000 + (k + 1) // 2 * (29 if k % 4 < 2 else -29) for k in range(60)])


def by_chance():
    yield ""
    yield "# Stores and runs by chance"
    chance = Chance(5)
    for _ in range(80):
        low, width = chance.of([(0, 6), (0, 40), (TOP - 5, 6), (TOP - 39, 40), (90, 20)])
        price = lambda: low + chance.below(width)
        stops = []
        while len(stops) < 1 + chance.below(7):
            terms = (chance.below(2), price(), price(), chance.of([1, 2, 3, 5, 10]))
            if book.inconsistency(terms) == 0:
                stops.append((2, 0, len(stops), *terms, 1 + chance.below(9)))
        settings = (int(chance.below(12) == 0), chance.of([0, 3, TOP]), chance.of([(0, 0), (5, 6)]))
        run = [price()]
        while len(run) < chance.of([1, 2, 5, 12, 30]):
            run.append(run[-1] if chance.below(3) == 0 else price())
        yield from walked(stops, settings, price() if chance.below(2) else None, run, chance.below(2))


def lines():
    return ["", f"lists 8 16 {MOST}", "show 0", *written(), *short(), *refusals(), *longest(), *stores(), *far(), "", f"lists 8 16 {MOST}", *by_chance()]
