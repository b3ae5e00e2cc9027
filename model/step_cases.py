"""Steps, as session lines of call_cases: a tie told both ways, refusals in their order, both ends of the price range; and stores stepped along a run,
and walked along it."""
import book
from chance import Chance

TOP = 2**64 - 1
BUY, SELL = book.BUY, book.SELL
PLAIN = (0, 0, (0, 0))


def row(words):
    return " ".join(map(str, words))


def given(settings):
    return f"{settings[0]} {settings[1]} {row(settings[2])}"


def maybe(price):
    return f"{int(price is not None)} {price or 0}"


def step(settings, falls, prev, price):
    return f"step {given(settings)} {falls} {maybe(prev)} {price}"


def admitted(stops, more=0):
    """A store of these stops and so many free records."""
    n = len(stops) + more
    return ["show 0", f"words {book.store_words(n)} 77", f"layout {n} 0", *(f"admit 0 0 0 {row(stop)}" for stop in stops), "show 1"]


TIED = [(2, 0, 7, SELL, 100, 100, 5, 1), (2, 0, 9, BUY, 100, 100, 5, 1)]


def written():
    yield "# A sell and a buy that a print at 100 elects: the run falls as a whole or not, and comes from nowhere, from the price itself, from above, from below"
    for falls in 0, 1, 2, TOP:
        for prev in None, 100, 101, 99, 0, TOP:
            yield from admitted(TIED)
            yield step(PLAIN, falls, prev, 100)
    yield "# A segment of one print takes it for a fall"
    for prev in None, 100, 101, 99:
        yield from admitted(TIED)
        yield f"segment {given(PLAIN)} {maybe(prev)} 100 100"


def refusals():
    yield ""
    yield "# Refusals in their order: 1 before 14. Words that are no store, of a damaged one, and of one"
    stops = [*TIED, (2, 0, 3, SELL, 90, 95, 5, 4)]
    for elected, moved in [(0, 0), (2, 3), (3, 2), (2, 2), (3, 3), (4, 4), (3, 6)]:
        yield f"lists {elected} {moved} 0"
        yield "words 20 3"
        yield step(PLAIN, 0, None, 100)
        yield from admitted(stops, 1)
        yield "set 1 2"
        yield step(PLAIN, 0, None, 100)
        yield "set 1 3"
        yield step(PLAIN, 0, None, 100)
    yield "# Nothing is asked of the lists of an empty store"
    yield "lists 0 0 0"
    yield from admitted([], 2)
    yield step(PLAIN, 1, 5, 6)


def stepped(w, settings, prev, run, room):
    """The steps along a run on these words: moves, and the elected of each in turn."""
    moves, elected, arrived = 0, [], prev
    for price in run:
        r = book.step(w, settings, int(book.falls_as_a_whole(run)), arrived, price, room, room)
        assert r.number == 0
        moves, elected, arrived = moves + r.answer[0], elected + r.elected, price
    return moves, elected


def alike(stops, settings, prev, run):
    """The steps answer, list and leave what the walk does, but for the flags of the entries."""
    w = [0] * book.store_words(len(stops))
    book.layout_store(w, len(stops), 0)
    for s in stops:
        assert book.admit(w, [0] * 4, 0, None, tuple(s[:3]), tuple(s[3:7]), s[7], (0,) * 4)[0] == 0
    v = list(w)
    moves, elected = stepped(w, settings, prev, run, len(stops))
    r = book.walk(v, settings, prev, list(run), len(stops))
    assert r.number == 0 and r.answer == [moves, len(elected)] and [e[:-1] for e in r.elected] == [e[:-1] for e in elected] and v == w


def along(stops, settings, prev, run, more=0):
    alike(stops, settings, prev, run)
    yield from admitted(stops, more)
    falls = int(book.falls_as_a_whole(run))
    for arrived, price in zip([prev, *run], run):
        yield step(settings, falls, arrived, price)
    yield from admitted(stops, more)
    yield row([f"walk {given(settings)} {maybe(prev)}", *run])


def runs():
    yield ""
    yield "# Stores stepped along a run, and walked along it; with the kill switch on too"
    yield "lists 8 8 0"
    for run in [(100, 101), (100, 99), (100,), (100, 100, 101), (100, 105, 100)]:
        for prev in None, 100, 99, 101:
            yield from along(TIED, PLAIN, prev, run)
    sell = (2, 0, 7, SELL, 95, 100, 5, 1)
    child = (*book.child((5, 6), (2, 0, 7)), SELL, 60, 100, 40, 3)
    both = [sell, (2, 0, 8, BUY, 105, 100, 5, 2), (2, 0, 9, SELL, 80, 100, 20, 3), (2, 0, 10, BUY, 120, 100, 20, 4), child]
    zigzag = [100, 103, 97, 96, 96, 104, 112, 112, 101, 90, 91, 90, 125, 60, 60, 100]
    for kill, prev in (0, None), (0, 99), (0, 100), (1, None), (TOP, 101):
        yield from along(both, (kill, 3, (5, 6)), prev, zigzag, 1)
    yield "# A child that is pending after its stop's step, and elected by a later one: the walk says that it is not pending"
    yield from along([sell, child], (0, 3, (5, 6)), None, [95, 60])
    yield from along([sell, child], (0, 3, (5, 6)), None, [95, 61])
    yield "# Both ends of the price range"
    ends = [(2, 0, 1, SELL, 0, 3, 3, 1), (2, 0, 2, BUY, TOP, TOP - 3, 3, 1), (2, 0, 3, SELL, TOP, TOP, 1, 1), (2, 0, 4, BUY, 0, 0, 1, 1), (2, 0, 5, SELL, 1, TOP - 1, TOP, 1)]
    for collar in 0, TOP:
        for run in [(0,), (TOP,), (0, TOP), (TOP, 0), (0, 0, TOP), (TOP, TOP, 0), (2**63, TOP, 0, 2**63)]:
            yield from along(ends, (0, collar, (0, 0)), None, run)


def full():
    most = book.MOST_RECORDS
    yield ""
    yield "# As many stops as a store can have"
    yield f"lists {most} {most} 0"
    stops = [(2, 0, k, SELL, k * 37 % 1000, 1000, 1 + k % 40, 1) if k % 7 < 4 else (2, 0, k, BUY, 1000 + k * 37 % 1000, 1000, 1 + k % 40, 1) for k in range(most)]
    yield from along(stops, (0, 5, (5, 6)), None, [1000, 1300, 700, 0, TOP])
    yield f"lists {most} {most - 1} 0"
    yield from admitted(stops)
    yield step(PLAIN, 0, None, 1000)


def by_chance():
    yield ""
    yield "# Stores and runs by chance"
    yield "lists 8 8 0"
    chance = Chance(6)
    for _ in range(60):
        low, width = chance.of([(0, 6), (0, 40), (TOP - 5, 6), (TOP - 39, 40), (90, 20), (98, 4)])
        price = lambda: low + chance.below(width)
        stops = []
        while len(stops) < 1 + chance.below(7):
            terms = (chance.below(2), price(), price(), chance.of([1, 2, 3, 5, 10]))
            if book.inconsistency(terms) == 0:
                stops.append((2, 0, len(stops), *terms, 1 + chance.below(9)))
        settings = (int(chance.below(12) == 0), chance.of([0, 3, TOP]), chance.of([(0, 0), (5, 6)]))
        run = [price()]
        while len(run) < chance.of([1, 2, 3, 5, 9]):
            run.append(run[-1] if chance.below(3) == 0 else price())
        yield from along(stops, settings, price() if chance.below(2) else None, run, chance.below(2))


def lines():
    return ["", "lists 8 8 0", *written(), *refusals(), *runs(), *full(), *by_chance()]
