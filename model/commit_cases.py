"""Segments asked and then committed, as session lines of call_cases: with nothing between, after changes that leave the lists as they were asked and after
others; lists that are off by a word, an entry or their order; refusals in their order; both ends of the price range; full stores; and by chance."""
import book
from chance import Chance
from step_cases import BUY, SELL, PLAIN, TOP, admitted, given, maybe, row


def prints(prev, first, last):
    return f"{maybe(prev)} {first} {last}"


def ask(settings, run):
    return f"ask {given(settings)} {prints(*run)}"


def commit(settings, run, elected, moved):
    words = [word for entry in [*elected, *moved] for word in entry]
    return row([f"commit {given(settings)} {prints(*run)} {len(elected)} {len(moved)}", *words])


def store_of(stops):
    """The words of a store of these stops, and of a free record if there can be one."""
    n = min(len(stops) + 1, book.MOST_RECORDS)
    w = [0] * book.store_words(n)
    book.layout_store(w, n, 0)
    for s in stops:
        assert book.admit(w, [0] * 4, 0, None, tuple(s[:3]), tuple(s[3:7]), s[7], (0,) * 4)[0] == 0
    return w


def lists_of(stops, settings, run):
    """The lists that asking gives, where it has room. Committing them does what the segment does."""
    w = store_of(stops)
    asked = book.ask_segment(w, settings, *run, len(stops), 2 * len(stops))
    assert asked.number == 0 and w == store_of(stops)
    v = list(w)
    done, committed = book.segment(v, settings, *run, len(stops), 2 * len(stops)), book.commit_segment(w, settings, *run, asked.elected, asked.moved)
    assert committed.number == 0 and committed.answer == asked.answer == done.answer and v == w
    assert (asked.elected, asked.moved) == (done.elected, done.moved)
    return asked.elected, asked.moved


SELL_95 = (2, 0, 7, SELL, 95, 100, 5, 1)
STOPS = [SELL_95, (2, 0, 8, BUY, 105, 100, 5, 2), (2, 0, 9, SELL, 80, 100, 20, 3), (2, 0, 10, SELL, 97, 99, 3, 4), (*book.child((5, 6), (2, 0, 7)), SELL, 60, 100, 40, 5)]
SETTINGS = (0, 3, (5, 6))
RUN = (100, 98, 94)


def at_once(stops, settings, run, more=0):
    """Asked, committed, and asked for once more; and beside it the segment."""
    yield from admitted(stops, more)
    yield ask(settings, run)
    yield commit(settings, run, *lists_of(stops, settings, run))
    yield ask(settings, run)
    yield from admitted(stops, more)
    yield f"segment {given(settings)} {prints(*run)}"


def written():
    yield "# Asked, then committed with nothing between; and the segment"
    for settings in PLAIN, SETTINGS, (1, 3, (5, 6)), (TOP, 0, (0, 0)):
        for run in RUN, (None, 100, 100), (None, 94, 94), (100, 94, 98), (99, 100, 130), (None, 60, 0):
            yield from at_once(STOPS, settings, run, 1)
    yield "# A store without a stop, and one whose stops stay as they are: both lists are empty"
    yield from at_once([], PLAIN, (None, 5, 6), 2)
    yield from at_once(STOPS[:2], PLAIN, (100, 100, 100))


def between():
    """What is done to the store after asking, and what the commit then says."""
    lists = lists_of(STOPS, SETTINGS, RUN)
    yield ""
    yield "# After a change that leaves the lists as they were asked: a stop aside cancelled, admitted, changed; a quantity changed and changed back; a stop from which the listed move leads away; a walk that changes nothing listed"
    far = "2 0 55 1 50 100 50 9"
    beside = [
        ["cancel 2 0 9"], [f"admit 0 0 0 {far}"], ["update 2 0 9 0 0 0 77 0 0"], ["update 2 0 9 1 0 70 0 0 0"], [f"admit 0 0 0 {far}", "cancel 2 0 55"],
        ["update 2 0 7 0 0 0 77 0 0", "update 2 0 7 0 0 0 1 0 0"], ["update 2 0 8 1 0 104 0 0 0"], [f"walk {given(PLAIN)} 0 0 100"],
    ]
    touched = [
        ["cancel 2 0 7"], ["cancel 2 0 8"], ["update 2 0 7 0 0 0 77 0 0"], ["update 2 0 7 1 0 93 0 0 0"], ["update 2 0 9 1 0 95 0 0 0"], ["admit 0 0 0 2 0 55 1 96 100 4 1"],
        ["admit 0 0 0 2 0 55 0 103 100 3 1"], ["update 2 0 7 1 0 94 0 0 0", "update 2 0 7 1 0 95 0 0 0"], [f"cancel {row(STOPS[4][:3])}"],
        [f"segment {given(SETTINGS)} {prints(*RUN)}"], [f"segment {given(SETTINGS)} {prints(None, 100, 101)}"], [commit(SETTINGS, RUN, *lists)], ["clear"],
    ]
    for changes in beside:
        yield from admitted(STOPS, 1)
        yield from [*changes, commit(SETTINGS, RUN, *lists)]
    yield "# After one that does not: a listed stop gone, changed in quantity, price or, by a change there and back, sequence; another that would be listed; a child no longer pending; evaluated; committed; cleared"
    for changes in touched:
        yield from admitted(STOPS, 1)
        yield from [*changes, commit(SETTINGS, RUN, *lists)]
    yield "# Another kill switch, collar, namespace, first or last price than asked with"
    yield from admitted(STOPS, 1)
    for settings in (1, 3, (5, 6)), (0, 0, (5, 6)), (0, 4, (5, 6)), (0, 3, (5, 7)), (0, 3, (4, 6)):
        yield commit(settings, RUN, *lists)
    for run in (100, 97, 94), (100, 98, 93), (100, 94, 94), (100, 94, 98):
        yield commit(SETTINGS, run, *lists)
    yield "# The price before does not show in these lists, and a kill switch of 0 is not the only one that is off: any other word is on"
    for settings, run in (SETTINGS, (None, 98, 94)), ((TOP, 3, (5, 6)), RUN), (SETTINGS, RUN):
        yield from admitted(STOPS, 1)
        yield commit(settings, run, *lists)


def changed(entries, i, k, word):
    return [[word if (a, b) == (i, k) else value for b, value in enumerate(entry)] for a, entry in enumerate(entries)]


def off():
    """Lists that are not those that the store gives."""
    elected, moved = lists_of(STOPS, SETTINGS, RUN)
    assert len(elected) == 2 and len(moved) == 2
    yield ""
    yield "# Each word of an entry other than asked: one more, one less, the top, zero"
    yield from admitted(STOPS, 1)
    for which in 0, 1:
        for i, entry in enumerate((elected, moved)[which]):
            for k, word in enumerate(entry):
                for other in sorted({(word + 1) % 2**64, (word - 1) % 2**64, TOP, 0} - {word}):
                    lists = (changed(elected, i, k, other), moved) if which == 0 else (elected, changed(moved, i, k, other))
                    yield commit(SETTINGS, RUN, *lists)
    yield "# One entry longer, one shorter, in another order, twice the same, empty, and one list in the other's place"
    zeros = [0] * book.ELECTED_WORDS
    for lists in [
        (elected + [elected[1]], moved), (elected + [zeros], moved), (elected[:1], moved), (elected[1:], moved), (elected, moved + [moved[1]]), (elected, moved + [zeros[:4]]),
        (elected, moved[:1]), (elected, moved[1:]), (elected[::-1], moved), (elected, moved[::-1]), ([elected[0]] * 2, moved), (elected, [moved[1]] * 2), ([], moved), (elected, []),
        ([], []), ([zeros] * 2, [zeros[:4]] * 2),
    ]:
        yield commit(SETTINGS, RUN, *lists)
    yield commit(SETTINGS, RUN, elected, moved)


def refusals():
    yield ""
    yield "# Refusals in their order: asking 1 before 14; committing 1 before 20, and never 14, whatever lists are lent"
    lists = lists_of(STOPS, SETTINGS, RUN)
    for rooms in (0, 0), (4, 10), (5, 9), (5, 10), (6, 11):
        yield row(["lists", *rooms, 0])
        yield "words 20 3"
        yield ask(SETTINGS, RUN)
        yield commit(SETTINGS, RUN, *lists)
        yield commit(SETTINGS, RUN, [], [])
        yield from admitted(STOPS, 1)
        yield "set 1 4"
        yield ask(SETTINGS, RUN)
        yield commit(SETTINGS, RUN, *lists)
        yield "set 1 5"
        yield ask(SETTINGS, RUN)
        yield commit(SETTINGS, RUN, [], [])
        yield commit(SETTINGS, RUN, *lists)
    yield "# Nothing is asked of the lists of an empty store, and committing none of it is accepted"
    yield "lists 0 0 0"
    yield from admitted([], 2)
    yield ask(PLAIN, (None, 5, 6))
    yield commit(PLAIN, (None, 5, 6), [], [])
    yield commit(PLAIN, (None, 5, 6), *lists)


def ends():
    yield ""
    yield "# Both ends of the price range"
    yield "lists 8 16 0"
    stops = [(2, 0, 1, SELL, 0, 3, 3, 1), (2, 0, 2, BUY, TOP, TOP - 3, 3, 1), (2, 0, 3, SELL, TOP, TOP, 1, 1), (2, 0, 4, BUY, 0, 0, 1, 1), (2, 0, 5, SELL, 1, TOP - 1, TOP, 1)]
    for collar in 0, TOP:
        for run in (None, 0, 0), (None, TOP, TOP), (0, 0, TOP), (TOP, TOP, 0), (None, 2**63, 0):
            yield from at_once(stops, (0, collar, (0, 0)), run)


def full():
    most = book.MOST_RECORDS
    yield ""
    yield "# As many stops as a store can have: all elected, and all moved twice"
    yield row(["lists", most, 2 * most, 0])
    falling = [(2, 0, k, SELL, 1000 - k, 1000, 1 + k, 1) for k in range(most)]
    yield from at_once(falling, PLAIN, (None, 1000, 0))
    rising = [(2, 0, k, SELL, k * 37 % 900, 1000, 100 + k % 40, 1) for k in range(most)]
    run = (None, 1100, 1101)
    yield from at_once(rising, (1, 0, (0, 0)), run)
    elected, moved = lists_of(rising, PLAIN, run)
    assert len(moved) > most
    yield from admitted(rising)
    yield commit(PLAIN, run, elected, moved + [moved[-1]])
    yield commit(PLAIN, run, elected, moved[:-1])
    yield commit(PLAIN, run, elected, changed(moved, len(moved) - 1, 3, 5))


def by_chance():
    yield ""
    yield "# Stores, runs and what is done between by chance"
    yield "lists 8 16 0"
    chance = Chance(7)
    for _ in range(80):
        low, width = chance.of([(0, 6), (0, 40), (TOP - 5, 6), (TOP - 39, 40), (90, 20), (98, 4)])
        price = lambda: low + chance.below(width)
        stops = []
        while len(stops) < 1 + chance.below(7):
            terms = (chance.below(2), price(), price(), chance.of([1, 2, 3, 5, 10]))
            if book.inconsistency(terms) == 0:
                stops.append((2, 0, len(stops), *terms, 1 + chance.below(9)))
        settings = (int(chance.below(12) == 0), chance.of([0, 3, TOP]), chance.of([(0, 0), (5, 6)]))
        run = (price() if chance.below(2) else None, price(), price())
        elected, moved = lists_of(stops, settings, run)
        yield from admitted(stops, 1)
        yield ask(settings, run)
        kind = chance.below(6)
        if kind == 1:
            yield f"cancel 2 0 {chance.below(len(stops))}"
        elif kind == 2:
            yield f"update 2 0 {chance.below(len(stops))} 1 0 {price()} 0 0 0"
        elif kind == 3:
            yield f"admit 0 0 0 2 0 99 {chance.below(2)} {price()} {price()} 2 1"
        elif kind == 4 and elected:
            elected = changed(elected, chance.below(len(elected)), chance.below(book.ELECTED_WORDS), chance.below(3))
        elif kind == 5 and moved:
            moved = changed(moved, chance.below(len(moved)), chance.below(book.MOVED_WORDS), price())
        yield commit(settings, run, elected, moved)


def lines():
    return ["", "lists 8 16 0", *written(), *between(), *off(), *refusals(), *ends(), *full(), *by_chance()]
