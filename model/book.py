"""Documents 01 and 02 read into Python: the store as words, its form, and every call by words, with its refusals in their order.

Written from the documents alone. A store is a list of words; a call takes and answers words, and returns 0 or the number of its refusal.
A refused call answers None and alters nothing. Prices, quantities and sequences are plain numbers below 2^64."""
import hashlib

TOP = 2**64 - 1
MOST_RECORDS, MOST_PRICES, MOST_TRIAL_PRICES, HEADER, RECORD = 545, 4096, 64, 9, 15
BUY, SELL = 0, 1
UNKNOWN = 255

# where a record has its two links, next by stop and next by watermark, and behind them its holder
LINKS, HOLDER = 9, 11
# the words of a holder, of a record without its links, as answers and lists have it, and of a selector
HOLDER_WORDS = RECORD - HOLDER
STOP_WORDS, SELECTOR_WORDS = LINKS + HOLDER_WORDS, 1 + HOLDER_WORDS
# the words of an entry of the elected, and of the moved
ELECTED_WORDS, MOVED_WORDS = 14, 4


def store_words(n):
    """The words of a store of n records."""
    return HEADER + RECORD * n


def place(i, k):
    """Where a store has word k of its record i."""
    return store_words(i - 1) + k


# ---------------------------------------------------------------------
# A stop's terms, limit and child. Terms are (side, stop, watermark, trail)

def trailed(terms, price):
    side, stop, watermark, trail = terms
    if side == SELL and price > watermark:
        return (side, max(stop, price - trail) if trail <= price else stop, price, trail)
    if side == BUY and price < watermark:
        return (side, min(stop, price + trail) if price + trail <= TOP else stop, price, trail)
    return terms


def elected_by(terms, price):
    return price <= terms[1] if terms[0] == SELL else price >= terms[1]


def inconsistency(terms):
    """0 for none, 5 for a trail of zero, 6 for a stop on the wrong side of its watermark."""
    side, stop, watermark, trail = terms
    if trail == 0:
        return 5
    return 6 if (stop > watermark if side == SELL else stop < watermark) else 0


def preview(side, stop, trail, reference, price):
    """New stop and reference where the price is past the reference and the stop improves."""
    if not (price > reference if side == SELL else price < reference):
        return None
    new = trailed((side, stop, reference, trail), price)[1]
    return (new, price) if new != stop else None


def previewed(terms, price):
    """Document 02, Two: the terms that a panel draws after a price; an empty preview means that they stay."""
    side, stop, watermark, trail = terms
    new = preview(side, stop, trail, watermark, price)
    return (side, *new, trail) if new else terms


def limit(collar, side, stop):
    if collar == 0:
        return None
    return max(stop - collar, 0) if side == SELL else stop + collar


def limit_words(at):
    """1, and the high and low word of a limit; zeros of none."""
    return [0, 0, 0] if at is None else [1, at >> 64, at & TOP]


def check_collar(collar):
    return 17 if collar == 0 else 0


def check_tick_size(collar, tick):
    return check_collar(collar) or (18 if tick and collar % tick else 0)


def child(namespace, identity):
    """Version 5 UUID of RFC 9562 over namespace and name; identities are (kind, high, low)."""
    kind, high, low = identity
    name = b"orderbook-rs/stop-trigger" + bytes([kind]) + high.to_bytes(8, "big") + low.to_bytes(8, "big")
    space = namespace[0].to_bytes(8, "big") + namespace[1].to_bytes(8, "big")
    digest = bytearray(hashlib.sha1(space + name).digest()[:16])
    digest[6] = digest[6] & 0x0F | 0x50
    digest[8] = digest[8] & 0x3F | 0x80
    return (0, int.from_bytes(digest[:8], "big"), int.from_bytes(digest[8:], "big"))


# ---------------------------------------------------------------------
# The book behind the words

class Stop:
    def __init__(self, identity, terms, quantity, seq, holder):
        self.identity, self.terms, self.quantity, self.seq, self.holder = identity, terms, quantity, seq, holder

    def words(self):
        """The record without its links."""
        return [*self.identity, *self.terms, self.quantity, self.seq, *self.holder]

    def record(self, links):
        words = self.words()
        return words[:LINKS] + links + words[LINKS:]

    def trailed(self, price):
        return Stop(self.identity, trailed(self.terms, price), self.quantity, self.seq, self.holder)


def by_stop(stop):
    return (-stop.terms[1] if stop.terms[0] == SELL else stop.terms[1], stop.seq)


def by_watermark(stop):
    return (stop.terms[2], stop.seq) if stop.terms[0] == SELL else (-stop.terms[2], -stop.seq)


class Book:
    """Records from 1 on, a Stop or None each; the free chain in order; next sequence and tick."""

    def __init__(self, n, tick):
        self.records, self.free, self.next, self.tick = [None] * n, list(range(1, n + 1)), 0, tick

    def stops(self):
        return [s for s in self.records if s]

    def chain(self, side, key):
        return sorted((i for i, s in enumerate(self.records, 1) if s and s.terms[0] == side), key=lambda i: key(self.records[i - 1]))

    def chains(self):
        """Sell stop, sell watermark, buy stop, buy watermark: the order of the heads."""
        return [self.chain(side, key) for side in (SELL, BUY) for key in (by_stop, by_watermark)]

    def find(self, identity):
        return next((i for i, s in enumerate(self.records, 1) if s and s.identity == identity), None)

    def remove(self, i):
        self.records[i - 1] = None
        self.free.insert(0, i)

    def words(self):
        chains = [*self.chains(), self.free]
        links = [[0, 0] for _ in self.records]
        for which, chain in zip((0, 1, 0, 1, 0), chains):
            for i, after in zip(chain, chain[1:] + [0]):
                links[i - 1][which] = after
        heads = [chain[0] if chain else 0 for chain in chains]
        out = [len(self.records), len(self.stops()), self.next, self.tick, *heads]
        vacant = Stop((0,) * 3, (0,) * 4, 0, 0, (0,) * HOLDER_WORDS)
        for stop, linked in zip(self.records, links):
            out += (stop or vacant).record(linked)
        return out


def read(w):
    """The book whose words these are, or None where they are not well formed."""
    if len(w) < HEADER or not 1 <= w[0] <= MOST_RECORDS or len(w) < store_words(w[0]):
        return None
    n = w[0]
    book = Book(n, w[3])
    book.next, book.free, i = w[2], [], w[8]
    while i:
        if i > n or len(book.free) == n:
            return None
        book.free.append(i)
        i = w[place(i, LINKS)]
    vacant = set(book.free)
    for i in range(1, n + 1):
        r = w[place(i, 0):place(i + 1, 0)]
        if i not in vacant:
            book.records[i - 1] = Stop(tuple(r[0:3]), tuple(r[3:7]), r[7], r[8], tuple(r[HOLDER:]))
    stops = book.stops()
    if any(s.identity[0] > 2 or s.terms[0] > 1 or s.quantity == 0 or inconsistency(s.terms) or s.seq >= book.next
           or (book.tick and s.terms[3] % book.tick) for s in stops):
        return None
    if len({s.identity for s in stops}) < len(stops) or len({s.seq for s in stops}) < len(stops):
        return None
    # what is left, order, membership and zeros, is that the words are those that this book has
    return book if book.words() == w[:store_words(n)] else None


def write(w, book):
    words = book.words()
    w[:len(words)] = words


# ---------------------------------------------------------------------
# The calls on a store. Each returns (number, answer or None)

def layout_store(w, n, tick):
    if not 1 <= n <= MOST_RECORDS or len(w) < store_words(n):
        return 2, None
    write(w, Book(n, tick))
    return 0, None


def well_formed(w):
    return 1 if read(w) else 0


def known_id(identity):
    return identity[0] <= 2


def known_path(path):
    return path[0] <= 1 and path[1] <= 1


def maybe(words):
    return words[1] if words[0] else None


def admit(w, path, kill, trade, identity, terms, quantity, holder):
    """Nothing is asked of the holder."""
    if not known_id(identity) or terms[0] > 1 or not known_path(path):
        return UNKNOWN, None
    book = read(w)
    if not book:
        return 1, None
    questions = [(3, kill == 0), (4, quantity >= 1), (5, terms[3] >= 1), (6, inconsistency(terms) != 6 or terms[3] == 0),
                 (7, trade is None or not elected_by(terms, trade)), (8, book.find(identity) is None),
                 (9, book.tick == 0 or terms[3] % book.tick == 0), (10, bool(book.free)), (11, book.next < TOP)]
    for number, yes in questions:
        if not yes:
            return number, None
    if not book.stops():
        path[0] = 0
    seq = book.next
    book.records[book.free.pop(0) - 1] = Stop(identity, terms, quantity, seq, holder)
    book.next += 1
    write(w, book)
    return 0, [seq]


def cancel(w, identity):
    if not known_id(identity):
        return UNKNOWN, None
    book = read(w)
    if not book:
        return 1, None
    i = book.find(identity)
    if i is None:
        return 12, None
    answer = book.records[i - 1].words()
    book.remove(i)
    write(w, book)
    return 0, answer


QUANTITY, PRICE, PRICE_AND_QUANTITY, REPLACE = range(4)


def update(w, identity, change, trade):
    what, side, price, quantity = change
    if not known_id(identity) or what > REPLACE or (what == REPLACE and side > 1):
        return UNKNOWN, None
    book = read(w)
    if not book:
        return 1, None
    i = book.find(identity)
    if i is None:
        return 12, None
    old = book.records[i - 1]
    if what == QUANTITY and quantity == 0:
        return cancel(w, identity)
    terms = (side if what == REPLACE else old.terms[0], old.terms[1] if what == QUANTITY else price, *old.terms[2:])
    amount = old.quantity if what == PRICE else quantity
    questions = [(13, what != PRICE or price != old.terms[1]), (4, amount >= 1), (6, inconsistency(terms) == 0),
                 (7, trade is None or not elected_by(terms, trade)), (11, what == QUANTITY or book.next < TOP)]
    for number, yes in questions:
        if not yes:
            return number, None
    new = Stop(identity, terms, amount, old.seq, old.holder)
    if what != QUANTITY:
        new.seq = book.next
        book.next += 1
    book.records[i - 1] = new
    write(w, book)
    return 0, new.words()


def find(w, identity):
    if not known_id(identity):
        return UNKNOWN, None
    book = read(w)
    if not book:
        return 1, None
    i = book.find(identity)
    return 0, [1] + book.records[i - 1].words() if i else [0] * (1 + STOP_WORDS)


def pending_quantity(w):
    book = read(w)
    if not book:
        return 1, None
    answer = []
    for side in (SELL, BUY):
        total = sum(s.quantity for s in book.stops() if s.terms[0] == side)
        answer += [total >> 64, total & TOP]
    return 0, answer


def clear(w, path):
    if not known_path(path):
        return UNKNOWN, None
    book = read(w)
    if not book:
        return 1, None
    write(w, Book(len(book.records), book.tick))
    path[0] = 0
    return 0, None


# ---------------------------------------------------------------------
# Collect and mass cancel. A selector is its kind and four words: a holder's; a side; the lowest and the highest stop price

BY_HOLDER, BY_SIDE, BY_PRICE_RANGE = range(3)


def known_selector(selector):
    return selector[0] <= BY_PRICE_RANGE and (selector[0] != BY_SIDE or selector[1] <= 1)


def selects(selector, stop):
    kind, *words = selector
    if kind == BY_HOLDER:
        return stop.holder == tuple(words)
    return stop.terms[0] == words[0] if kind == BY_SIDE else words[0] <= stop.terms[1] <= words[1]


def collect(w, selector, room, cancels=False):
    """The number, how many are listed, and their words, by rising sequence; with `cancels` each of them is then cancelled, in that order."""
    if not known_selector(selector):
        return UNKNOWN, None, []
    book = read(w)
    if not book:
        return 1, None, []
    if room < len(book.stops()):
        return 14, None, []
    chosen = sorted((s.seq, i) for i, s in enumerate(book.records, 1) if s and selects(selector, s))
    entries = [book.records[i - 1].words() for _, i in chosen]
    if cancels:
        for _, i in chosen:
            book.remove(i)
        write(w, book)
    return 0, [len(entries)], entries


def mass_cancel(w, selector, room):
    return collect(w, selector, room, cancels=True)


# ---------------------------------------------------------------------
# The ladder: which trial prices elect each stop, whose terms do not trail

NO_PLACE = 64


def ladder(w, prices, room):
    """The number, how many are listed, and of each stop by rising sequence the word, how many prices elect it, and the place of the first."""
    book = read(w)
    if not book:
        return 1, None, []
    if not 1 <= len(prices) <= MOST_TRIAL_PRICES:
        return 19, None, []
    if room < len(book.stops()):
        return 14, None, []
    entries = []
    for stop in sorted(book.stops(), key=lambda s: s.seq):
        places = [j for j, price in enumerate(prices) if elected_by(stop.terms, price)]
        entries.append([sum(1 << j for j in places), len(places), min(places, default=NO_PLACE)])
    return 0, [len(entries)], entries


# ---------------------------------------------------------------------
# Turning points: of a run without its level stretches, the prices that lie above or below both neighbours

def turning_points(prices, room):
    """The number, how many are listed, and the first price, the turns, and the last, if there is a later one than the first."""
    if not 1 <= len(prices) <= MOST_PRICES:
        return 16, None, []
    if room < len(prices):
        return 14, None, []
    uneven = [p for k, p in enumerate(prices) if k == 0 or p != prices[k - 1]]
    turns = [p for before, p, after in zip(uneven, uneven[1:], uneven[2:]) if (before < p) == (after < p)]
    listed = prices[:1] + turns + prices[1:][-1:]
    return 0, [len(listed)], listed


# ---------------------------------------------------------------------
# The print path: open, prev present, prev, first

def record_print(path, pending, prev, price):
    if not known_path(path):
        return UNKNOWN, None
    if pending and not path[0]:
        path[:] = [1, 0 if prev is None else 1, prev or 0, price]
    return 0, None


def take_path(path, trade):
    if not known_path(path):
        return UNKNOWN, None
    answer = [0] * 5
    if path[0]:
        answer = [1, path[1], path[2] if path[1] else 0, path[3], path[3] if trade is None else trade]
    path[0] = 0
    return 0, answer


def reset_path(path):
    if not known_path(path):
        return UNKNOWN, None
    path[0] = 0
    return 0, None


# ---------------------------------------------------------------------
# Evaluation. Settings are (kill switch, collar, namespace)

def point(book, kill, sells_first, price):
    """Trails, then takes the elected out. Answers the moved (identity, new stop) and the elected stops."""
    moved, elected = [], []
    for side in (SELL, BUY):
        for i in book.chain(side, by_watermark):
            stop = book.records[i - 1]
            new = stop.trailed(price)
            if new.terms[1] != stop.terms[1]:
                moved.append((new.identity, new.terms[1]))
            book.records[i - 1] = new
    if not kill:
        for side in (SELL, BUY) if sells_first else (BUY, SELL):
            for i in book.chain(side, by_stop):
                if elected_by(book.records[i - 1].terms, price):
                    elected.append((book.records[i - 1], price))
                    book.remove(i)
    return moved, elected


def falls_as_a_whole(prices):
    return prices[-1] <= prices[0]


def points(book, settings, prev, prices, falls):
    """A point at each price in turn, of a run that falls as a whole or does not; entries of the elected are told apart from the book after the last."""
    kill, collar, namespace = settings
    moved, elected, arrived = [], [], prev
    for price in prices:
        m, e = point(book, kill, falls if arrived is None or arrived == price else price < arrived, price)
        moved, elected, arrived = moved + m, elected + e, price
    entries = []
    for stop, trigger in elected:
        at = limit(collar, stop.terms[0], stop.terms[1])
        order = child(namespace, stop.identity)
        entries.append([*stop.identity, *stop.terms[0:2], stop.quantity, stop.seq, trigger, *limit_words(at), *order[1:],
                        1 if book.find(order) else 0])
    return moved, entries


def segment_prices(first, last):
    return [first] if first == last else [first, last]


class Listed:
    """What a call that evaluates returned, answered and listed."""

    def __init__(self, number, answer=None, elected=(), moved=()):
        self.number, self.answer, self.elected, self.moved = number, answer, list(elected), list(moved)


def segment(w, settings, prev, first, last, elected_room, moved_room):
    book = read(w)
    if not book:
        return Listed(1)
    count = len(book.stops())
    if elected_room < count or moved_room < 2 * count:
        return Listed(14)
    moved, entries = points(book, settings, prev, segment_prices(first, last), last <= first)
    write(w, book)
    return Listed(0, [len(moved), len(entries)], entries, [[*i, stop] for i, stop in moved])


def ask_segment(w, settings, prev, first, last, elected_room, moved_room):
    """What a segment would answer and list; the words stay."""
    return segment(list(w), settings, prev, first, last, elected_room, moved_room)


def commit_segment(w, settings, prev, first, last, elected, moved):
    """The segment, if the words of its lists would be these; no list is written, so that no room is asked."""
    book = read(w)
    if not book:
        return Listed(1)
    shifts, entries = points(book, settings, prev, segment_prices(first, last), last <= first)
    if [list(e) for e in entries] != [list(e) for e in elected] or [[*i, stop] for i, stop in shifts] != [list(m) for m in moved]:
        return Listed(20)
    write(w, book)
    return Listed(0, [len(shifts), len(entries)])


def step(w, settings, falls, prev, price, elected_room, moved_room):
    """One point of a walk, for which the caller says whether the whole run falls."""
    book = read(w)
    if not book:
        return Listed(1)
    if min(elected_room, moved_room) < len(book.stops()):
        return Listed(14)
    moved, entries = points(book, settings, prev, [price], falls != 0)
    write(w, book)
    return Listed(0, [len(moved), len(entries)], entries, [[*i, stop] for i, stop in moved])


def walk(w, settings, prev, prices, elected_room):
    book = read(w)
    if not book:
        return Listed(1)
    if elected_room < len(book.stops()):
        return Listed(14)
    if not 1 <= len(prices) <= MOST_PRICES:
        return Listed(16)
    moved, entries = points(book, settings, prev, prices, falls_as_a_whole(prices))
    write(w, book)
    return Listed(0, [len(moved), len(entries)], entries)


def pass_questions(book, script, elected_room):
    if not book:
        return 1
    if elected_room < len(book.stops()):
        return 14
    return 15 if len(script) % 5 or any(script[k] > 1 or script[k + 1] > 1 for k in range(0, len(script), 5)) else 0


def pass_over(w, book, settings, script, prev, first, last):
    queue, moves, listed, used = [(prev, first, last)], 0, [], 0
    while queue and book.stops():
        prev, first, last = queue.pop(0)
        moved, entries = points(book, settings, prev, segment_prices(first, last), last <= first)
        moves += len(moved)
        listed += entries
        for entry in entries:
            if entry[-1] or 5 * used == len(script):
                continue
            printed, present, before, start, end = script[5 * used:5 * used + 5]
            used += 1
            if printed:
                queue.append((before if present else None, start, end))
    write(w, book)
    return Listed(0, [moves, len(listed), used], listed)


def evaluate_pending_stops(w, settings, script, prev, first, last, elected_room):
    book = read(w)
    number = pass_questions(book, script, elected_room)
    return Listed(number) if number else pass_over(w, book, settings, script, prev, first, last)


def run_stop_triggers(w, path, settings, script, trade, elected_room):
    if not known_path(path):
        return Listed(UNKNOWN)
    book = read(w)
    number = pass_questions(book, script, elected_room)
    if number:
        return Listed(number)
    if not book.stops() or not path[0]:
        return Listed(0, [0, 0, 0])
    _, (_, present, prev, first, last) = take_path(path, trade)
    return pass_over(w, book, settings, script, prev if present else None, first, last)
