"""The panel of a walk. A unit is a tenth of a pixel."""

LEFT, RIGHT, TOP, BOTTOM, MIDDLE, PANEL_PIXELS = 1600, 10600, 400, 5200, 2800, 560
BAND, BANDS, LINES, CLOSE, CIRCLE_WIDTH = 110, 44, 4, 20, 150


def across(number, n):
    """Where a print stands, by its number among n."""
    return LEFT if n < 2 else LEFT + (number - 1) * (RIGHT - LEFT) // (n - 1)


def quarter(low, high, k):
    return high if k == LINES else low + k * ((high - low) // LINES)


class Panel:
    """The stops are those before the walk, by rising sequence; `say` prints a row."""

    def __init__(self, say, line, panels, prints, stops):
        self.say, self.n = say, len(prints)
        # side, how far across the line is drawn, at what price, and the level: the stop, which a move that is not drawn changes too
        self.drawn = {tuple(s[:3]): [s[3], LEFT, s[4], s[4]] for s in stops}
        prices = prints + [s[4] for s in stops]
        self.low, self.high = min(prices), max(prices)
        self.circle = (0, 0, 0)
        say("PICTURE_PANEL", panels * PANEL_PIXELS * 10, line, self.n, len(stops))
        for k in range(LINES + 1):
            price, number = quarter(self.low, self.high, k), quarter(1, self.n, k)
            x, y = across(number, self.n), self.down(price)
            say("PICTURE_GRID", y, y + 40, price)
            say("PICTURE_UNDER", x, x, number)
        say("PICTURE_LINE")
        for number, price in enumerate(prints, 1):
            say("PICTURE_POINT", across(number, self.n), self.down(price))
        say("PICTURE_LINE_END")
        self.labels(stops)

    def down(self, price):
        """Where a price stands between the lowest and the highest. Large ranges lose their low bits first."""
        if self.low == self.high:
            return MIDDLE
        if price >= self.high:
            return TOP
        if price <= self.low:
            return BOTTOM
        unit = (self.high - self.low) // 2**40 + 1
        return TOP + (self.high - price) // unit * (BOTTOM - TOP) // ((self.high - self.low) // unit)

    def labels(self, stops):
        """Each identity in the nearest free band, below before above."""
        free = set(range(BANDS))
        for stop in stops:
            y = self.down(stop[4])
            wanted = (y - TOP) // BAND
            if not free:
                return
            band = min(free, key=lambda b: (abs(b - wanted), b < wanted))
            free.remove(band)
            at = TOP + band * BAND
            self.say("PICTURE_LABEL_LONG" if stop[0] < 2 else "PICTURE_LABEL", stop[3], at + 40, *stop[:3])
            self.say("PICTURE_LEADER", stop[3], at, y)

    def draw(self, who, x, price):
        """On from where the line ends: to its level, across, and to a price."""
        side, start, before, level = self.drawn[who]
        self.say("PICTURE_STEP", side, start, self.down(before), self.down(level), x, self.down(price))
        self.drawn[who] = [side, x, price, price]

    def moved(self, number, who, price):
        x = across(number, self.n)
        if x - self.drawn[who][1] < CLOSE:
            self.drawn[who][3] = price
        else:
            self.draw(who, x, price)

    def elected(self, number, who, price, turn):
        x, y = across(number, self.n), self.down(price)
        side = self.drawn[who][0]
        self.draw(who, x, price)
        del self.drawn[who]
        first, above, last = self.circle
        if abs(first - x) < CIRCLE_WIDTH and abs(above - y) < CIRCLE_WIDTH:
            if first <= (LEFT + RIGHT) // 2:
                x = last + CIRCLE_WIDTH
            else:
                x = last - CIRCLE_WIDTH if last >= CIRCLE_WIDTH else last
        else:
            first = x
        self.circle = (first, y, x)
        self.say("PICTURE_ELECTED", side, x, y, x, y + 28, turn)

    def finish(self):
        for who in list(self.drawn):
            self.draw(who, RIGHT, self.drawn[who][3])
        self.say("PICTURE_PANEL_END")
