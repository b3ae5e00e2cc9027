"""The lines of a worksheet: words, arguments by the grammar, and faults with their column."""
import book

SEPARATORS = b" \t,;\r"
# names a line that cannot be read; no command has this name
FAULT = "fault"
MISSING, NOT_NUMBER, TOO_LARGE, NOT_UUID, NOT_ULID, NOT_ON_OFF, NOT_SIDE, TOO_LONG, EXTRA, NO_COMMAND = range(1, 11)
CROCKFORD = b"0123456789abcdefghjkmnpqrstvwxyz"

# keyword and arguments: n number, o number or none, i identity, u UUID, b on or off, s side, h holder, H holder or nothing, p numbers, c child
GRAMMAR = dict(row.split() if " " in row else (row, "") for row in (
    "records n", "tick n", "collar o", "namespace u", "kill b", "last o", "sell innnnH", "buy innnnH", "qty in", "price in", "both inn",
    "replace isnn", "cancel i", "cancel-holder h", "clear", "prints p", "walk", "ends", "compare", "turns", "child c", "pass", "ladder p",
    "list", "holder h", "totals", "ask", "commit"))


class Unread(Exception):
    """A fault and its column."""


def span(line, at):
    """Where the next word begins and ends; the two are one place where there is none."""
    while at < len(line) and line[at] in SEPARATORS:
        at += 1
    end = at
    while end < len(line) and line[end] not in SEPARATORS and line[end] != ord("#"):
        end += 1
    return at, end


def word(line, at):
    start, end = span(line, at)
    return line[start:end]


class Words:
    """The words of a line in turn."""

    def __init__(self, line):
        self.line, self.at, self.start = line, 0, 0

    def ahead(self):
        return word(self.line, self.at)

    def take(self):
        """The next word, or nothing."""
        self.start, self.at = span(self.line, self.at)
        return self.line[self.start:self.at]

    def needed(self):
        text = self.take()
        if not text:
            self.fault(MISSING)
        return text

    def fault(self, number):
        raise Unread(number, self.start + 1)

    # -----------------------------------------------------------------
    # Arguments by their letters

    def n(self):
        return self.number(self.needed())

    def number(self, text):
        """The first fault of its digits stays."""
        value = 0
        for b in text:
            if not 48 <= b <= 57:
                self.fault(NOT_NUMBER)
            value = value * 10 + b - 48
            if value > book.TOP:
                self.fault(TOO_LARGE)
        return value

    def o(self):
        if self.ahead().lower() == b"none":
            self.take()
            return None
        return self.n()

    def i(self):
        text = self.needed()
        if len(text) == 36:
            return (0, *self.uuid(text))
        if len(text) == 26:
            return (1, *self.ulid(text))
        return (2, 0, self.number(text))

    def u(self):
        return self.uuid(self.needed())

    def uuid(self, text):
        if len(text) != 36 or any((b == ord("-")) != (k in (8, 13, 18, 23)) for k, b in enumerate(text)):
            self.fault(NOT_UUID)
        digits = text.replace(b"-", b"").lower()
        if any(b not in CROCKFORD[:16] for b in digits):
            self.fault(NOT_UUID)
        return divmod(int(digits, 16), 2**64)

    def ulid(self, text):
        digits = [CROCKFORD.find(b) for b in text.lower()]
        if min(digits) < 0 or digits[0] > 7:
            self.fault(NOT_ULID)
        value = 0
        for d in digits:
            value = value * 32 + d
        return divmod(value, 2**64)

    def either(self, one, other, fault):
        text = self.needed().lower()
        if text not in (one, other):
            self.fault(fault)
        return int(text == one)

    def b(self):
        return self.either(b"on", b"off", NOT_ON_OFF)

    def s(self):
        return self.either(b"sell", b"buy", NOT_SIDE)

    def h(self):
        self.needed_ahead()
        return self.H()

    def needed_ahead(self):
        if not self.ahead():
            self.needed()

    def H(self):
        text = self.take()
        if len(text) > 32:
            self.fault(TOO_LONG)
        return holder_words(text)

    def p(self):
        numbers = [self.n()]
        while self.ahead():
            numbers.append(self.n())
        return numbers

    def c(self):
        """An entry of the script: printed, start given, start, first, last."""
        if self.ahead().lower() == b"none":
            self.take()
            return [0, 0, 0, 0, 0]
        if self.ahead().lower() == b"from":
            self.take()
            return [1, 1, self.n(), self.n(), self.n()]
        return [1, 0, 0, self.n(), self.n()]


def holder_words(text):
    text = text.ljust(32, b"\0")
    return tuple(int.from_bytes(text[k:k + 8], "big") for k in range(0, 32, 8))


def command(line):
    """The keyword of a line and its values; nothing for a line without words; FAULT with number and column."""
    words = Words(line)
    try:
        keyword = words.take().lower()
        if not keyword:
            return None, ()
        name = keyword.decode("latin-1")
        if name not in GRAMMAR:
            words.fault(NO_COMMAND)
        values = [getattr(words, letter)() for letter in GRAMMAR[name]]
        if words.take():
            words.fault(EXTRA)
        return name, values
    except Unread as fault:
        return FAULT, fault.args
