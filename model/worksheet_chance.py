#!/usr/bin/env python3
"""Writes sheets made by chance, for the worksheet and its model side by side.

    model/worksheet_chance.py SEED SHEETS
    model/worksheet_chance.py full         # the largest store, run and script, too long to be stored"""
import random
import sys

import book
import worksheet_reading as reading

UUID = "e5d4cd1b-4db2-5462-b251-04b66996bef2"  # the child of 7 in the nil namespace
NAMES = ["1", "2", "3", "4", "5", "6", "7", "8", "9", "007", UUID, UUID.upper(), "01ARZ3NDEKTSV4RRFFQ69G5FAV", "00000000000000000000000007"]
HOLDERS = ["anna", "berta", "Anna", "x" * 32]
WRONG = ["", "x", "-1", str(book.TOP + 1), "none", "from", "on", "99999999999999999999x", "6ba7b810-9dad-11d1-80b4-00c04fd430cg", "y" * 33, "1.5"]


class Chance:
    def __init__(self, seed):
        self.r, self.near = random.Random(seed), 100

    def price(self):
        return self.near + self.r.randint(-12, 12) if self.r.random() < 0.97 else self.r.choice([0, 1, book.TOP - 1, book.TOP])

    def prices(self, most):
        at, found = self.price(), []
        for _ in range(self.r.randint(1, most)):
            found.append(min(max(at, 0), book.TOP))
            at += self.r.choice([-3, -2, -1, -1, 0, 1, 1, 2, 3])
        if self.r.random() < 0.3:
            found.sort(reverse=self.r.random() < 0.5)
        return found

    def letter(self, letter):
        r = self.r
        if letter == "n":
            return str(r.choice([0, 1, 1, 2, 3, 5, 5, 10, self.price(), self.price()]))
        if letter == "o":
            return r.choice(["none", str(r.randint(0, 10)), str(self.price())])
        if letter == "i":
            return r.choice(NAMES)
        if letter == "u":
            return r.choice([UUID, "00000000-0000-0000-0000-000000000000"])
        if letter == "b":
            return r.choice(["on", "off", "off", "off"])
        if letter == "s":
            return r.choice(["sell", "buy"])
        if letter in "hH":
            return r.choice(HOLDERS + [""] * (letter == "H"))
        if letter == "p":
            return " ".join(map(str, self.prices(12)))
        return r.choice(["none", "{1} {2}", "from {0} {1} {2}"]).format(*(self.price() for _ in range(3)))

    def admission(self):
        r = self.r
        side, trail, away = r.choice(["sell", "buy"]), r.randint(0, 10) or 5, r.randint(0, 10)
        watermark = self.near + r.randint(-3, 3)
        stop = watermark - away if side == "sell" else watermark + away
        return f"{side} {r.choice(NAMES)} {stop} {watermark} {trail} {r.choice([1, 2, 30, book.TOP])} {r.choice(HOLDERS + ['', ''])}"

    def line(self):
        r = self.r
        if r.random() < 0.4:
            return self.admission()
        name = r.choice([*reading.GRAMMAR, "price", "price", "qty", "both", "prints", "prints", "prints", "walk", "walk", "compare", "compare", "child", "child", "pass", "ask", "ask", "commit", "commit"])
        if name in ("price", "both"):
            words = [r.choice(NAMES), str(self.price())] + (["5"] if name == "both" else [])
        elif name == "replace":
            words = [r.choice(NAMES), r.choice(["sell", "buy"]), str(self.price()), "3"]
        else:
            words = [self.letter(letter) for letter in reading.GRAMMAR[name]]
        line = " ".join([name] + words)
        if name in ("walk", "ends", "compare", "turns", "pass", "ask") and r.random() < 0.8:
            line = f"prints {self.letter('p')}\n{line}"
        if name == "ask" and r.random() < 0.5:
            line += "\ncommit"
        return line

    def spoilt(self, line):
        """A word of a line replaced, one more, or one less."""
        words = line.split(" ")
        k = self.r.randrange(len(words))
        what = self.r.random()
        if what < 0.5:
            words[k] = self.r.choice(WRONG)
        elif what < 0.75:
            del words[k]
        else:
            words.insert(k + 1, self.r.choice(WRONG))
        return " ".join(words)

    def dressed(self, line):
        """The same words with other separators and letters."""
        r = self.r
        if r.random() < 0.15:
            line = "".join(r.choice([" ", "  ", "\t", ",", ";", " ; "]) if c == " " else c for c in line)
        if r.random() < 0.1:
            line += r.choice(["\r", ";;;", " # note", "#note", "   "])
        return line

    def sheet(self, k):
        lines = [line for _ in range(self.r.randint(3, 40)) for line in self.line().split("\n")]
        if self.r.random() < 0.3:
            lines.insert(0, self.r.choice(["records 3", "records 6", "tick 5", "collar 3"]))
        if self.r.random() < 0.25:
            lines.append(self.spoilt(self.line().split("\n")[0]))
        mode = self.r.choice(["text", "text", "text", "table", "picture"])
        return f"=== {mode} chance-{k}\n" + "".join(self.dressed(line) + "\n" for line in lines)


def sheets(seed, many):
    chance = Chance(seed)
    return "".join(chance.sheet(k) for k in range(many))


def full():
    """As many stops as a store takes, and one more; some prints; a walk over the longest run with few stops; a pass that uses the whole script; all
    asked, and committed."""
    most = book.MOST_RECORDS
    stops = "".join(f"{('sell', 'buy')[k % 2]} {k} {(1000 - k, 1000 + k)[k % 2]} 1000 {1 + k % 50} {k + 1} h{k % 5}\n" for k in range(most + 1))
    run = "prints " + " ".join(str(1000 + k * 37 % 61 - 30) for k in range(30)) + "\n"
    long = "".join("prints " + " ".join(str(1000 + (k * 7919 + j) % 500) for k in range(512)) + "\n" for j in range(8))
    script = "".join(f"child {1000 + k} {1000 - k}\n" for k in range(most + 1))
    walked = stops + run + "turns\ncompare\nwalk\ncancel-holder h3\nladder 1 1000 2000\n"
    few = "sell 1 900 1000 100 1\nbuy 2 1900 1000 900 1\nsell 3 1 1000 999 1\n" + long + "turns\ncompare\nwalk\n"
    passed = stops + script + run + "pass\n"
    asked = stops + "prints 1000 0\nask\ncancel 7\ncommit\nask\ncommit\n"
    return "".join(f"=== {mode} {name}\n{sheet}" for name, sheet in (("walked", walked), ("few", few), ("passed", passed), ("asked", asked)) for mode in ("text", "table", "picture"))


if __name__ == "__main__":
    sys.stdout.write(full() if sys.argv[1] == "full" else sheets(int(sys.argv[1]), int(sys.argv[2])))
