"""What the program `forecast` writes of an input, and the cases of forecast_cases, as crates/forecast_cases/src/lines.rt reads them."""
import os
import re

import book

SIDES = ["buy", "sell"]


def forecast(data):
    """Document 01, The program `forecast`: a store as little-endian words, a price count, the prices."""
    words = [] if len(data) % 8 else [int.from_bytes(data[k:k + 8], "little") for k in range(0, len(data), 8)]
    records = min(words[0], book.MOST_RECORDS) if words else 0
    store, behind = words[:book.store_words(records)], words[book.store_words(records):]
    prices = behind[1:] if behind and behind[0] <= book.MOST_PRICES and len(behind) - 1 == behind[0] else []
    r = book.walk(store, (0, 0, (0, 0)), None, prices, book.MOST_RECORDS)
    if r.number:
        return [f"refused {r.number}"]
    return [f"elected {len(r.elected)}"] + [" ".join(map(str, [*e[:3], SIDES[e[3]], *e[4:8]])) for e in r.elected]


def longest_cases():
    """The longest store and a count, without prices; then so many bytes, around every bound of the reading."""
    store = [0] * book.store_words(book.MOST_RECORDS)
    book.layout_store(store, book.MOST_RECORDS, 0)
    end = 8 * (len(store) + 1 + book.MOST_PRICES)
    lengths = [8 * len(store) + k for k in (-8, -1, 0, 1, 8)] + list(range(end - 9, end + 34)) + [end + 8 * 4096, end + 8 * 4096 + 1]
    lengths += [end + 16 + 65536 + k for k in range(-2, 10)] + [end + 16 + 2 * 65536, 999999, 1000000]
    for count in book.MOST_PRICES, book.MOST_PRICES + 1, book.MOST_PRICES - 1:
        yield f"# {book.MOST_RECORDS} free records, a count of {count}, and no prices; then zeros up to so many bytes"
        yield " ".join(map(str, store + [count]))
        yield from (f"length {n}" for n in lengths)


def lines():
    with open(os.path.join(os.path.dirname(os.path.abspath(__file__)), "forecast_cases.txt"), encoding="ascii") as text:
        return text.read().splitlines() + list(longest_cases())


def answers(cases):
    out, data = [], b""
    for line in cases:
        if line.startswith("#"):
            out.append(line)
            continue
        if line.startswith("length "):
            n = int(line[7:])
            data = data[:n] + bytes(n - len(data[:n]))
        else:
            data = b"".join(int(w).to_bytes(8, "little") for w in re.findall(r"[0-9]+", line)) + bytes(line.count("+"))
        out += forecast(data)
    return "".join(line + "\n" for line in out)
