#!/usr/bin/env python3
"""Seeded cases for the programs: cases(count, seed) yields (kind, program, text), the text being bytes.

    second/generate.py COUNT SEED DIR   writes them to files DIR/NUMBER.PROGRAM

The kinds come in turn, and case i of a seed is the same whatever the count. A case of `again` is made from what the
second program's `factors` printed.
"""
import os
import random
import sys

import programs
import systems
from systems import plain_right, some_size, spread_right
from words import (BAD_WHOLES, BAD_WORDS, BINARY32, BINARY64, HEADS, LARGE_WHOLES, nearest, odd_word, size_word,
                   spaced, system_words, tie_word, spread, word)


# ---- Cases of `solve` and `factors` ----

def some_format(rng):
    return rng.choice((BINARY64, BINARY32))


def system_case(make):
    def case(rng):
        fmt = some_format(rng)
        rows, right = make(rng, fmt)
        words = system_words(rng, fmt, rows, right)
        return rng.choice(("solve", "factors")), spaced(rng, words, len(rows) + 1)
    return case


def word_case(rng):
    """A word as the matrix or the right side of a system of size 1."""
    fmt = some_format(rng)
    pick = rng.randrange(5)
    if pick == 0:
        shown = word(rng, spread(rng, fmt), "mixed")
    elif pick == 1:
        shown = tie_word(rng)
    elif pick == 2:
        shown = rng.choice(BAD_WORDS)
    else:
        shown = odd_word(rng, rng.choice((fmt, some_format(rng))))
    pair, program = rng.choice((([shown, b"1"], "factors"), ([b"1", shown], "solve"), ([shown, b"1"], "solve")))
    return program, spaced(rng, [b"system" + fmt.suffix.encode(), b"1"] + pair, 2)


def bad_head(rng, words, n, fmt):
    words[:1] = [rng.choice(HEADS)]


def bad_size(rng, words, n, fmt):
    digits = str(n).encode()
    words[1:2] = [rng.choice((*BAD_WHOLES, *LARGE_WHOLES, b"0", b"00", b"0" * 500, b"9" * 1000, b"1" + b"0" * 100,
                              b"0" * 300 + digits, str(n + 1).encode(), str(n - 1).encode(), b"127", b"128",
                              digits + b".", b"-" + digits, b"+" + digits, digits + b"\x0b"))]


def bad_number(rng, words, n, fmt):
    if len(words) > 2:
        words[rng.randrange(2, len(words))] = odd_word(rng, fmt)


def surplus_words(rng, words, n, fmt):
    extra = [word(rng, spread(rng, fmt), "mixed") if rng.random() < 0.9 else odd_word(rng, fmt)
             for _ in range(rng.choice((1, 1, 2, n, n + 1, 3 * n)))]
    at = rng.choice((len(words), rng.randint(2, max(2, len(words)))))
    words[at:at] = extra


def missing_words(rng, words, n, fmt):
    keep = rng.choice((len(words) - 1, rng.randint(0, len(words))))
    del words[max(keep, 0):]


def missing_word(rng, words, n, fmt):
    if words:
        del words[rng.randrange(len(words))]


def exchanged_words(rng, words, n, fmt):
    if len(words) > 1:
        i, j = rng.sample(range(len(words)), 2)
        words[i], words[j] = words[j], words[i]


def cut_text(rng, text):
    return text[:rng.randint(0, len(text))]


def changed_byte(rng, text):
    at = rng.randint(0, len(text))
    return text[:at] + bytes([rng.randrange(256)]) + text[at + rng.randint(0, 1):]


def false_separator(rng, text):
    """A byte that does not separate words in the place of one that does."""
    places = [i for i, c in enumerate(text) if c in b" \t\r\n"]
    if not places:
        return text
    at = rng.choice(places)
    byte = rng.choice((b"\x0b", b"\x0c", b"\x00", b"\xa0", b"\x1c", b"\x85", b"\xe2\x80\x83", b",", b";", b"\\n"))
    return text[:at] + byte + text[at + 1:]


BAD_TEXT = (cut_text, changed_byte, false_separator)
BAD_SYSTEM = (bad_head, bad_size, bad_number, bad_number, surplus_words, missing_words, missing_word, exchanged_words)


def mutated(rng, words, n, fmt, faults):
    """The words as a text, with one to three faults."""
    count = rng.choice((1, 2, 2, 3))
    on_text = rng.random() < 0.25
    for fault in rng.choices(faults, k=count - on_text):
        fault(rng, words, n, fmt)
    text = spaced(rng, words, n)
    return rng.choice(BAD_TEXT)(rng, text) if on_text else text


def bad_system_case(rng):
    fmt = some_format(rng)
    rows, right = systems.KINDS[rng.choice(("random", "integers", "spread powers"))](rng, fmt, rng.randint(1, 6))
    words = system_words(rng, fmt, rows, right)
    return rng.choice(("solve", "factors")), mutated(rng, words, len(rows), fmt, BAD_SYSTEM)


def tiny_case(rng):
    """A few words in any order."""
    pool = b"system system32 factors factors32 0 1 1 2 3 128 129 -0 1.5 0x1p0 z".split()
    words = rng.choices(pool, k=rng.randint(0, 9))
    if rng.random() < 0.7:
        words[:1] = [rng.choice(pool[:4])]
    return rng.choice(programs.PROGRAMS), b" ".join(words)


# ---- Cases of `again` ----

def factor_words(rng, fmt, n=None):
    """The words that the second program's `factors` printed for some system."""
    while True:
        kind = rng.choice(("random", "integers", "hilbert", "equal pivots", "signed zeros", "truss", "band",
                           "triangular", "growth", "spread right side"))
        rows, right = systems.KINDS[kind](rng, fmt, n)
        text = b" ".join(system_words(rng, fmt, rows, right))
        printed, _ = programs.run(programs.second("factors"), text)
        if printed.startswith(b"factors"):
            return printed.split(), len(rows)


def own_factor_words(rng, fmt):
    """Factors that no factoring made: large multipliers, any order."""
    n = some_size(rng)
    value = rng.choice((lambda: float(rng.randint(-3, 3)), lambda: rng.uniform(-9, 9),
                        lambda: spread(rng, fmt, -fmt.top // 6, fmt.top // 6)))
    words = [b"factors" + fmt.suffix.encode(), size_word(rng, n)]
    words += [size_word(rng, i) for i in rng.sample(range(n), n)]
    for i in range(n):
        words += [word(rng, nearest(fmt, value() or float(i == j)), "mixed") for j in range(n)]
    return words, n


def right_side_words(rng, fmt, n):
    style = rng.choice(("decimal", "exact", "printed", "mixed"))
    right = spread_right(rng, fmt, n) if rng.random() < 0.4 else plain_right(rng, n)
    return [word(rng, nearest(fmt, b), style) for b in right]


def right_sides(rng, fmt, n, most=4):
    return [w for _ in range(rng.randint(0, most)) for w in right_side_words(rng, fmt, n)]


def again_case(rng):
    fmt = some_format(rng)
    words, n = factor_words(rng, fmt)
    return "again", spaced(rng, words + right_sides(rng, fmt, n), n)


def again_large_case(rng):
    fmt = some_format(rng)
    words, n = factor_words(rng, fmt, rng.randint(64, 128))
    return "again", spaced(rng, words + right_sides(rng, fmt, n), n)


def again_own_case(rng):
    fmt = some_format(rng)
    words, n = own_factor_words(rng, fmt)
    return "again", spaced(rng, words + right_sides(rng, fmt, n), n)


def bad_right_side_case(rng):
    """Right sides of which the last is cut short, or has a bad word, or both, and words after it."""
    fmt = some_format(rng)
    words, n = factor_words(rng, fmt, rng.randint(1, 6)) if rng.random() < 0.7 else own_factor_words(rng, fmt)
    words = words + right_sides(rng, fmt, n, 2)
    last = right_side_words(rng, fmt, n)
    if rng.random() < 0.6:
        last[rng.randrange(n)] = odd_word(rng, fmt)
    if rng.random() < 0.5:
        del last[rng.randint(0, n - 1):]
    elif rng.random() < 0.5:
        last += right_sides(rng, fmt, n, 2)
    return "again", spaced(rng, words + last, n)


def bad_order(rng, words, n, fmt):
    at = rng.randrange(2, 2 + n)
    pick = rng.random()
    if pick < 0.3:
        words[at:at + 1] = [rng.choice(BAD_WHOLES)]
    elif pick < 0.5:
        words[at:at + 1] = [rng.choice((*LARGE_WHOLES, str(n).encode(), b"9" * rng.choice((5, 20, 400, 5000))))]
    elif pick < 0.8:
        words[at:at + 1] = [str(rng.randrange(n)).encode()]
    else:
        words[at:at + 1] = [b"0" * rng.choice((1, 3, 30, 3000)) + words[at] if at < len(words) else b"0"]


def bad_diagonal(rng, words, n, fmt):
    i = rng.randrange(n)
    at = 2 + n + i * n + i
    words[at:at + 1] = [rng.choice(b"0 -0 .0 0x0p0 -0x0p-7 0x1p-1074 0x1p-149 0.00000000000001".split())]


BAD_FACTORS = (bad_head, bad_size, bad_number, bad_number, bad_order, bad_order, bad_order, bad_diagonal, bad_diagonal,
               missing_words, missing_words, missing_word, surplus_words, exchanged_words)


def bad_factors_case(rng):
    fmt = some_format(rng)
    words, n = factor_words(rng, fmt, rng.randint(1, 6)) if rng.random() < 0.7 else own_factor_words(rng, fmt)
    return "again", mutated(rng, words + right_sides(rng, fmt, n, rng.choice((0, 2))), n, fmt, BAD_FACTORS)


# ---- Long texts ----

def long_case(rng):
    """Texts at the limit of 16,777,216 bytes, and long texts of many words or of one."""
    limit = 16777216 + rng.randint(-1, 1)
    pick = rng.randrange(6)
    if pick == 0:
        return "solve", b"system 1 3 1".ljust(limit)
    if pick == 1:
        return "factors", b"\n" * (limit - 12) + b"system 1 3 1"
    if pick == 2:
        return "again", (b"factors 1 0 2" + b" 1" * 300000).ljust(limit)
    if pick == 3:
        return "solve", b"system 2" + b" 1" * ((limit - 8) // 2)
    if pick == 4:
        start = rng.choice((b"x", b"system 1 ", b"system ", b"factors 1 "))
        return rng.choice(programs.PROGRAMS), start.ljust(limit, b"7")
    return "again", b"factors 1 " + b"0" * (limit - 14) + b" 5 1"


# ---- All kinds, in turn; a kind stands as often as it is to be met. ----

KINDS = [(name, system_case(make)) for name, make in systems.KINDS.items() for _ in range(2)]
KINDS += [(name, system_case(systems.KINDS[name])) for name in ("late spread powers", "edge") for _ in range(3)]
KINDS += [("large", system_case(systems.large_system))] + [("words", word_case)] * 8
KINDS += [("malformed system", bad_system_case)] * 10 + [("few words", tiny_case)] * 2
KINDS += [("again", again_case)] * 5 + [("again, own factors", again_own_case)] * 3
KINDS += [("again, bad right side", bad_right_side_case)] * 5 + [("again, malformed", bad_factors_case)] * 12
LARGE_AGAIN_EVERY, LONG_EVERY = 150, 1000


def case(index, seed):
    rng = random.Random(f"{seed} {index}")
    kind, make = KINDS[index % len(KINDS)]
    if index % LARGE_AGAIN_EVERY == LARGE_AGAIN_EVERY - 1:
        kind, make = "again, large", again_large_case
    if index % LONG_EVERY == LONG_EVERY - 1:
        kind, make = "long", long_case
    return (kind, *make(rng))


def cases(count, seed):
    programs.build()
    for index in range(count):
        yield case(index, seed)


def main():
    if len(sys.argv) != 4:
        sys.exit(__doc__)
    count, seed, folder = int(sys.argv[1]), int(sys.argv[2]), sys.argv[3]
    os.makedirs(folder, exist_ok=True)
    for index, (_, program, text) in enumerate(cases(count, seed)):
        with open(os.path.join(folder, f"{index:06}.{program}"), "wb") as file:
            file.write(text)


if __name__ == "__main__":
    main()
