#!/usr/bin/env python3
"""Compares the second program with exact fractions that are rounded once after each operation.

    second/crosscheck.py COUNT SEED

COUNT small systems of all kinds, each factored and solved, and COUNT single words, most of them at the edges of what is
a number. The status is 1 if anything printed differs.
"""
import collections
import random
import re
import sys
from fractions import Fraction

import exact
import generate
import programs
import systems
import words as forms

DECIMAL = re.compile(rb"(-?)([0-9]*)(?:\.([0-9]*))?")
EXACT = re.compile(rb"(-?)0x([0-9a-fA-F]{1,14})p(-?[0-9]{1,4})")


def value_of(fmt, word):
    """The number that a word stands for, negative or not and its magnitude; None if it is no number."""
    name = exact.FORMAT_OF[fmt.suffix]
    if form := EXACT.fullmatch(word):
        q = int(form[2], 16) * Fraction(2) ** int(form[3])
    elif form := DECIMAL.fullmatch(word):
        digits = form[2] + (form[3] or b"")
        if not 1 <= len(digits) <= 15:
            return None
        q = Fraction(int(digits), 10 ** len(form[3] or b""))
    else:
        return None
    nearest = exact.rounded(name, q) if q else (0, 0)
    if nearest is None:
        return None
    value = nearest[0] * Fraction(2) ** nearest[1]
    return None if EXACT.fullmatch(word) and value != q else (form[1] == b"-", value)


def word_lines(fmt, value):
    """What `factors` prints for a word as a matrix of size 1."""
    if value is None:
        return ["no answer 7"]
    if value[1] == 0:
        return ["no answer 5 0"]
    return [f"factors{fmt.suffix} 1", "0", exact.exact_text(value)]


def system_lines(fmt, n, values):
    """What `solve` and `factors` print for a system."""
    rows = [values[i * (n + 1):(i + 1) * (n + 1)] for i in range(n)]
    a, b = [v for row in rows for v in row[:n]], [row[n] for row in rows]
    name = exact.FORMAT_OF[fmt.suffix]
    try:
        lu, order = exact.factor(name, n, a)
        lines = [f"factors{fmt.suffix} {n}", " ".join(map(str, order))]
        factors = lines + [" ".join(map(exact.exact_text, row)) for row in lu]
    except exact.Refusal as refusal:
        factors = [f"no answer {refusal.words}"]
    try:
        solution = ["answer"] + [exact.exact_text(x) for x in exact.solve(name, n, a, b)]
    except exact.Refusal as refusal:
        solution = [f"no answer {refusal.words}"]
    return {"solve": solution, "factors": factors}


def system_checks(rng, index):
    kinds = list(systems.KINDS.values())
    fmt = generate.some_format(rng)
    rows, right = kinds[index % len(kinds)](rng, fmt, rng.randint(1, 6))
    words = forms.system_words(rng, fmt, rows, right)
    values = [value_of(fmt, word) for word in words[2:]]
    for program, lines in system_lines(fmt, len(rows), values).items():
        yield program, b" ".join(words), lines


def word_checks(rng, index):
    fmt = generate.some_format(rng)
    word = forms.odd_word(rng, fmt) if index % 3 else forms.tie_word(rng)
    if not set(word) & set(b" \t\r\n"):
        yield "factors", b"system%s 1 %s 1" % (fmt.suffix.encode(), word), word_lines(fmt, value_of(fmt, word))


def main():
    count, seed = programs.arguments(__doc__)
    programs.build()
    wrong = 0
    for checks in system_checks, word_checks:
        outcomes = collections.Counter()
        for index in range(count):
            for program, text, lines in checks(random.Random(f"{checks.__name__} {seed} {index}"), index):
                printed, status = programs.run(programs.second(program), text)
                outcomes[lines[0] if lines[0].startswith("no") else lines[0].split()[0]] += 1
                if (printed.decode().splitlines(), status) != (lines, 0):
                    wrong += 1
                    print(f"{program}: {text}\n  expected {lines}\n  printed {printed}")
        print(", ".join(f"{words}: {times}" for words, times in sorted(outcomes.items())))
    print(f"systems: {count}, words: {count}, mismatches: {wrong}")
    sys.exit(wrong > 0)


main()
