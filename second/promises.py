#!/usr/bin/env python3
"""Tests the bounds of docs/PROMISES.md on what our programs print, in whole numbers.

    second/promises.py COUNT SEED

COUNT systems, most of size 1 to 12 and some of about 32, are given to `factors`, `solve` and `again`, in target/bin or
in the folder that NARDLINTEL_BIN names. Whatever they answer is read exactly and tested:

    factors   promise 3: near the matrix; multipliers at most 1, no zero pivot, each row in one place
    solve     promise 4: the residual of each row is within its bound, so that there is a nearby system
    again     promise 5: prints with the printed factors what `solve` prints; with factors from anywhere, which are
              every fourth case, the residual is within the bound that has 2n
    multiply  promise 6: each entry is within its bound; as no program multiplies, through the interface for C, if the
              shared library is there that examples/python/run builds

Prints the counts, and the largest error as a part of its bound. The status is 1 if a promise is broken.
"""
import collections
import ctypes
import fractions
import os
import random
import re
import sys

import exact
import generate
import programs
import systems
import words as forms

ONE = 2**1074                                        # numbers are counted in units of 2^-1074
EXACT_FORM = re.compile(r"(-?)0x([0-9a-f]+)p(-?[0-9]+)")


def printed_number(word):
    """A printed number, in units."""
    sign, whole, power = EXACT_FORM.fullmatch(word).groups()
    above, below = (int(whole, 16) << max(int(power) + 1074, 0)), 1 << max(-1074 - int(power), 0)
    assert above % below == 0
    return -(above // below) if sign else above // below


def given_numbers(fmt, words):
    """The numbers that words stand for, in units: decimals are rounded to the format."""
    values = exact.numbers(exact.FORMAT_OF[fmt.suffix], b" ".join(words).decode())
    return [int(-q * ONE) if negative else int(q * ONE) for negative, q in values]


class Factors:
    """The order, L and U, and in units of 2^-2148 the exact product of both and the weights."""

    def __init__(self, n, order, lu):
        self.n, self.order = n, order
        self.lower = [lu[i * n:i * n + i] + [ONE] + [0] * (n - i - 1) for i in range(n)]
        self.upper = [[0] * i + lu[i * n + i:(i + 1) * n] for i in range(n)]
        columns = list(zip(*self.upper))
        self.product = [[dot(row, column) for column in columns] for row in self.lower]
        self.weights = [[dot(map(abs, row), map(abs, column)) for column in columns] for row in self.lower]


def dot(xs, ys):
    return sum(x * y for x, y in zip(xs, ys))


class Tests:
    """Counts of what was tested, the broken promises, and the largest part of a bound that was reached."""

    def __init__(self):
        self.counts, self.broken, self.largest = collections.Counter(), 0, collections.Counter()

    def bound(self, name, digits, t, error, magnitudes):
        """Tests (2^digits - t) error <= t magnitudes."""
        left, right = (2**digits - t) * error, t * magnitudes
        if left:
            self.largest[name] = max(self.largest[name], left / right if left <= right else float("inf"))
        return left <= right

    def hold(self, name, facts, text):
        """Counts one test of a promise, of which all facts must hold."""
        self.counts[f"tested: {name}"] += 1
        if not all(facts):
            self.broken += 1
            if self.broken <= 10:
                print(f"broken: {name}: {text.decode()}")


def ours(program, text):
    printed, status = programs.run(programs.ours(program), text)
    if status != 0:
        sys.exit(f"{program}: status {status} for {text.decode()}")
    return printed


def near_matrix(tests, fmt, a, f):
    """Promise 3, entry by entry."""
    n = f.n
    yield sorted(f.order) == list(range(n))
    for i in range(n):
        yield f.upper[i][i] != 0
        yield all(abs(l) <= ONE for l in f.lower[i])
        for j in range(n):
            error = abs(a[f.order[i]][j] * ONE - f.product[i][j])
            yield tests.bound("factors", fmt.digits, n, error, f.weights[i][j])


def near_solution(tests, name, fmt, t, rows, right, f, x):
    """The residual of each row, for rows in units of 2^-2148: promises 4 and 5."""
    for i in range(f.n):
        residual = abs(dot(rows[i], x) - right[f.order[i]] * ONE * ONE)
        yield tests.bound(name, fmt.digits, t, residual, dot(f.weights[i], map(abs, x)))


def test_system(tests, rng, size):
    fmt = generate.some_format(rng)
    kind = rng.choice(list(systems.KINDS))
    rows, right = systems.KINDS[kind](rng, fmt, size)
    n, words = len(rows), forms.system_words(rng, fmt, rows, right)
    text = b" ".join(words)
    values = given_numbers(fmt, words[2:])
    a = [values[i * (n + 1):i * (n + 1) + n] for i in range(n)]
    b = values[n::n + 1]
    factors, solution = ours("factors", text), ours("solve", text)
    if not factors.startswith(b"factors"):
        tests.counts["refused: factoring"] += 1
        tests.hold("solve refuses as factors does", [solution == factors], text)
        return
    head = factors.decode().split()
    f = Factors(n, [int(w) for w in head[2:2 + n]], [printed_number(w) for w in head[2 + n:]])
    tests.hold("factors", near_matrix(tests, fmt, a, f), text)
    again = ours("again", factors + b" ".join(words[2 + n::n + 1]))
    tests.hold("again as solve", [again == solution], text)
    if not solution.startswith(b"answer"):
        tests.counts["refused: solving"] += 1
        return
    x = [printed_number(w) for w in solution.decode().split()[1:]]
    given = [[v * ONE for v in a[row]] for row in f.order]
    tests.hold("solve", near_solution(tests, "solve", fmt, 3 * n, given, b, f, x), text)


def test_again(tests, rng):
    """Factors that no factoring made, and one right side."""
    fmt = generate.some_format(rng)
    words, n = generate.own_factor_words(rng, fmt)
    right = generate.right_side_words(rng, fmt, n)
    text = b" ".join(words + right)
    solution = ours("again", text)
    if not solution.startswith(b"answer"):
        tests.counts["refused: again"] += 1
        return
    f = Factors(n, [int(w) for w in words[2:2 + n]], given_numbers(fmt, words[2 + n:]))
    x = [printed_number(w) for w in solution.decode().split()[1:]]
    facts = near_solution(tests, "again", fmt, 2 * n, f.product, given_numbers(fmt, right), f, x)
    tests.hold("again", facts, text)


def shared_library():
    path = os.path.join(programs.TARGET, "examples", "libnardlintel.so")
    return ctypes.CDLL(path) if os.path.exists(path) else None


def units(array):
    return [int(fractions.Fraction(x) * ONE) for x in array]


def test_multiply(tests, rng, library):
    """A matrix of random numbers times a vector, some of them zero and of powers far apart."""
    element, suffix, digits, power = rng.choice(((ctypes.c_double, "f64", 53, 300), (ctypes.c_float, "f32", 24, 30)))
    n = rng.randint(1, 16)
    power = rng.choice((3, power))

    def numbers(count):
        return (element * count)(*(rng.choice((0, 1, 1, 1)) * rng.uniform(-1, 1) * 2.0**rng.randint(-power, power)
                                   for _ in range(count)))
    a, x, y = numbers(n * n), numbers(n), (element * n)()
    sizes = [ctypes.c_size_t(k) for k in (n, n * n, n, n)]
    if getattr(library, "nardlintel_multiply_" + suffix)(sizes[0], a, sizes[1], x, sizes[2], y, sizes[3]) != 0:
        tests.counts["refused: multiply"] += 1
        return
    a, x, y = units(a), units(x), units(y)
    rows = [a[i * n:(i + 1) * n] for i in range(n)]
    facts = (tests.bound("multiply", digits, n, abs(dot(row, x) - entry * ONE), dot(map(abs, row), map(abs, x)))
             for row, entry in zip(rows, y))
    tests.hold("multiply", facts, b"(through the interface for C)")


def main():
    count, seed = programs.arguments(__doc__)
    programs.build()
    programs.need_ours()
    tests, library = Tests(), shared_library()
    for index in range(count):
        rng = random.Random(f"promises {seed} {index}")
        if library:
            test_multiply(tests, rng, library)
        if index % 4 == 3:
            test_again(tests, rng)
        else:
            test_system(tests, rng, 32 if index % 40 == 0 else rng.randint(1, 12))
    for name, times in sorted(tests.counts.items()):
        print(f"  {times:7}  {name}")
    for name, part in sorted(tests.largest.items()):
        print(f"  largest error, {name}: {part:.4f} of its bound")
    print(f"cases: {count}, broken promises: {tests.broken}")
    sys.exit(tests.broken > 0)


main()
