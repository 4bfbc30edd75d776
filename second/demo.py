#!/usr/bin/env python3
"""What the program `demo` prints, worked out from docs/RULES.md with exact fractions and no float operation.

Run it as  second/demo.py > crates/demo/stdout .
A number is a pair: whether it is negative, and its magnitude, a fraction.
"""
from fractions import Fraction

# digits, largest exponent, least magnitude in range
FORMATS = {
    "binary64": (53, 1023, Fraction(1, 2**1000)),
    "binary32": (24, 127, Fraction(1, 2**110)),
}
ZERO = (False, Fraction(0))


class OutOfRange(Exception):
    pass


class Refusal(Exception):
    """The words after `no answer`, and the rows and the order that are left, if there are any."""

    def __init__(self, words, rows=None, order=None):
        self.words, self.rows, self.order = words, rows, order


def rounded(fmt, q):
    """q > 0 rounded to nearest, ties to even, as a whole number and a power of two; None if it overflows."""
    p, emax, _ = FORMATS[fmt]
    e = -(emax + p - 2)                              # the exponent of the least value
    while q / Fraction(2) ** e >= 2**p:
        e += 1
    m = q / Fraction(2) ** e
    n = m.numerator // m.denominator
    rest = m - n
    if rest > Fraction(1, 2) or (rest == Fraction(1, 2) and n % 2 == 1):
        n += 1
    return (n, e) if n * Fraction(2) ** e < Fraction(2) ** (emax + 1) else None


def exact_text(x):
    """An odd whole number in hexadecimal digits, and a power of two."""
    sign = "-" if x[0] else ""
    if x[1] == 0:
        return sign + "0x0p0"
    m, e = x[1].numerator, 1 - x[1].denominator.bit_length()
    while m % 2 == 0:
        m, e = m // 2, e + 1
    return f"{sign}0x{m:x}p{e}"


def nearest(fmt, negative, q, least):
    """q > 0 rounded, in range if it is finite and at least `least`."""
    r = rounded(fmt, q)
    if r is None or r[0] * Fraction(2) ** r[1] < least:
        raise OutOfRange
    return (negative, r[0] * Fraction(2) ** r[1])


def times(fmt, x, y):
    if x[1] == 0 or y[1] == 0:
        return (x[0] != y[0], Fraction(0))
    return nearest(fmt, x[0] != y[0], x[1] * y[1], FORMATS[fmt][2])


def over(fmt, x, y):
    if x[1] == 0:
        return (x[0] != y[0], Fraction(0))
    return nearest(fmt, x[0] != y[0], x[1] / y[1], FORMATS[fmt][2])


def plus(fmt, x, y):
    total = (-x[1] if x[0] else x[1]) + (-y[1] if y[0] else y[1])
    if total == 0:
        return (x[0] and y[0], Fraction(0))
    return nearest(fmt, total < 0, abs(total), 0)


def minus(fmt, x, y):
    return plus(fmt, x, (not y[0], y[1]))


def factor(fmt, n, a):
    """The rows of the factors and the order."""
    rows = [a[i * n:(i + 1) * n] for i in range(n)]
    order = list(range(n))
    for k in range(n):
        p = max(range(k, n), key=lambda i: rows[i][k][1])          # the first of the largest
        rows[k], rows[p] = rows[p], rows[k]
        order[k], order[p] = order[p], order[k]
        if rows[k][k][1] == 0:
            raise Refusal(f"5 {k}", rows, order)
        try:
            below = []
            for r in range(k + 1, n):
                l = over(fmt, rows[r][k], rows[k][k])
                right = [minus(fmt, rows[r][j], times(fmt, l, rows[k][j])) for j in range(k + 1, n)]
                below.append(rows[r][:k] + [l] + right)
        except OutOfRange:
            raise Refusal(f"6 {k}", rows, order)
        rows[k + 1:] = below
    return rows, order


def solve(fmt, n, a, b):
    rows, order = factor(fmt, n, a)
    try:
        y = []
        for i in range(n):
            s = b[order[i]]
            for j in range(i):
                s = minus(fmt, s, times(fmt, rows[i][j], y[j]))
            y.append(s)
        x = [ZERO] * n
        for i in reversed(range(n)):
            s = y[i]
            for j in range(i + 1, n):
                s = minus(fmt, s, times(fmt, rows[i][j], x[j]))
            x[i] = over(fmt, s, rows[i][i])
    except OutOfRange:
        raise Refusal("6 solving")
    return x


def multiply(fmt, n, a, x):
    y = []
    try:
        for i in range(n):
            s = ZERO
            for j in range(n):
                s = plus(fmt, s, times(fmt, a[i * n + j], x[j]))
            y.append(s)
    except OutOfRange:
        raise Refusal("6")
    return y


def show(text, work):
    try:
        print(f"{text}: answer", *(exact_text(x) for x in work()))
    except Refusal as refusal:
        print(f"{text}: no answer {refusal.words}")


def show_factors(fmt, matrix):
    try:
        rows, order = factor(fmt, matrix.count("/") + 1, numbers(fmt, matrix))
        words = "factors"
    except Refusal as refusal:
        rows, order, words = refusal.rows, refusal.order, f"no answer {refusal.words}, left"
    print(f"{matrix}: {words}", *(exact_text(x) for row in rows for x in row), "order", *order)


def show_system(fmt, matrix, right):
    b = numbers(fmt, right)
    show(f"{matrix} with {right}", lambda: solve(fmt, len(b), numbers(fmt, matrix), b))


def show_product(fmt, matrix, vector):
    x = numbers(fmt, vector)
    show(f"{matrix} times {vector}", lambda: multiply(fmt, len(x), numbers(fmt, matrix), x))


def numbers(fmt, text):
    """The numbers of a text, in which a `/` ends a row: decimals, rounded once, and exact words of values of the format."""
    values = []
    for word in text.replace("/", " ").split():
        digits = word.removeprefix("-")
        if digits.startswith("0x"):
            m, e = digits[2:].split("p")
            q = int(m, 16) * Fraction(2) ** int(e)
        else:
            q = Fraction(digits)
        values.append((word != digits, nearest(fmt, False, q, 0)[1] if q else q))
    return values


# A square panel of bars with both diagonals; the loads pull at one corner and press on the other.
TRUSS = "22.68 -7.68 5.76 0 0 / -7.68 22.68 -5.76 -15 0 / 5.76 -5.76 24.32 0 0 / 0 -15 0 22.68 5.76 / 0 0 0 5.76 24.32"
LOADS = "0 10 0 0 -6"

FACTORED = ["2 1 / 4 3", "1 1 / 1 1", "0 0 / 0 0", "0 1 / -1 0", "1 1 / -1 1"]
SOLVED = [("3", "1"), ("0", "1"), ("-0", "1"), ("2 1 / 4 3", "3 7"), ("0 1 / -1 0", "2 3"), (TRUSS, LOADS)]
MULTIPLIED = [("1 2 / 3 4", "1 1"), ("-1", "0")]

for fmt, large, small in ("binary64", "0x1p600", "0x1p-600"), ("binary32", "0x1p64", "0x1p-64"):
    print(fmt)
    for matrix in FACTORED:
        show_factors(fmt, matrix)
    for matrix, right in SOLVED:
        show_system(fmt, matrix, right)
    for matrix, vector in MULTIPLIED:
        show_product(fmt, matrix, vector)
    show_factors(fmt, f"{large} 1 / {small} 1")
    for matrix, right in (small, large), (large, small), (large, "-0"):
        show_system(fmt, matrix, right)
    for number in large, small:
        show_product(fmt, number, number)
