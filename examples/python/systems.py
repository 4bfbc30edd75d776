"""A system, another right side, a product, and the three kinds of refusal that have a column."""

import sys
from ctypes import c_double, c_float

from nardlintel import Library, Refusal


def show(name, answer):
    print(f"{name}: answer", *(x.hex() for x in answer))


def show_refusal(name, call, *arguments):
    try:
        call(*arguments)
    except Refusal as refusal:
        print(f"{name}: {refusal}")


def main(path):
    binary64 = Library(path, c_double)
    a = [[2, 1], [4, 3]]
    factors, x = binary64.solve(a, [3, 7])
    show("solve", x)
    x = binary64.again(factors, [0.1, 0.3])
    show("again", x)
    show("multiply", binary64.multiply(a, x))
    show_refusal("no pivot", binary64.factor, [[1, 1], [1, 1]])
    show_refusal("small pivot", binary64.solve, [[2.0**-1001, 1], [1, 1]], [3, 7])
    show_refusal("large quotient", binary64.solve, [[2.0**-600]], [2.0**600])
    show("solve, binary32", Library(path, c_float).solve([[3]], [1])[1])


main(sys.argv[1])
