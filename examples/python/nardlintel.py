"""The calls from Python, by ctypes, in binary64 and binary32: lists of floats in, lists of floats out."""

import ctypes
from ctypes import POINTER, byref, c_double, c_float, c_size_t, c_uint16, c_uint32
from typing import NamedTuple


class Refusal(Exception):
    """A call has no answer. The column is that at which the factoring ended, the size for a 6 in solving, or None."""

    def __init__(self, number, column, size):
        where = "" if column is None else " solving" if number == 6 and column == size else f" {column}"
        super().__init__(f"no answer {number}{where}")
        self.number = number
        self.column = column


class Factors(NamedTuple):
    lu: list
    order: list


class Library:
    """The calls of one format: `element` is c_double or c_float."""

    def __init__(self, path, element):
        self.element = element
        self.suffix = {c_double: "f64", c_float: "f32"}[element]
        self.library = ctypes.CDLL(path)

    def _call(self, name, n, *arrays, has_column=True):
        """Each array goes as a pointer and a length."""
        call = getattr(self.library, f"nardlintel_{name}_{self.suffix}")
        call.restype = c_uint32
        call.argtypes = [c_size_t]
        arguments = [n]
        for array in arrays:
            call.argtypes += [POINTER(array._type_), c_size_t]
            arguments += [array, len(array)]
        column = c_size_t()
        if has_column:
            call.argtypes.append(POINTER(c_size_t))
            arguments.append(byref(column))
        number = call(*arguments)
        if number != 0:
            raise Refusal(number, column.value if has_column and number >= 5 else None, n)

    def _numbers(self, values):
        values = list(values)
        return (self.element * len(values))(*values)

    def _places(self, values):
        values = list(values)
        return (c_uint16 * len(values))(*values)

    def solve(self, rows, right):
        """The factors and the answer of a system."""
        n = len(rows)
        a, b = self._numbers(sum(rows, [])), self._numbers(right)
        lu, order, x = self._numbers([0] * n * n), self._places([0] * n), self._numbers([0] * n)
        self._call("solve", n, a, b, lu, order, x)
        return Factors(list(lu), list(order)), list(x)

    def factor(self, rows):
        n = len(rows)
        a = self._numbers(sum(rows, []))
        lu, order = self._numbers([0] * n * n), self._places([0] * n)
        self._call("factor", n, a, lu, order)
        return Factors(list(lu), list(order))

    def again(self, factors, right):
        n = len(factors.order)
        x = self._numbers([0] * n)
        self._call("again", n, self._numbers(factors.lu), self._places(factors.order), self._numbers(right), x)
        return list(x)

    def multiply(self, rows, vector):
        n = len(rows)
        y = self._numbers([0] * n)
        self._call("multiply", n, self._numbers(sum(rows, [])), self._numbers(vector), y, has_column=False)
        return list(y)
