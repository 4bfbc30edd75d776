"""Systems for generated cases.

Each function gives the rows of a matrix and its right side, for a format and a size; without a size it takes one that
suits it. Some take a size near the given one. The numbers are rounded to the format when their words are written.
"""
import math

from words import largest, nearest, spread


def some_size(rng):
    pick = rng.random()
    if pick < 0.75:
        return rng.randint(1, 7)
    if pick < 0.95:
        return rng.randint(8, 20)
    return rng.randint(21, 40)


def plain_right(rng, n):
    return [float(rng.randint(-20, 20)) if rng.random() < 0.5 else rng.uniform(-10, 10) for _ in range(n)]


def random_system(rng, fmt, n=None):
    n = n or some_size(rng)
    scale = 10.0 ** rng.randint(-3, 5)
    return [[rng.uniform(-scale, scale) for _ in range(n)] for _ in range(n)], plain_right(rng, n)


def integer_system(rng, fmt, n=None):
    n = n or some_size(rng)
    top = rng.choice((1, 2, 5, 9, 100))
    return [[float(rng.randint(-top, top)) for _ in range(n)] for _ in range(n)], plain_right(rng, n)


def hilbert_system(rng, fmt, n=None):
    n, s = n or rng.randint(1, 12), rng.randint(1, 4)
    return [[1 / (i + j + s) for j in range(n)] for i in range(n)], plain_right(rng, n)


def nearly_singular_system(rng, fmt, n=None):
    n = n or max(2, some_size(rng))
    rows, right = random_system(rng, fmt, n)
    last = [nearest(fmt, sum(row[j] for row in rows[:-1])) for j in range(n)]
    j = rng.randrange(n)
    last[j] += last[j] * 2.0 ** -rng.randint(10, fmt.digits + 1)
    rows[-1] = last
    rng.shuffle(rows)
    return rows, right


def singular_system(rng, fmt, n=None):
    """Whole numbers, so that some are found to be singular."""
    n = n or max(2, some_size(rng))
    rows, right = integer_system(rng, fmt, n)
    i, j = rng.randrange(n), rng.randrange(n)
    pick = rng.randrange(5)
    if pick == 0:
        rows[i] = [rng.choice((0.0, -0.0)) for _ in range(n)]
    elif pick == 1:
        for row in rows:
            row[j] = rng.choice((0.0, -0.0))
    elif pick == 2:
        scale = rng.choice((1, -1, 2)) if i != j else 0
        rows[i] = [scale * v for v in rows[j]]
    elif pick == 3:
        for row in rows:
            row[i] = row[j]
    else:
        rows = [[float((r + 1) * (c + 1)) for c in range(n)] for r in range(n)]
    return rows, right


def equal_pivot_system(rng, fmt, n=None):
    n = n or some_size(rng)
    values = rng.choice(((1.0, -1.0), (1.0, -1.0, 0.0), (3.0, -3.0, 1.0), (2.0, -2.0, 1.0, -1.0)))
    return [[rng.choice(values) for _ in range(n)] for _ in range(n)], plain_right(rng, n)


def signed_zero_system(rng, fmt, n=None):
    """Scattered entries among zeros of both signs, mostly on a permuted diagonal."""
    n = n or some_size(rng)
    zero = lambda: rng.choice((0.0, -0.0))
    rows = [[zero() if rng.random() < 0.8 else rng.choice((1.0, -1.0, 2.0, 0.5)) for _ in range(n)] for _ in range(n)]
    for i, j in enumerate(rng.sample(range(n), n)):
        rows[i][j] = rng.choice((1.0, -1.0, 4.0, -3.0)) if rng.random() < 0.95 else zero()
    return rows, [zero() if rng.random() < 0.5 else float(rng.randint(-3, 3)) for _ in range(n)]


def truss_system(rng, fmt, n=None):
    """The stiffness matrix of a grid of nodes with bars along it and across it, the first column of nodes held."""
    down = rng.randint(1, 3)
    across = max(2, (n or rng.randint(4, 24)) // (2 * down) + 1)
    nodes = [(x, y) for x in range(across) for y in range(down)]
    free = {node: i for i, node in enumerate(node for node in nodes if node[0] > 0)}
    size = min(2 * len(free), 128)
    rows = [[0.0] * size for _ in range(size)]
    for x, y in nodes:
        for dx, dy in (1, 0), (0, 1), (1, 1), (1, -1):
            if (x + dx, y + dy) not in nodes:
                continue
            stiffness = rng.choice((1.0, 12.5, rng.uniform(1, 200)))
            length = math.hypot(dx, dy)
            ends = [(free.get((x, y)), 1), (free.get((x + dx, y + dy)), -1)]
            parts = [(2 * at + axis, sign * d / length) for at, sign in ends if at is not None
                     for axis, d in ((0, dx), (1, dy)) if 2 * at + axis < size]
            for i, c in parts:
                for j, s in parts:
                    rows[i][j] += stiffness * c * s
    return rows, [rng.choice((0.0, 0.0, 10.0, -6.0)) for _ in range(size)]


def band_system(rng, fmt, n=None):
    n = n or max(2, some_size(rng))
    stencil = rng.choice(((2.0, -1.0), (4.0, -1.0), (6.0, -4.0, 1.0), (2.0, -1.0, 0.0, 0.5)))
    scales = [rng.choice((1.0, 1.0, rng.uniform(0.5, 2))) for _ in range(n)]
    rows = [[stencil[abs(i - j)] * scales[i] if abs(i - j) < len(stencil) else 0.0 for j in range(n)] for i in range(n)]
    return rows, plain_right(rng, n)


def triangular_system(rng, fmt, n=None):
    n = n or some_size(rng)
    rows, right = integer_system(rng, fmt, n)
    upper = rng.random() < 0.5
    for i in range(n):
        for j in range(n):
            if (j < i) == upper and i != j:
                rows[i][j] = rng.choice((0.0, -0.0))
        rows[i][i] = rows[i][i] or 1.0
    if rng.random() < 0.5:
        rng.shuffle(rows)
    return rows, right


def growth_system(rng, fmt, n=None):
    """The last column doubles with every column eliminated, and overflows at some column or not at all."""
    n = n or max(2, some_size(rng))
    power = fmt.top - 1 - rng.randint(0, n)
    rows = [[1.0 if i == j else -1.0 if j < i else 0.0 for j in range(n)] for i in range(n)]
    for row in rows:
        row[-1] = math.ldexp(1 - rng.choice((0, 2.0**-fmt.digits)), power)
    return rows, plain_right(rng, n)


def spread_system(rng, fmt, n=None):
    """Entries whose powers of two are spread over some part of the range."""
    n = n or some_size(rng)
    reach = rng.choice((fmt.top // 40, fmt.top // 8, fmt.top // 4, fmt.top // 2, fmt.top - 1))
    value = lambda: spread(rng, fmt, -reach, reach) if rng.random() < 0.8 else rng.choice((0.0, -0.0, 1.0))
    return [[value() for _ in range(n)] for _ in range(n)], [value() for _ in range(n)]


def late_spread_system(rng, fmt, n=None):
    """A block of moderate entries, then one of spread powers of two, so that columns after the first are refused."""
    n = n or max(2, some_size(rng))
    start = rng.randrange(n)
    part = rng.choice((2, 3))
    coupled = rng.random() < 0.3
    rows = [[0.0] * n for _ in range(n)]
    for i in range(n):
        for j in range(n):
            if j < start <= i:
                rows[i][j] = float(rng.randint(-1, 1)) if coupled else rng.choice((0.0, -0.0))
            elif i < start:
                rows[i][j] = float(rng.randint(-4, 4)) + (20.0 if i == j else 0)
            else:
                far = rng.random() < 0.7
                rows[i][j] = spread(rng, fmt, -fmt.top // part, fmt.top // part) if far else rng.choice((0.0, 1.0))
    if rng.random() < 0.5:
        rng.shuffle(rows)
    return rows, plain_right(rng, n)


def spread_right_system(rng, fmt, n=None):
    """A moderate matrix, and a right side of spread powers of two, so that solving is refused."""
    rows, _ = rng.choice((integer_system, triangular_system, band_system, signed_zero_system))(rng, fmt, n)
    return rows, spread_right(rng, fmt, len(rows))


def spread_right(rng, fmt, n):
    part = rng.choice((1, 2, 8))
    value = lambda: spread(rng, fmt, max(fmt.least, -fmt.top // part), fmt.top // part - 1)
    return [value() if rng.random() < 0.6 else rng.choice((0.0, -0.0, 1.0)) for _ in range(n)]


def about(rng, fmt, power):
    """2^power, or a value next to it."""
    steps = rng.choice((0, 0, 0, -0.5, -0.5, -1, 1, 2))
    return rng.choice((1, -1)) * math.ldexp(1 + steps * 2.0 ** (1 - fmt.digits), power)


def edge_system(rng, fmt, n=None):
    """One quotient, product or difference at the edge of the range, among ones on a permuted diagonal."""
    n = max(2, n or rng.randint(2, 6))
    part = rng.randint(1, -fmt.in_range - 1)
    i, j = sorted(rng.sample(range(n), 2))
    rows = [[float(r == c) for c in range(n)] for r in range(n)]
    right = [float(rng.randint(0, 2)) for _ in range(n)]
    pick = rng.randrange(6)
    if pick == 0:                                              # a product
        rows[j][i], rows[i][j] = about(rng, fmt, -part), about(rng, fmt, fmt.in_range + part)
    elif pick == 1:                                            # a quotient
        large = rng.randint(1, fmt.top - 2)
        rows[i][i], rows[j][i] = about(rng, fmt, large), about(rng, fmt, fmt.in_range + large)
    elif pick == 2:                                            # a difference
        rows[j][j] = largest(fmt)
        rows[i][j] = about(rng, fmt, fmt.top - fmt.digits - 1 + rng.randint(-1, 1))
        rows[j][i] = rng.choice((1.0, -1.0))
    elif pick == 3:                                            # a product of the forward solve
        rows[j][i], right[i] = about(rng, fmt, -part), about(rng, fmt, fmt.in_range + part)
    elif pick == 4:                                            # a product of the backward solve
        rows[i][j], right[j] = about(rng, fmt, -part), about(rng, fmt, fmt.in_range + part)
    else:                                                      # a quotient of the backward solve
        large = rng.randint(-fmt.top + 3, fmt.top - 2)
        edge = fmt.in_range if large > 0 or rng.random() < 0.5 else fmt.top
        rows[i][i] = about(rng, fmt, large)
        right[i] = about(rng, fmt, min(fmt.top - 2, max(fmt.least + fmt.digits, edge + large)))
    if rng.random() < 0.5:
        both = list(zip(rows, right))
        rng.shuffle(both)
        rows, right = [list(part) for part in zip(*both)]
    return rows, right


def subnormal_system(rng, fmt, n=None):
    """Values at both ends of the format, mostly with multipliers of 1 or 0, so that some answer."""
    n = n or rng.randint(1, 5)
    low = rng.random() < 0.5
    base = fmt.least + rng.randint(0, fmt.digits) if low else fmt.top - 1 - rng.randint(8, 12)
    value = lambda: math.ldexp(rng.choice((1, -1, 0, 3) * 2 + (rng.getrandbits(8),)), base)
    return [[value() for _ in range(n)] for _ in range(n)], [value() for _ in range(n)]


def large_system(rng, fmt, n=None):
    n = rng.choice((128, 127, rng.randint(64, 128), rng.randint(64, 128)))
    make = rng.choice((random_system, integer_system, nearly_singular_system, singular_system, signed_zero_system,
                       truss_system, band_system, triangular_system, growth_system, late_spread_system,
                       spread_right_system))
    return make(rng, fmt, n)


KINDS = {
    "random": random_system, "integers": integer_system, "hilbert": hilbert_system,
    "nearly singular": nearly_singular_system, "singular": singular_system, "equal pivots": equal_pivot_system,
    "signed zeros": signed_zero_system, "truss": truss_system, "band": band_system, "triangular": triangular_system,
    "growth": growth_system, "spread powers": spread_system, "late spread powers": late_spread_system,
    "spread right side": spread_right_system, "edge": edge_system, "subnormal": subnormal_system,
}
