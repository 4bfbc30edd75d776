"""Words for generated cases: values of a format, their forms, words at the edges and beyond them, words as a text."""
import collections
import math
import struct
from fractions import Fraction

# suffix of the head; digits; powers of two of the least value, above the largest, and of the least result in range
Format = collections.namedtuple("Format", "suffix digits least top in_range")
BINARY64 = Format("", 53, -1074, 1024, -1000)
BINARY32 = Format("32", 24, -149, 128, -110)

# Words that are no number, in either format or in binary32.
BAD_WORDS = """
    . - -. .. 1.. ..1 1.2.3 +1 --1 1- -1-1 1e3 1E3 1,5 1_000 1' inf nan Infinity NaN z 0z 1f 1d 0.1f 0b1 / 1/3 # ; " ( $
    1234567890123456 0.000000000000000 -0000000000000000 ١ −1 ½ é system factors
    0x 0xp 0xp0 0x1 0x10 0x1p 0x1p- 0X1p0 0x1P0 0X1P0 x1p0 xp 1p0 00x1p0 0xgp0 0x1_0p0 0x1.8p1 0x1p1.0 0x1p1f
    0x1p0x1 0x1p0p0 0x1p0, +0x1p0 --0x1p0 0x-1p0 0x1p+1 0x1p--1 0x1p00001 0x1p-00001 0x000000000000001p0
    0x1p1024 0x1p9999 0x1p-1075 0x3p-1075 0x3p-1076 0x1p-9999 0xffffffffffffffp0 0x1fffffffffffffp972
    0x3fffffffffffffp970 0x1000001p0 0x1p-150 0x3p-150 0x1p128 0x1ffffffp103
    """.encode().split() + [
    b"\x00", b"1\x00", b"\x001", b"0x1\x00p0", b"0x1p0\x00", b"\x0b", b"\x0c", b"1\x0b2", b"1\x0c2", b"\x1f", b"\x7f",
    b"\x80", b"\x851", b"1\xa0", b"\xa01", b"\xc2\xa01", b"\xef\xbb\xbf1", b"\xff"]

# Words that are not all decimal digits, and ones that are and stand for a number that is too large.
BAD_WHOLES = "-0 -1 +1 1.0 1. .1 0x1 0x0p0 1e0 x z 1x 1,2 ٣ ２".encode().split() + [b"1\x00", b"\x00", b"1\x0b", b"\xb2"]
LARGE_WHOLES = b"""
    129 0000129 255 256 257 384 65535 65536 65537 4294967295 4294967296 4294967297 18446744073709551616
    18446744073709551617 340282366920938463463374607431768211457 """.split()

# First words of a text, right and wrong.
HEADS = b"""
    system system32 factors factors32 System SYSTEM systems system64 system3 system320 system32x system-32 syste s
    Factors factor factors3 factors64 answer 1""".split() + [
    b"system\x00", b"\x00system", b"\x0bsystem", b"system\x0c1", b"\xef\xbb\xbfsystem"]


# ---- Values ----

def nearest(fmt, value):
    """The float nearest to a float in the format, and the largest if there is none."""
    if fmt is BINARY64:
        return value
    try:
        return struct.unpack("f", struct.pack("f", value))[0]
    except OverflowError:
        return math.copysign(largest(fmt), value)


def largest(fmt):
    return math.ldexp(2**fmt.digits - 1, fmt.top - fmt.digits)


def spread(rng, fmt, low=None, high=None):
    """A float of the format whose leading digit has a power between the given ones."""
    power = rng.randint(fmt.least if low is None else low, fmt.top - 1 if high is None else high)
    width = rng.randint(1, min(fmt.digits, power - fmt.least + 1))
    whole = rng.choice((1, rng.getrandbits(width), 2**width - 1)) | 1 << (width - 1)
    return math.ldexp(rng.choice((1, -1)) * whole, power - width + 1)


# ---- Forms of a value ----

def odd_and_power(value):
    above, below = abs(value).as_integer_ratio()
    shift = (above & -above).bit_length() - 1 if above else 0
    return above >> shift, shift - (below.bit_length() - 1)


def hexadecimal(rng, whole, width=0):
    digits = f"{whole:0{width}x}"
    return "".join(rng.choice((c, c.upper())) for c in digits) if rng.random() < 0.5 else digits


def exact_word(rng, value, plain):
    """An exact form of a float: the printed one, or any other."""
    sign = "-" if math.copysign(1, value) < 0 else ""
    whole, power = odd_and_power(value)
    if plain:
        return f"{sign}0x{whole:x}p{power}"
    if whole == 0:
        power = rng.choice((0, -1, 9999, -9999, rng.randint(-2000, 2000)))
    shift = rng.randint(0, 56 - whole.bit_length())
    whole, power = whole << shift, power - (shift if whole else 0)
    digits = hexadecimal(rng, whole, rng.randint(1, 14) if rng.random() < 0.3 else 0)
    powers = f"{abs(power):0{rng.randint(1, 4)}}"
    minus = "-" if power < 0 or (power == 0 and rng.random() < 0.3) else ""
    return f"{sign}0x{digits}p{minus}{powers}"


def decimal_word(rng, value, plain):
    """A decimal near a float of magnitude below 10^14."""
    sign = "-" if math.copysign(1, value) < 0 else ""
    if value == int(value) and (plain or rng.random() < 0.5):
        digits, point = str(int(abs(value))), rng.choice(("", "", "."))
    else:
        places = rng.randint(1, 14 - len(str(int(abs(value)))) + 1)
        digits, point = f"{abs(value):.{places}f}", ""
        if sum(c.isdigit() for c in digits) > 15:
            digits = digits[:-1]
    if plain:
        return sign + digits
    if digits.startswith("0.") and rng.random() < 0.5:
        digits = digits[1:]
    if "." in digits and rng.random() < 0.3:
        digits = digits.rstrip("0") if any(c in "123456789" for c in digits) else digits
    spare = 15 - sum(c.isdigit() for c in digits)
    if rng.random() < 0.2:
        digits = "0" * rng.randint(0, spare) + digits
    return sign + digits + (point if "." not in digits else "")


def word(rng, value, style):
    """A word for a float: the style is `decimal`, `exact`, `printed` or `mixed`."""
    if style == "mixed":
        style = rng.choice(("decimal", "exact", "printed"))
    if style == "decimal" and abs(value) < 1e14 and (value == 0 or abs(value) > 1e-12):
        return decimal_word(rng, value, rng.random() < 0.5).encode()
    return exact_word(rng, value, style == "printed").encode()


# ---- Words at an edge, and words that may be no number ----

def tie_word(rng):
    """A decimal at the middle of two values of binary32, or so near that its binary64 value is that middle."""
    at_middle = rng.random() < 0.4
    while True:
        middle = math.ldexp(2 * rng.randint(2**23, 2**24 - 1) + 1, rng.randint(-60, 24))
        digits = f"{middle:.{max(15 - len(str(int(middle))), 0)}f}"
        if sum(c.isdigit() for c in digits) > 15 or float(digits) != middle:
            continue
        if (Fraction(digits) == Fraction(middle)) == at_middle:
            return (rng.choice(("", "-")) + digits).encode()


def edge_word(rng, fmt):
    """An exact form at the edges of what the format has."""
    width = rng.choice((1, 2, fmt.digits - 1, fmt.digits, fmt.digits + 1, 53, 54, 56))
    whole = rng.getrandbits(width) | 1 << (width - 1)
    if rng.random() < 0.7:
        shift = rng.randint(0, width - 1)
        whole = whole >> shift << shift
    if rng.random() < 0.5:
        power = fmt.top - width + rng.randint(-1, 1)
    else:
        power = fmt.least - ((whole & -whole).bit_length() - 1) + rng.randint(-1, 1)
    return f"{rng.choice(('', '-'))}0x{hexadecimal(rng, whole)}p{power}".encode()


def changed_word(rng, old):
    """A word with a byte taken out, put in or replaced; it may still be a number."""
    byte = bytes([rng.choice((*b"0123456789abcdefABCDEFxXpP.-+,eE_\x00\x0b\x0c\xa0\xff", rng.randrange(256)))])
    at = rng.randint(0, len(old))
    return rng.choice((old[:at] + old[at + 1:], old[:at] + byte + old[at:], old[:at] + byte + old[at + 1:])) or b"-"


def odd_word(rng, fmt):
    """A word that may or may not be a number."""
    pick = rng.random()
    if pick < 0.4:
        return rng.choice(BAD_WORDS)
    if pick < 0.6:
        return edge_word(rng, fmt)
    if pick < 0.7:
        return tie_word(rng)
    return changed_word(rng, word(rng, spread(rng, fmt), "mixed"))


# ---- Texts ----

def spaced(rng, words, n):
    """The words as a text: rows in lines, all in one line, or with odd separators."""
    pick = rng.random()
    if pick < 0.4:
        return b" ".join(words) + b"\n" * rng.randint(0, 1)
    if pick < 0.7:
        end = rng.choice((b"\n", b"\r\n"))
        lines = [words[:2]] + [words[i:i + n] for i in range(2, len(words), n)]
        return end.join(b" ".join(line) for line in lines) + rng.choice((end, b""))
    marks = (b" ", b"\t", b"\n", b"\r", b"\r\n", b"  ", b" \t ", b"\n\n\n", b"\t\r\n ")
    gaps = rng.choices(marks, k=len(words) + 1)
    text = b"".join(a + b for a, b in zip(gaps, words))
    return (text if rng.random() < 0.5 else text[len(gaps[0]):]) + (gaps[-1] if rng.random() < 0.5 else b"")


def system_words(rng, fmt, rows, right):
    style = rng.choice(("decimal", "exact", "printed", "mixed"))
    words = [b"system" + fmt.suffix.encode(), size_word(rng, len(rows))]
    for row, b in zip(rows, right):
        words += [word(rng, nearest(fmt, v), style) for v in row]
        words.append(word(rng, nearest(fmt, b), style))
    return words


def size_word(rng, n):
    return (b"0" * rng.choice((1, 7, 40)) if rng.random() < 0.05 else b"") + str(n).encode()
